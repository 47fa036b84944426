//! A text out of a file, and what the proved compiler says of it.

use std::path::Path;

use rabtishu::{Refusal, LONGEST_TEXT};

use crate::diagnostic::Diagnostic;
use crate::failure::Failure;
use crate::files;

/// A text with the name of its file.
pub struct Text {
    /// The file, as it is shown.
    pub file: String,
    /// The text; of one that is too long only as much as shows that it is.
    pub bytes: Vec<u8>,
    /// How many bytes the file has.
    pub length: u64,
}

impl Text {
    /// Reads a text.
    pub fn read(path: &Path) -> Result<Text, Failure> {
        let bytes = files::read(path, LONGEST_TEXT + 1)?;
        let read = bytes.len() as u64;
        let length = files::length(path).filter(|_| read > LONGEST_TEXT as u64);
        Ok(Text {
            file: files::shown(path),
            bytes,
            length: length.unwrap_or(read),
        })
    }

    /// A text that is at hand.
    pub fn of(file: &str, bytes: &[u8]) -> Text {
        let (file, length) = (file.to_string(), bytes.len() as u64);
        Text {
            file,
            bytes: bytes.to_vec(),
            length,
        }
    }

    /// The image of the text, or why there is none.
    pub fn compile(&self) -> Result<Vec<u8>, Refusal> {
        rabtishu::compile(&self.bytes)
    }

    /// A refusal of this text in words.
    pub fn diagnostic(&self, refusal: Refusal) -> Diagnostic {
        Diagnostic::of_text(&self.file, &self.bytes, self.length, refusal)
    }

    /// A refusal of this text as what ends a command.
    pub fn refused(&self, refusal: Refusal) -> Failure {
        Failure::Refused(Box::new(self.diagnostic(refusal)))
    }
}

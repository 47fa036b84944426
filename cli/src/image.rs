//! An image out of a file, opened by the proved function or refused in words.

use std::path::Path;

use rabtishu::{Image, Refusal, LONGEST_IMAGE};

use crate::diagnostic::Diagnostic;
use crate::failure::Failure;
use crate::files;
use crate::signals::Signals;
use crate::text::Text;

/// The bytes of an image with the name of their file.
pub struct ImageFile {
    /// The file, as it is shown.
    pub file: String,
    bytes: Vec<u8>,
}

impl ImageFile {
    /// Reads the bytes; of a file that is too long only as much as shows that it is.
    pub fn read(path: &Path) -> Result<ImageFile, Failure> {
        let bytes = files::read(path, LONGEST_IMAGE + 1)?;
        Ok(ImageFile {
            file: files::shown(path),
            bytes,
        })
    }

    /// The image.
    pub fn open(&self) -> Result<Image<'_>, Failure> {
        Image::open(&self.bytes).map_err(|refusal| {
            let words = self.words(refusal);
            Failure::Refused(Box::new(Diagnostic::of_file(&self.file, words, refusal)))
        })
    }

    /// What is wrong with the bytes.
    fn words(&self, refusal: Refusal) -> String {
        let bytes = &self.bytes;
        match refusal.number {
            11 if bytes.len() > LONGEST_IMAGE => {
                format!("a file of more than {LONGEST_IMAGE} bytes is no image")
            }
            11 if bytes.len() < 28 => format!("a file of {} bytes is no image", bytes.len()),
            11 => match u16::from_le_bytes([bytes[0], bytes[1]]) {
                1 => "the sections do not fit each other or the file".to_string(),
                form => format!("this is no image of form 1; its first bytes say {form}"),
            },
            12 => "counts, types or initial values are not as an image has them".to_string(),
            _ => self.line_words(refusal.place as usize),
        }
    }

    /// Which line is bad. The sections are good where lines are judged.
    fn line_words(&self, line: usize) -> String {
        let number =
            |at: usize| u32::from_le_bytes(std::array::from_fn(|i| self.bytes[at + i])) as usize;
        let (start, count) = (number(12), number(16) / 12);
        match line < count {
            true => format!(
                "line {line} of {count} is bad; it stands at byte {} of the file",
                start + 12 * line
            ),
            false => format!("all {count} lines are good, and code is left behind the last one's"),
        }
    }
}

/// The names for an image: those of a text that compiles to it, or made up ones.
pub fn names(image: &Image, text: Option<&Path>) -> Result<Signals, Failure> {
    let Some(path) = text else {
        return Ok(Signals::of_image(image));
    };
    let text = Text::read(path)?;
    match text.compile() {
        Ok(bytes) if bytes == image.bytes() => Ok(Signals::of_text(&text.bytes)),
        Ok(_) => Err(Failure::Trouble(format!(
            "{} is the text of another image",
            text.file
        ))),
        Err(refusal) => Err(text.refused(refusal)),
    }
}

//! `rabtishu compile`.

use std::path::{Path, PathBuf};

use rabtishu::{compile_into, Refusal, LONGEST_IMAGE};

use crate::arguments::Arguments;
use crate::diagnostic::Diagnostic;
use crate::failure::Failure;
use crate::files;
use crate::text::Text;

/// Writes the image of a text.
pub fn perform(arguments: &Arguments) -> Result<(), Failure> {
    let path = arguments.operand(0);
    form(arguments)?;
    let room = arguments
        .number("--room")?
        .unwrap_or(LONGEST_IMAGE)
        .min(LONGEST_IMAGE);
    let output = arguments
        .path("-o")
        .map_or_else(|| beside(path), |given| Ok(given.to_path_buf()))?;
    let text = Text::read(path)?;
    let mut image = vec![0; room];
    match compile_into(&text.bytes, &mut image) {
        Ok(length) => store(&output, &image[..length]),
        Err(refusal @ Refusal { number: 10, place }) => {
            let words = format!("the image has {place} bytes, and there is room for {room}");
            Err(Failure::Refused(Box::new(Diagnostic::of_file(
                &text.file, words, refusal,
            ))))
        }
        Err(refusal) => Err(text.refused(refusal)),
    }
}

/// The form that is asked for, which must be one that is written.
pub fn form(arguments: &Arguments) -> Result<(), Failure> {
    match arguments.number("--form")? {
        None | Some(1) => Ok(()),
        Some(other) => {
            let words = format!("there is no form {other} in this version, which has form 1 alone");
            Err(Failure::Misuse(words))
        }
    }
}

/// The image's place where none is given: beside the text.
fn beside(text: &Path) -> Result<PathBuf, Failure> {
    let image = text.with_extension("image");
    match files::is_standard(text) || image == text {
        true => Err(Failure::Misuse("compile needs -o IMAGE here".to_string())),
        false => Ok(image),
    }
}

/// Stores an image; where it is printed, nothing else is.
fn store(output: &Path, image: &[u8]) -> Result<(), Failure> {
    if files::is_standard(output) {
        return files::print(image);
    }
    files::write(output, image)?;
    files::print(format!("{}: {} bytes, form 1\n", output.display(), image.len()).as_bytes())
}

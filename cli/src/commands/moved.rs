//! `rabtishu move`.

use crate::arguments::Arguments;
use crate::commands::compile::form;
use crate::failure::Failure;
use crate::image::ImageFile;

/// Opens the image, and says that there is no other form to move it to.
pub fn perform(arguments: &Arguments) -> Result<(), Failure> {
    if arguments.number("--form")?.is_none() || arguments.path("-o").is_none() {
        return Err(Failure::Misuse(
            "usage: rabtishu move IMAGE --form N -o FILE".to_string(),
        ));
    }
    form(arguments)?;
    let file = ImageFile::read(arguments.operand(0))?;
    file.open()?;
    let words = format!(
        "{} has form 1, and this version has no other to move it to",
        file.file
    );
    Err(Failure::Misuse(words))
}

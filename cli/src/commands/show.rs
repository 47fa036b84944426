//! `rabtishu show`.

use crate::arguments::Arguments;
use crate::failure::Failure;
use crate::files;
use crate::image::{names, ImageFile};
use crate::show::show;

/// Prints an image in words.
pub fn perform(arguments: &Arguments) -> Result<(), Failure> {
    let file = ImageFile::read(arguments.operand(0))?;
    let image = file.open()?;
    let names = names(&image, arguments.path("--names"))?;
    files::print(show(&image, &names).as_bytes())
}

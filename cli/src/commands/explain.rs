//! `rabtishu explain`.

use crate::arguments::Arguments;
use crate::failure::Failure;
use crate::files;
use crate::refusals;

/// Prints what docs/REFUSALS.md has on a refusal.
pub fn perform(arguments: &Arguments) -> Result<(), Failure> {
    let given = arguments.operand(0).display().to_string();
    let number = given.parse().ok();
    match number.and_then(|number| Some((number, refusals::section(number)?))) {
        Some((number, (title, text))) => {
            files::print(format!("{number}, {title}\n\n{text}\n").as_bytes())
        }
        None => {
            let last = refusals::numbers().max().unwrap_or(0);
            Err(Failure::Misuse(format!(
                "refusals have the numbers 1 to {last}, and {given} is none of them"
            )))
        }
    }
}

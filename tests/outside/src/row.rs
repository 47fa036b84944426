//! Refusal 14: "input or output row not as long as its count; else input value", at "0; its index".

use crate::answer::{refusal, Outcome};
use crate::tree::Type;

/// Judges the rows of a cycle; `kinds` are the types of the data inputs.
pub fn check(
    inputs: &[i32],
    kinds: impl ExactSizeIterator<Item = Type>,
    room: usize,
    outputs: usize,
) -> Outcome<()> {
    if inputs.len() != kinds.len() || room != outputs {
        return Err(refusal(14, 0));
    }
    let mut values = inputs.iter().zip(kinds);
    match values.position(|(value, kind)| !kind.holds(*value)) {
        Some(index) => Err(refusal(14, index)),
        None => Ok(()),
    }
}

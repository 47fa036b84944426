//! Many rows in one call (change request 1): "a row count, all input rows end to end, all output
//! rows, and three numbers per row as answer (refusal number or 0, its place or 0, lines). The
//! result must equal the same rows given singly."

use crate::answer::{answer, refusal, Outcome};
use crate::loader::open;
use crate::state::State;
use crate::table::cycle_opened;

/// The numbers of an answer.
const NUMBERS: usize = 3;

/// All rows on an image that is opened once, each from the state that the row before it left. 17 is
/// "after 13, before 14, writing nothing"; 14 to 16 and 18 are a row's own, and the next row follows.
pub fn cycles(
    image: &[u8],
    state: &mut State,
    count: usize,
    inputs: &[i32],
    outputs: &mut [i32],
    answers: &mut [u32],
) -> Outcome<()> {
    let image = open(image)?;
    let (width, room) = (image.inputs().len(), image.outputs().len());
    let due = is_due(inputs.len(), count, width)
        && is_due(outputs.len(), count, room)
        && is_due(answers.len(), count, NUMBERS);
    if !due {
        return Err(refusal(17, 0));
    }
    // A row may be empty, so parts are counted from their answers, which never are.
    for (row, told) in answers.chunks_exact_mut(NUMBERS).enumerate() {
        let values = &inputs[row * width..][..width];
        let part = &mut outputs[row * room..][..room];
        told.copy_from_slice(&answer(cycle_opened(&image, state, values, part, |_| {})));
    }
    Ok(())
}

/// "an input, output or answer length that is not the count's due": the product is exact, however
/// large the count is.
fn is_due(length: usize, count: usize, width: usize) -> bool {
    length as u128 == count as u128 * width as u128
}

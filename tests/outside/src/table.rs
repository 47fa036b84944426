//! The cycle on a table: "image, state, input row to state, output row" (refusals 14, 15, then 16 or
//! 18, after those of the opener).

use crate::answer::{refusal, Outcome};
use crate::encoder::{
    BRANCH, CODE_INPUT, CODE_INTEGER, CODE_STD_LOGIC, CODE_VARIABLE, OUTPUT, VARIABLE, WAIT,
};
use crate::limits::ITEMS;
use crate::loader::{open, Image};
use crate::row;
use crate::state::{self, State, BEGINNING, OUTPUTS, VARIABLES};

/// The fresh state of an image.
pub fn fresh(image: &[u8]) -> Outcome<State> {
    let image = open(image)?;
    Ok(state::fresh(image.outputs(), image.variables()))
}

/// One cycle on an image. "A cycle advances the caller's own state record and answers the number of
/// lines performed, the wait it ends on included."
pub fn cycle(image: &[u8], state: &mut State, inputs: &[i32], outputs: &mut [i32]) -> Outcome<u32> {
    let image = open(image)?;
    cycle_opened(&image, state, inputs, outputs, |_| {})
}

/// One cycle on an opened image; `visit` is shown each line performed.
pub fn cycle_opened(
    image: &Image,
    state: &mut State,
    inputs: &[i32],
    outputs: &mut [i32],
    mut visit: impl FnMut(usize),
) -> Outcome<u32> {
    row::check(inputs, image.inputs(), outputs.len(), image.outputs().len())?;
    state::check(
        state,
        image.outputs().map(|slot| slot.kind),
        image.variables().map(|slot| slot.kind),
        |line| line < image.count() && image.line(line).kind == WAIT,
    )?;
    let mut after = *state;
    let mut lines = 0;
    let mut at = match state[0] {
        BEGINNING => 0,
        wait => usize::from(image.line(wait as usize).next),
    };
    loop {
        let line = image.line(at);
        let code = image.code_of(&line).unwrap_or(&[]);
        lines += 1;
        visit(at);
        let target = usize::from(line.target);
        let mut next = line.next;
        match line.kind {
            WAIT => break,
            OUTPUT => after[OUTPUTS + target] = value(code, inputs, &after, at)?,
            VARIABLE => after[VARIABLES + target] = value(code, inputs, &after, at)?,
            // "a branch takes next if true, other if false."
            BRANCH if value(code, inputs, &after, at)? == 0 => next = line.other,
            _ => {}
        }
        at = usize::from(next);
    }
    after[0] = at as i32;
    *state = after;
    outputs.copy_from_slice(&after[OUTPUTS..OUTPUTS + outputs.len()]);
    Ok(lines)
}

/// The value that good code leaves, or a refusal at its line: 16, "result of `+`, `-` or sign outside
/// integer", and 18, "a zero divisor" (change request 2); they "go by whichever operator is reached
/// first".
fn value(code: &[u8], inputs: &[i32], state: &State, line: usize) -> Outcome<i32> {
    let mut stack = [0i32; ITEMS];
    let mut height = 0;
    let mut at = 0;
    while at < code.len() {
        let operation = code[at];
        at += 1;
        if operation < 16 {
            let index = usize::from(code[at]);
            stack[height] = match operation {
                CODE_INTEGER => {
                    i32::from_le_bytes([code[at], code[at + 1], code[at + 2], code[at + 3]])
                }
                CODE_STD_LOGIC => i32::from(code[at]),
                CODE_INPUT => inputs[index],
                CODE_VARIABLE => state[VARIABLES + index],
                _ => unreachable!("an opened image has no other codes"),
            };
            at += if operation == CODE_INTEGER { 4 } else { 1 };
            height += 1;
            continue;
        }
        if operation < 18 {
            let operand = stack[height - 1];
            stack[height - 1] = match operation {
                16 => operand.checked_neg().ok_or(refusal(16, line))?,
                _ => 1 - operand,
            };
            continue;
        }
        height -= 1;
        stack[height - 1] = applied(operation, stack[height - 1], stack[height], line)?;
    }
    Ok(stack[0])
}

/// The result of a binary operator, by its code.
fn applied(operation: u8, left: i32, right: i32, line: usize) -> Outcome<i32> {
    let outside = refusal(16, line);
    Ok(match operation {
        18 => left.checked_add(right).ok_or(outside)?,
        19 => left.checked_sub(right).ok_or(outside)?,
        20 => i32::from(left == right),
        21 => i32::from(left != right),
        22 => i32::from(left < right),
        23 => i32::from(left <= right),
        24 => i32::from(left > right),
        25 => i32::from(left >= right),
        26 => left & right,
        27 => left | right,
        28 => left ^ right,
        29 => left.checked_mul(right).ok_or(outside)?,
        _ if right == 0 => return Err(refusal(18, line)),
        // "the least integer divided by -1" is the one quotient outside integer.
        30 => left.checked_div(right).ok_or(outside)?,
        31 => modulus(left, right),
        // "the latter's `mod` and `rem` by -1 are 0."
        _ => left.wrapping_rem(right),
    })
}

/// IEEE 1076: A = B * N + (A mod B), where N is the largest integer that is at most A / B, since the
/// result has the sign of B. No N that is taken times B leaves 64 bits.
fn modulus(left: i32, right: i32) -> i32 {
    let (a, b) = (i64::from(left), i64::from(right));
    let below = if b < 0 {
        (-a).div_euclid(-b)
    } else {
        a.div_euclid(b)
    };
    (a - b * below) as i32
}

//! The state record: "A place (512 for the beginning, else a wait's line), 16 output and 32
//! variable slots, unused ones 0, a std_logic slot 0 or 1." Laid out as 49 numbers.

use crate::answer::{refusal, Outcome};
use crate::design::Slot;
use crate::tree::Type;

pub type State = [i32; 49];

/// The place of the beginning.
pub const BEGINNING: i32 = 512;
/// The first output slot; outputs are `state[OUTPUTS..VARIABLES]`.
pub const OUTPUTS: usize = 1;
/// The first variable slot; variables are `state[VARIABLES..]`.
pub const VARIABLES: usize = 17;

/// "The fresh state has place 512 and the initial values."
pub fn fresh(outputs: impl Iterator<Item = Slot>, variables: impl Iterator<Item = Slot>) -> State {
    let mut state = [0; 49];
    state[0] = BEGINNING;
    for (slot, value) in state[OUTPUTS..VARIABLES].iter_mut().zip(outputs) {
        *slot = value.initial;
    }
    for (slot, value) in state[VARIABLES..].iter_mut().zip(variables) {
        *slot = value.initial;
    }
    state
}

/// Refusal 15: "place or slot not as the State section has it for the image or text", at 0.
pub fn check(
    state: &State,
    outputs: impl Iterator<Item = Type>,
    variables: impl Iterator<Item = Type>,
    is_wait: impl Fn(usize) -> bool,
) -> Outcome<()> {
    let place = state[0];
    let at_wait = usize::try_from(place).is_ok_and(is_wait);
    let good = (place == BEGINNING || at_wait)
        && slots(&state[OUTPUTS..VARIABLES], outputs)
        && slots(&state[VARIABLES..], variables);
    if !good {
        return Err(refusal(15, 0));
    }
    Ok(())
}

fn slots(values: &[i32], mut kinds: impl Iterator<Item = Type>) -> bool {
    values.iter().all(|value| match kinds.next() {
        Some(kind) => kind.holds(*value),
        None => *value == 0,
    })
}

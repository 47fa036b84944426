//! State records, good and damaged.

use super::random::Random;
use crate::state::{State, BEGINNING, OUTPUTS, VARIABLES};
use crate::tree::Type;

/// A state that fits: the beginning or one of these waits, each slot of its type.
pub fn good(outputs: &[Type], variables: &[Type], waits: &[usize], random: &mut Random) -> State {
    let mut state = [0; 49];
    state[0] = BEGINNING;
    if !waits.is_empty() && random.chance(80) {
        state[0] = *random.pick(waits) as i32;
    }
    for (start, kinds) in [(OUTPUTS, outputs), (VARIABLES, variables)] {
        for (slot, kind) in state[start..].iter_mut().zip(kinds) {
            *slot = match kind {
                Type::StdLogic => random.below(2) as i32,
                Type::Integer => random.integer(),
            };
        }
    }
    state
}

/// A state with one number changed: often refused by 15.
pub fn damaged(state: &State, random: &mut Random) -> State {
    let mut state = *state;
    if random.chance(40) {
        let near = random.below(516) as i32 - 2;
        state[0] = *random.pick(&[near, 513, -1, 511, 65_536, 65_536 + 512, i32::MIN, i32::MAX]);
    } else {
        let slot = random.between(1, 48);
        state[slot] = *random.pick(&[1, 2, -1, i32::MIN, i32::MAX, 256, 0]);
    }
    state
}

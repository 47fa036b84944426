//! The eight public functions in the shape of the C interface, so that two implementations can be
//! held side by side.

use crate::answer::{answer, Answer, Outcome};
use crate::state::State;
use crate::{batch, direct, encoder, lexer, loader, table};

/// Many rows in one call.
pub type Cycles = fn(&[u8], &mut State, usize, &[i32], &mut [i32], &mut [u32]) -> Answer;

/// Eight functions. Nothing but the answer is written on a refusal.
#[derive(Clone, Copy)]
pub struct Board {
    pub name: &'static str,
    /// Text, image buffer; the count is the image's length.
    pub compile: fn(&[u8], &mut [u8]) -> Answer,
    /// Image.
    pub open: fn(&[u8]) -> Answer,
    /// Image, state.
    pub fresh: fn(&[u8], &mut State) -> Answer,
    /// Image, state, input row, output row; the count is the number of lines performed.
    pub cycle: fn(&[u8], &mut State, &[i32], &mut [i32]) -> Answer,
    /// Image, state, row count, input rows, output rows, three numbers for each row; the count in
    /// the answer is 0.
    pub cycles: Cycles,
    /// Text, state.
    pub direct_fresh: fn(&[u8], &mut State) -> Answer,
    /// Text, state, input row, output row; the count is the number of lines performed.
    pub direct: fn(&[u8], &mut State, &[i32], &mut [i32]) -> Answer,
    /// Text, place; the length of the token that starts there, or 0.
    pub token_at: fn(&[u8], usize) -> usize,
}

/// The implementation of this library.
pub const REFERENCE: Board = Board {
    name: "reference",
    compile: |text, buffer| answer(encoder::compile(text, buffer)),
    open: |image| answer(loader::open(image).map(|_| 0)),
    fresh: |image, state| stored(table::fresh(image), state),
    cycle: |image, state, inputs, outputs| answer(table::cycle(image, state, inputs, outputs)),
    cycles: |image, state, count, inputs, outputs, answers| {
        answer(batch::cycles(image, state, count, inputs, outputs, answers).map(|()| 0))
    },
    direct_fresh: |text, state| stored(direct::direct_fresh(text), state),
    direct: |text, state, inputs, outputs| answer(direct::direct(text, state, inputs, outputs)),
    token_at: |text, place| lexer::token_at(text, place).len(),
};

/// Stores a state, if there is one.
fn stored(outcome: Outcome<State>, state: &mut State) -> Answer {
    answer(outcome.map(|fresh| {
        *state = fresh;
        0
    }))
}

/// The boards at hand: this implementation and, where their archive is there, the proved crates, with
/// guards, without them, and with NULL for what is empty.
pub fn boards() -> Vec<Board> {
    #[cfg(proved)]
    return vec![
        REFERENCE,
        crate::proved::PROVED,
        crate::proved::PLAIN,
        crate::proved::NULLS,
    ];
    #[cfg(not(proved))]
    vec![REFERENCE]
}

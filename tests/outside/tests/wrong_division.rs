//! Boards that must be shut out, by an operator of change request 2: each is right but for one fault,
//! in both of its runs, and the pairs of edges, the random expressions, the random texts or the frozen
//! cases must find it.

use reference::answer::Answer;
use reference::arithmetic::{edges, expressions};
use reference::board::{Board, REFERENCE};
use reference::compare::{compiled, same_on_text};
use reference::encoder::{BRANCH, OUTPUT, VARIABLE, WAIT};
use reference::frozen::{check_image, check_text, request_images, request_texts};
use reference::generate::random::{Random, SEED};
use reference::generate::texts;
use reference::loader::{open, Image};
use reference::state::{State, OUTPUTS, VARIABLES};

const NONE: u8 = 0;
const MOD_SIGNED_BY_THE_LEFT: u8 = 1;
const REM_SIGNED_BY_THE_RIGHT: u8 = 2;
const EXCHANGED: u8 = 3;
const LEAST_BY_MINUS_ONE_IS_0: u8 = 4;
const LEAST_BY_MINUS_ONE_IS_LEAST: u8 = 5;
const LEAST_REM_MINUS_ONE_REFUSED: u8 = 6;
const TOLD_AS_16: u8 = 7;
const TOLD_AT_0: u8 = 8;
const QUOTIENT_ROUNDED_DOWN: u8 = 9;
const PRODUCT_CUT: u8 = 10;
const LEAST_PRODUCT_REFUSED: u8 = 11;
const DIVISOR_TESTED_ON_THE_LEFT: u8 = 12;
const EIGHTEEN_FIRST: u8 = 13;
const BY_ZERO_IS_0: u8 = 14;
const OPERANDS_EXCHANGED: u8 = 15;

/// The result of an operator for the board with this fault, or the number of a refusal.
fn applied<const FAULT: u8>(operation: u8, x: i64, y: i64) -> Result<i64, u32> {
    let operation = match (FAULT, operation) {
        (EXCHANGED, 31) | (REM_SIGNED_BY_THE_RIGHT, 32) => 63 - operation,
        (EXCHANGED, 32) | (MOD_SIGNED_BY_THE_LEFT, 31) => 63 - operation,
        _ => operation,
    };
    let (x, y) = match FAULT == OPERANDS_EXCHANGED && operation >= 30 {
        true => (y, x),
        false => (x, y),
    };
    let divisor = match FAULT {
        DIVISOR_TESTED_ON_THE_LEFT => x,
        _ => y,
    };
    let least = (x, y) == (i64::from(i32::MIN), -1);
    let exact = match operation {
        ..29 => of_document_01(operation, x, y),
        29 if FAULT == PRODUCT_CUT => i64::from((x * y) as i32),
        29 if FAULT == LEAST_PRODUCT_REFUSED && x * y == i64::from(i32::MIN) => return Err(16),
        29 => x * y,
        _ if y == 0 && FAULT == BY_ZERO_IS_0 => 0,
        _ if divisor == 0 => return Err(18),
        30 if least && FAULT == LEAST_BY_MINUS_ONE_IS_0 => 0,
        30 if least && FAULT == LEAST_BY_MINUS_ONE_IS_LEAST => x,
        30 if FAULT == QUOTIENT_ROUNDED_DOWN => (x - (x % y + y) % y) / y,
        // The left operand was tested: the machine's own answer is as good as any.
        _ if y == 0 => 0,
        30 => x / y,
        _ if least && FAULT == LEAST_REM_MINUS_ONE_REFUSED => return Err(16),
        31 => (x % y + y) % y,
        _ => x % y,
    };
    i32::try_from(exact).map(i64::from).map_err(|_| 16)
}

/// The operators that were there before, which have no fault.
fn of_document_01(operation: u8, x: i64, y: i64) -> i64 {
    match operation {
        18 => x + y,
        19 => x - y,
        20 => i64::from(x == y),
        21 => i64::from(x != y),
        22 => i64::from(x < y),
        23 => i64::from(x <= y),
        24 => i64::from(x > y),
        25 => i64::from(x >= y),
        26 => x & y,
        27 => x | y,
        _ => x ^ y,
    }
}

/// The value that code leaves, or the number of a refusal.
fn value<const FAULT: u8>(code: &[u8], inputs: &[i32], state: &State) -> Result<i32, u32> {
    let mut stack: Vec<i64> = Vec::new();
    let mut waiting = None;
    let mut at = 0;
    while at < code.len() {
        let operand = code.get(at + 1).copied().unwrap_or(0);
        let result = match code[at] {
            1 => Ok(i64::from(i32::from_le_bytes(
                code[at + 1..at + 5].try_into().expect("four bytes"),
            ))),
            2 => Ok(i64::from(operand)),
            3 => Ok(i64::from(inputs[usize::from(operand)])),
            4 => Ok(i64::from(state[VARIABLES + usize::from(operand)])),
            16 => applied::<FAULT>(19, 0, stack.pop().expect("an operand")),
            17 => Ok(1 - stack.pop().expect("an operand")),
            operation => {
                let right = stack.pop().expect("two operands");
                applied::<FAULT>(operation, stack.pop().expect("two operands"), right)
            }
        };
        stack.push(match result {
            // A 16 waits until it is known that no 18 follows.
            Err(16) if FAULT == EIGHTEEN_FIRST => {
                waiting = Some(16);
                1
            }
            other => other?,
        });
        at += match code[at] {
            1 => 5,
            2..16 => 2,
            _ => 1,
        };
    }
    match waiting {
        Some(number) => Err(number),
        None => Ok(stack[0] as i32),
    }
}

/// The lines from this one to a wait; answers their count, or a refusal with its line.
fn lines<const FAULT: u8>(
    image: &Image,
    first: usize,
    inputs: &[i32],
    state: &mut State,
) -> Result<u32, (u32, usize)> {
    let mut at = first;
    for count in 1.. {
        let line = image.line(at);
        let code = image.code_of(&line).unwrap_or(&[]);
        let target = usize::from(line.target);
        let value = |state: &State| value::<FAULT>(code, inputs, state).map_err(|q| (q, at));
        let mut next = line.next;
        match line.kind {
            WAIT => {
                state[0] = at as i32;
                return Ok(count);
            }
            OUTPUT => state[OUTPUTS + target] = value(state)?,
            VARIABLE => state[VARIABLES + target] = value(state)?,
            BRANCH if value(state)? == 0 => next = line.other,
            _ => {}
        }
        at = usize::from(next);
    }
    unreachable!("every way of an opened image leads to a wait")
}

/// The cycle with this fault. What refuses a row before its operators is the reference's.
fn cycle<const FAULT: u8>(
    image: &[u8],
    state: &mut State,
    inputs: &[i32],
    outputs: &mut [i32],
) -> Answer {
    let right = (REFERENCE.cycle)(image, &mut state.clone(), inputs, &mut outputs.to_vec());
    if (1..16).contains(&right[0]) {
        return right;
    }
    let opened = open(image).expect("it was run");
    let first = match state[0] {
        512 => 0,
        wait => usize::from(opened.line(wait as usize).next),
    };
    let mut after = *state;
    match lines::<FAULT>(&opened, first, inputs, &mut after) {
        Ok(count) => {
            *state = after;
            outputs.copy_from_slice(&after[OUTPUTS..OUTPUTS + outputs.len()]);
            [0, 0, count]
        }
        Err((18, line)) if FAULT == TOLD_AS_16 => [16, line as u32, 0],
        Err((18, _)) if FAULT == TOLD_AT_0 => [18, 0, 0],
        Err((number, line)) => [number, line as u32, 0],
    }
}

/// The direct run with the same fault: that of the cycle on the text's own image.
fn direct<const FAULT: u8>(
    text: &[u8],
    state: &mut State,
    inputs: &[i32],
    outputs: &mut [i32],
) -> Answer {
    let fresh = (REFERENCE.direct_fresh)(text, &mut state.clone());
    match fresh[0] {
        0 => cycle::<FAULT>(&compiled(&REFERENCE, text), state, inputs, outputs),
        _ => fresh,
    }
}

/// Many rows in one call with the same fault.
fn cycles<const FAULT: u8>(
    image: &[u8],
    state: &mut State,
    count: usize,
    inputs: &[i32],
    outputs: &mut [i32],
    answers: &mut [u32],
) -> Answer {
    let before = *state;
    let (mut after, mut rows) = (before, outputs.to_vec());
    let answer = (REFERENCE.cycles)(image, &mut after, count, inputs, &mut rows, answers);
    if answer[0] != 0 || count == 0 {
        return answer;
    }
    let (width, room) = (inputs.len() / count, outputs.len() / count);
    for (row, told) in answers.chunks_exact_mut(3).enumerate() {
        let values = &inputs[row * width..][..width];
        let part = &mut outputs[row * room..][..room];
        told.copy_from_slice(&cycle::<FAULT>(image, state, values, part));
    }
    answer
}

fn board<const FAULT: u8>() -> Board {
    Board {
        name: "a board with a fault",
        cycle: cycle::<FAULT>,
        cycles: cycles::<FAULT>,
        direct: direct::<FAULT>,
        ..REFERENCE
    }
}

fn by_edges(board: &Board) {
    edges(board);
}

fn by_expressions(board: &Board) {
    expressions(board, 400, SEED);
}

/// The random texts of all kinds, beside the reference.
fn by_texts(board: &Board) {
    for round in 0..400 {
        let mut random = Random::round(SEED, round);
        let text = texts::accepted(&mut random);
        same_on_text(&REFERENCE, board, &text, &mut random);
    }
}

fn by_frozen_cases(board: &Board) {
    for case in request_texts() {
        check_text(board, &case);
    }
    for case in request_images() {
        check_image(board, &case);
    }
}

#[test]
fn without_a_fault_it_passes() {
    let board = board::<NONE>();
    by_edges(&board);
    by_expressions(&board);
    by_texts(&board);
    by_frozen_cases(&board);
}

/// A test for each fault that a comparison finds: it must panic in its own words.
macro_rules! found {
    ($by:ident, $words:literal: $($test:ident: $fault:expr;)*) => {
        mod $by {
            use super::*;

            $(
                #[test]
                #[should_panic(expected = $words)]
                fn $test() {
                    super::$by(&board::<{ $fault }>());
                }
            )*
        }
    };
}

// One operator alone shows every fault but the order of two.
found! { by_edges, "a board with a fault:":
    mod_signed_by_the_left: MOD_SIGNED_BY_THE_LEFT;
    rem_signed_by_the_right: REM_SIGNED_BY_THE_RIGHT;
    mod_and_rem_exchanged: EXCHANGED;
    least_by_minus_one_is_0: LEAST_BY_MINUS_ONE_IS_0;
    least_by_minus_one_is_least: LEAST_BY_MINUS_ONE_IS_LEAST;
    least_rem_minus_one_refused: LEAST_REM_MINUS_ONE_REFUSED;
    eighteen_told_as_16: TOLD_AS_16;
    eighteen_told_at_0: TOLD_AT_0;
    quotient_rounded_down: QUOTIENT_ROUNDED_DOWN;
    product_cut_to_32_bits: PRODUCT_CUT;
    least_product_refused: LEAST_PRODUCT_REFUSED;
    divisor_tested_on_the_left: DIVISOR_TESTED_ON_THE_LEFT;
    division_by_0_is_0: BY_ZERO_IS_0;
    operands_exchanged: OPERANDS_EXCHANGED;
}

found! { by_expressions, "a board with a fault:":
    mod_signed_by_the_left: MOD_SIGNED_BY_THE_LEFT;
    rem_signed_by_the_right: REM_SIGNED_BY_THE_RIGHT;
    mod_and_rem_exchanged: EXCHANGED;
    least_by_minus_one_is_0: LEAST_BY_MINUS_ONE_IS_0;
    least_by_minus_one_is_least: LEAST_BY_MINUS_ONE_IS_LEAST;
    eighteen_told_as_16: TOLD_AS_16;
    eighteen_told_at_0: TOLD_AT_0;
    quotient_rounded_down: QUOTIENT_ROUNDED_DOWN;
    product_cut_to_32_bits: PRODUCT_CUT;
    least_product_refused: LEAST_PRODUCT_REFUSED;
    divisor_tested_on_the_left: DIVISOR_TESTED_ON_THE_LEFT;
    eighteen_before_an_earlier_16: EIGHTEEN_FIRST;
    division_by_0_is_0: BY_ZERO_IS_0;
    operands_exchanged: OPERANDS_EXCHANGED;
}

found! { by_frozen_cases, " of s2-t":
    mod_signed_by_the_left: MOD_SIGNED_BY_THE_LEFT;
    rem_signed_by_the_right: REM_SIGNED_BY_THE_RIGHT;
    mod_and_rem_exchanged: EXCHANGED;
    least_by_minus_one_is_0: LEAST_BY_MINUS_ONE_IS_0;
    least_by_minus_one_is_least: LEAST_BY_MINUS_ONE_IS_LEAST;
    least_rem_minus_one_refused: LEAST_REM_MINUS_ONE_REFUSED;
    eighteen_told_as_16: TOLD_AS_16;
    eighteen_told_at_0: TOLD_AT_0;
    quotient_rounded_down: QUOTIENT_ROUNDED_DOWN;
    product_cut_to_32_bits: PRODUCT_CUT;
    least_product_refused: LEAST_PRODUCT_REFUSED;
    divisor_tested_on_the_left: DIVISOR_TESTED_ON_THE_LEFT;
    eighteen_before_an_earlier_16: EIGHTEEN_FIRST;
    division_by_0_is_0: BY_ZERO_IS_0;
    operands_exchanged: OPERANDS_EXCHANGED;
}

// The least integer is seldom divided by -1 there.
found! { by_texts, "reference and a board with a fault":
    mod_signed_by_the_left: MOD_SIGNED_BY_THE_LEFT;
    rem_signed_by_the_right: REM_SIGNED_BY_THE_RIGHT;
    mod_and_rem_exchanged: EXCHANGED;
    eighteen_told_as_16: TOLD_AS_16;
    eighteen_told_at_0: TOLD_AT_0;
    quotient_rounded_down: QUOTIENT_ROUNDED_DOWN;
    product_cut_to_32_bits: PRODUCT_CUT;
    divisor_tested_on_the_left: DIVISOR_TESTED_ON_THE_LEFT;
    eighteen_before_an_earlier_16: EIGHTEEN_FIRST;
    division_by_0_is_0: BY_ZERO_IS_0;
    operands_exchanged: OPERANDS_EXCHANGED;
}

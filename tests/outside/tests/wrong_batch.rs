//! Boards that must be shut out, by their call for many rows: each is right but for one fault, and
//! the comparison with the rows given singly must find it.

use reference::answer::Answer;
use reference::batches::{everything, widths};
use reference::board::{Board, REFERENCE};
use reference::frozen::{batches, check_batch};
use reference::generate::random::SEED;
use reference::state::State;

const NONE: u8 = 0;
const FIRST_PART: u8 = 1;
const ENTRY_STATE: u8 = 2;
const EXCHANGED: u8 = 3;
const INPUTS_NOT_JUDGED: u8 = 4;
const OUTPUTS_NOT_JUDGED: u8 = 5;
const ANSWERS_NOT_JUDGED: u8 = 6;
const CUT_TO_64_BITS: u8 = 7;
const CUT_TO_32_BITS: u8 = 8;
const REST_NOT_JUDGED: u8 = 9;
const EMPTY_ROWS_NOT_JUDGED: u8 = 10;
const STORED: u8 = 11;
const LENGTHS_FIRST: u8 = 12;
const ZEROED: u8 = 13;
const ENDS_AT_A_REFUSAL: u8 = 14;
const INDEX_IN_ALL_ROWS: u8 = 15;
const STATE_JUDGED_ONCE: u8 = 16;
const FIRST_ROW_AGAIN: u8 = 17;
const LINES_IN_THE_ANSWER: u8 = 18;
const NO_ROWS_REFUSED: u8 = 19;
const OUTPUTS_OF_THE_STATE: u8 = 20;

/// Whether a length is the count's due, for the board with this fault; `which` of the three it is.
fn is_due<const FAULT: u8>(which: u8, length: usize, count: usize, width: usize) -> bool {
    match FAULT {
        INPUTS_NOT_JUDGED | OUTPUTS_NOT_JUDGED | ANSWERS_NOT_JUDGED
            if which == FAULT - INPUTS_NOT_JUDGED =>
        {
            true
        }
        CUT_TO_64_BITS => length == count.wrapping_mul(width),
        CUT_TO_32_BITS => length as u32 == (count as u32).wrapping_mul(width as u32),
        REST_NOT_JUDGED if width > 0 => length / width == count,
        EMPTY_ROWS_NOT_JUDGED if width == 0 => true,
        NO_ROWS_REFUSED if count == 0 => false,
        _ => Some(length) == count.checked_mul(width),
    }
}

/// Many rows in one call with this fault.
fn cycles<const FAULT: u8>(
    image: &[u8],
    state: &mut State,
    count: usize,
    inputs: &[i32],
    outputs: &mut [i32],
    answers: &mut [u32],
) -> Answer {
    let opened = (REFERENCE.open)(image);
    let widths = match opened[0] {
        0 => widths(image),
        _ => [1, 1],
    };
    let due = is_due::<FAULT>(0, inputs.len(), count, widths[0])
        && is_due::<FAULT>(1, outputs.len(), count, widths[1])
        && is_due::<FAULT>(2, answers.len(), count, 3);
    if opened[0] != 0 && (due || FAULT != LENGTHS_FIRST) {
        return opened;
    }
    if !due {
        return [17, 0, 0];
    }
    let before = *state;
    let told = rows::<FAULT>(image, state, widths, inputs, outputs, answers);
    match FAULT {
        STATE_JUDGED_ONCE if told.contains(&[15, 0, 0]) => return [15, 0, 0],
        STORED if before == *state => state[0] = state[0].clamp(0, 65_535),
        LINES_IN_THE_ANSWER => return [0, 0, told.iter().map(|told| told[2]).sum()],
        _ => {}
    }
    [0, 0, 0]
}

/// The rows, and what is told of them. Where a fault takes wrong lengths they end with the shortest
/// buffer, so that the board answers and the comparison has to find it.
fn rows<const FAULT: u8>(
    image: &[u8],
    state: &mut State,
    [width, room]: [usize; 2],
    inputs: &[i32],
    outputs: &mut [i32],
    answers: &mut [u32],
) -> Vec<Answer> {
    let entry = *state;
    let mut all = Vec::new();
    for (row, told) in answers.chunks_exact_mut(3).enumerate() {
        let from = if FAULT == FIRST_ROW_AGAIN { 0 } else { row };
        let to = if FAULT == FIRST_PART { 0 } else { row };
        let values = inputs.get(from * width..(from + 1) * width);
        let part = outputs.get_mut(to * room..(to + 1) * room);
        let (Some(values), Some(part)) = (values, part) else {
            break;
        };
        if FAULT == ENTRY_STATE {
            *state = entry;
        }
        let answer = one_row::<FAULT>(image, state, values, part, row);
        told.copy_from_slice(&answer);
        all.push(answer);
        if FAULT == ENDS_AT_A_REFUSAL && answer[0] != 0 {
            break;
        }
    }
    all
}

/// One row, and the three numbers that the board tells of it.
fn one_row<const FAULT: u8>(
    image: &[u8],
    state: &mut State,
    values: &[i32],
    part: &mut [i32],
    row: usize,
) -> Answer {
    let [number, place, lines] = (REFERENCE.cycle)(image, state, values, part);
    match FAULT {
        EXCHANGED => [place, number, lines],
        INDEX_IN_ALL_ROWS if number == 14 => [14, place + (row * values.len()) as u32, 0],
        ZEROED if number != 0 => {
            part.fill(0);
            [number, place, lines]
        }
        OUTPUTS_OF_THE_STATE if number != 0 => {
            part.copy_from_slice(&state[1..1 + part.len()]);
            [number, place, lines]
        }
        _ => [number, place, lines],
    }
}

fn board<const FAULT: u8>() -> Board {
    Board {
        name: "a board with a fault",
        cycles: cycles::<FAULT>,
        ..REFERENCE
    }
}

/// The comparison on random batches.
fn compared<const FAULT: u8>() {
    everything(&board::<FAULT>(), 400, SEED);
}

#[test]
fn without_a_fault_it_passes() {
    compared::<NONE>();
    everything(&REFERENCE, 400, SEED);
    for case in batches() {
        check_batch(&board::<NONE>(), &case);
    }
}

/// A test for each fault: the comparison itself must panic, in its own words.
macro_rules! found {
    ($($test:ident: $fault:expr;)*) => {
        $(
            #[test]
            #[should_panic(expected = "one call of a board with a fault against rows singly")]
            fn $test() {
                compared::<{ $fault }>();
            }
        )*
    };
}

found! {
    every_row_into_the_first_part: FIRST_PART;
    every_row_from_the_entry_state: ENTRY_STATE;
    number_and_place_exchanged: EXCHANGED;
    inputs_not_judged: INPUTS_NOT_JUDGED;
    outputs_not_judged: OUTPUTS_NOT_JUDGED;
    answers_not_judged: ANSWERS_NOT_JUDGED;
    products_cut_to_64_bits: CUT_TO_64_BITS;
    products_cut_to_32_bits: CUT_TO_32_BITS;
    rest_of_a_division_not_judged: REST_NOT_JUDGED;
    empty_rows_not_judged: EMPTY_ROWS_NOT_JUDGED;
    state_stored_though_no_row_performed: STORED;
    lengths_before_the_image: LENGTHS_FIRST;
    part_of_a_refused_row_zeroed: ZEROED;
    part_of_a_refused_row_from_the_state: OUTPUTS_OF_THE_STATE;
    the_run_ends_at_a_refused_row: ENDS_AT_A_REFUSAL;
    index_of_14_in_all_rows: INDEX_IN_ALL_ROWS;
    state_judged_for_the_whole_call: STATE_JUDGED_ONCE;
    the_first_row_again: FIRST_ROW_AGAIN;
    lines_in_the_answer_of_the_call: LINES_IN_THE_ANSWER;
    no_rows_refused: NO_ROWS_REFUSED;
}

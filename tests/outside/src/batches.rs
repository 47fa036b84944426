//! Many rows in one call beside the same rows given singly. Everything that the call is lent to
//! write holds a marker before it, so that what must stay the caller's is seen to stay.

use crate::answer::Answer;
use crate::board::{Board, REFERENCE};
use crate::compare::compiled;
use crate::generate::random::Random;
use crate::generate::{batches, images, texts};
use crate::state::State;

/// What the output rows and the answers hold before a call.
pub const WORD: i32 = 99;
pub const NUMBER: u32 = 0x5a5a_5a5a;

/// What a call is lent; of output rows and answers only the lengths, since they hold markers.
#[derive(Clone, Debug)]
pub struct Batch {
    pub image: Vec<u8>,
    pub state: State,
    pub count: usize,
    pub inputs: Vec<i32>,
    pub outputs: usize,
    pub answers: usize,
}

/// What a call leaves.
#[derive(Clone, Debug, PartialEq, Eq)]
pub struct Left {
    pub answer: Answer,
    pub state: State,
    pub outputs: Vec<i32>,
    pub answers: Vec<u32>,
}

impl Batch {
    /// So many rows, end to end, with lengths that are their due.
    pub fn due(image: &[u8], state: &State, count: usize, inputs: Vec<i32>) -> Batch {
        let [_, room] = widths(image);
        Batch {
            image: image.to_vec(),
            state: *state,
            count,
            inputs,
            outputs: count * room,
            answers: 3 * count,
        }
    }

    /// The same from another state.
    pub fn from(&self, state: &State) -> Batch {
        Batch {
            state: *state,
            ..self.clone()
        }
    }

    /// What is lent, as it is before the call.
    pub fn lent(&self) -> Left {
        Left {
            answer: [NUMBER; 3],
            state: self.state,
            outputs: vec![WORD; self.outputs],
            answers: vec![NUMBER; self.answers],
        }
    }
}

/// The numbers of data inputs and of outputs of an image that opens.
pub fn widths(image: &[u8]) -> [usize; 2] {
    [usize::from(image[28]), usize::from(image[29])]
}

/// The fresh state of an image that opens.
pub fn fresh(image: &[u8]) -> State {
    let mut state = [0; 49];
    assert_eq!((REFERENCE.fresh)(image, &mut state), [0; 3]);
    state
}

/// The rows in one call.
pub fn run(board: &Board, batch: &Batch) -> Left {
    let mut left = batch.lent();
    left.answer = (board.cycles)(
        &batch.image,
        &mut left.state,
        batch.count,
        &batch.inputs,
        &mut left.outputs,
        &mut left.answers,
    );
    left
}

/// The same by the functions for one row: 11 to 13 are those of open, then 17, then a cycle for each
/// row. The lengths are judged here in another way than in `batch`.
pub fn singly(board: &Board, batch: &Batch) -> Left {
    let mut left = batch.lent();
    left.answer = (board.open)(&batch.image);
    if left.answer[0] != 0 {
        return left;
    }
    let [width, room] = widths(&batch.image);
    let due = |length: usize, each: usize| batch.count.checked_mul(each) == Some(length);
    if !(due(batch.inputs.len(), width) && due(batch.outputs, room) && due(batch.answers, 3)) {
        left.answer = [17, 0, 0];
        return left;
    }
    for row in 0..batch.count {
        let values = &batch.inputs[row * width..(row + 1) * width];
        let part = &mut left.outputs[row * room..(row + 1) * room];
        let answer = (board.cycle)(&batch.image, &mut left.state, values, part);
        left.answers[3 * row..3 * row + 3].copy_from_slice(&answer);
    }
    left
}

/// Holds a board's one call against the rows given singly, to the board itself and to the reference;
/// panics where it differs. Answers what was left.
pub fn check(board: &Board, batch: &Batch) -> Left {
    let left = run(board, batch);
    for other in [&REFERENCE, board] {
        let found = difference(&left, &singly(other, batch));
        assert!(
            found.is_none(),
            "one call of {} against rows singly to {}: {}; {} rows, {} inputs, {} outputs, {} \
             answers, state {:?}, image {:?}",
            board.name,
            other.name,
            found.unwrap_or_default(),
            batch.count,
            batch.inputs.len(),
            batch.outputs,
            batch.answers,
            batch.state,
            batch.image
        );
    }
    left
}

/// The first difference, in words: a batch can be too long to be shown.
fn difference(left: &Left, due: &Left) -> Option<String> {
    if left.answer != due.answer {
        return Some(format!("answer {:?} for {:?}", left.answer, due.answer));
    }
    first("state", &left.state, &due.state)
        .or_else(|| first("output", &left.outputs, &due.outputs))
        .or_else(|| first("number", &left.answers, &due.answers))
}

fn first<T: PartialEq + std::fmt::Debug>(what: &str, left: &[T], due: &[T]) -> Option<String> {
    let at = left.iter().zip(due).position(|(one, other)| one != other)?;
    Some(format!("{what} {at} is {:?} for {:?}", left[at], due[at]))
}

/// All kinds of random batches, on images of accepted texts, on images that come from no text, and on
/// damaged ones, eight in a round. Answers how many calls were taken, and refused by 11, 12, 13 and 17.
pub fn everything(board: &Board, rounds: usize, seed: u64) -> [usize; 5] {
    let mut counts = [0; 5];
    for round in 0..rounds {
        let mut random = Random::round(seed, round);
        let text = texts::accepted(&mut random);
        let good = [compiled(&REFERENCE, &text), images::good(&mut random)];
        for image in good {
            let damaged = images::damaged(&image, &mut random);
            for image in [&image, &image, &image, &damaged] {
                let left = check(board, &batches::any(image, &mut random));
                counts[match left.answer[0] {
                    0 => 0,
                    17 => 4,
                    number => number as usize - 10,
                }] += 1;
            }
        }
    }
    counts
}

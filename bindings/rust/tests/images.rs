//! Images: opened, read and run row by row; refusals 11 to 18.

mod common;

use common::{changed, image_of, refusal, BITS, TALLY};
use rabtishu::{Image, Refusal, Row, State, BEGINNING};

const ROWS: [i32; 6] = [7, 7, 1, -5, i32::MIN, 20];

#[test]
fn what_is_no_image_is_refused() {
    let image = image_of(TALLY);
    let with = |at: usize, byte: u8| {
        let mut bytes = image.clone();
        bytes[at] = byte;
        bytes
    };
    assert_eq!(Image::open(&[]), Err(refusal(11, 0)));
    assert_eq!(Image::open(&image[..133]), Err(refusal(11, 0)));
    assert_eq!(Image::open(&with(0, 9)), Err(refusal(11, 0)), "the form");
    assert_eq!(Image::open(&with(28, 17)), Err(refusal(12, 0)), "17 inputs");
    // The reach of the wait in line 2: it is line 1 that it no longer fits.
    assert_eq!(Image::open(&with(42 + 24 + 10, 1)), Err(refusal(13, 1)));
}

#[test]
fn the_parts_of_an_image() {
    let bytes = image_of(TALLY);
    let image = Image::open(&bytes).expect("a compiled image opens");
    assert_eq!(image.bytes(), bytes);
    assert_eq!(image.form(), 1);
    assert_eq!(
        image.signature(),
        [1, 1, 1, 1, 1, 0, 0, 0, 0, 1, 0, 0, 0, 0]
    );
    assert_eq!(image.lines().len(), 6 * 12);
    let sections = [image.signature(), image.lines(), image.code()];
    assert_eq!(sections.concat(), bytes[28..]);
    assert_eq!((image.inputs(), image.outputs()), (1, 1));
    assert_eq!(image.variables(), 1);
    let bits = image_of(BITS);
    let bits = Image::open(&bits).expect("a compiled image opens");
    assert_eq!((bits.inputs(), bits.outputs(), bits.variables()), (2, 1, 0));
}

#[test]
fn an_image_is_a_value_that_outlives_its_copies() {
    let bytes = image_of(TALLY);
    let code = {
        let image = Image::try_from(bytes.as_slice()).expect("a compiled image opens");
        let copy = image;
        assert_eq!(copy, image);
        assert_eq!(copy.as_ref(), bytes);
        copy.code()
    };
    assert_eq!(code, &bytes[bytes.len() - code.len()..]);
    assert!(Image::try_from(&bytes[1..]).is_err());
}

#[test]
fn debug_says_what_it_is_for() {
    let bytes = image_of(TALLY);
    let image = Image::open(&bytes).expect("a compiled image opens");
    let told = "Image { form: 1, inputs: 1, outputs: 1, variables: 1, bytes: 134 }";
    assert_eq!(format!("{image:?}"), told);
}

#[test]
fn the_fresh_state_is_that_of_the_text() {
    let bytes = image_of(TALLY);
    let fresh = Image::open(&bytes).expect("a compiled image opens").fresh();
    assert_eq!(fresh.place(), BEGINNING);
    assert_eq!(Ok(fresh), rabtishu::direct_fresh(TALLY));
}

/// The rows of tally given singly: the answers, the outputs, and the state that is left.
fn singly(image: Image) -> (Vec<Result<u32, Refusal>>, Vec<i32>, State) {
    let (mut state, mut answers, mut totals) = (image.fresh(), Vec::new(), Vec::new());
    for d in ROWS {
        let (before, mut total) = (state.clone(), [77]);
        answers.push(image.cycle(&mut state, &[d], &mut total));
        totals.push(total[0]);
        if answers.last().is_some_and(Result::is_err) {
            assert_eq!((state.clone(), total), (before, [77]));
        }
    }
    (answers, totals, state)
}

#[test]
fn tally_runs_row_by_row() {
    let bytes = image_of(TALLY);
    let (answers, totals, state) = singly(Image::open(&bytes).expect("it opens"));
    let lines = [Ok(3), Ok(3), Ok(4), Ok(3), Err(refusal(16, 1)), Ok(3)];
    assert_eq!(answers, lines);
    assert_eq!(totals, [0, 0, 14, 14, 77, 14]);
    assert_eq!(state.wait(), Some(2));
    assert_eq!(state.variables()[0], 15);
}

#[test]
fn many_rows_are_the_rows_given_singly() {
    let bytes = image_of(TALLY);
    let image = Image::open(&bytes).expect("a compiled image opens");
    let (answers, singles, left) = singly(image);
    let (mut state, mut totals, mut rows) = (image.fresh(), [77; 6], [Row::default(); 6]);
    let taken = image.cycles(&mut state, &ROWS, &mut totals, &mut rows);
    assert_eq!(taken, Ok(()));
    assert_eq!(rows.map(|row| row.lines()).to_vec(), answers);
    assert_eq!((totals.to_vec(), state), (singles, left));
}

#[test]
fn no_rows_are_taken() {
    let bytes = image_of(TALLY);
    let image = Image::open(&bytes).expect("a compiled image opens");
    let mut state = image.fresh();
    assert_eq!(image.cycles(&mut state, &[], &mut [], &mut []), Ok(()));
    assert_eq!(state, image.fresh());
    assert_eq!(Row::default().lines(), Ok(0));
}

#[test]
fn lengths_that_are_not_due_are_17_and_change_nothing() {
    let bytes = image_of(TALLY);
    let image = Image::open(&bytes).expect("a compiled image opens");
    let rows = {
        let (mut state, mut rows) = (image.fresh(), [Row::default(); 3]);
        let taken = image.cycles(&mut state, &[7, 7, 1], &mut [0; 3], &mut rows);
        taken.expect("the lengths are due");
        rows
    };
    for (inputs, outputs, count) in [(1, 2, 2), (2, 1, 2), (2, 2, 3), (1, 0, 0), (0, 1, 0)] {
        let (given, mut totals) = (vec![7; inputs], vec![77; outputs]);
        let (mut state, mut left) = (image.fresh(), rows);
        let answer = image.cycles(&mut state, &given, &mut totals, &mut left[..count]);
        assert_eq!(answer, Err(refusal(17, 0)));
        assert_eq!((state, left), (image.fresh(), rows));
        assert_eq!(totals, vec![77; outputs]);
    }
}

/// A cycle that is refused, and leaves state and outputs as they were.
fn refused_row(text: &[u8], state: Option<[i32; 49]>, inputs: &[i32], outputs: usize) -> Refusal {
    let bytes = image_of(text);
    let image = Image::open(&bytes).expect("a compiled image opens");
    let mut state = state.map_or_else(|| image.fresh(), State::from_numbers);
    let (before, mut row) = (state.clone(), vec![77; outputs]);
    let answer = image.cycle(&mut state, inputs, &mut row);
    assert_eq!((state, row), (before, vec![77; outputs]));
    answer.expect_err("the row is refused")
}

#[test]
fn refused_cycles_change_nothing() {
    assert_eq!(refused_row(TALLY, None, &[], 1), refusal(14, 0));
    assert_eq!(refused_row(TALLY, None, &[1, 2], 1), refusal(14, 0));
    assert_eq!(refused_row(TALLY, None, &[1], 0), refusal(14, 0));
    assert_eq!(refused_row(TALLY, None, &[1], 2), refusal(14, 0));
    assert_eq!(refused_row(BITS, None, &[2, 1], 1), refusal(14, 0));
    assert_eq!(refused_row(BITS, None, &[1, -1], 1), refusal(14, 1));
    assert_eq!(refused_row(TALLY, Some([0; 49]), &[1], 1), refusal(15, 0));
    let divides = changed("s + d", "s mod d");
    assert_eq!(refused_row(&divides, None, &[0], 1), refusal(18, 1));
}

//! Texts: compiled, checked and run without an image; refusals 1 to 10 and those of the direct run.

mod common;

use common::{changed, image_of, refusal, refused_texts, BITS, TALLY};
use rabtishu::{check, compile, compile_into, direct, direct_fresh, token_at};
use rabtishu::{State, BEGINNING, LONGEST_IMAGE, LONGEST_TEXT};

#[test]
fn tally_compiles_into_a_vector_and_into_a_buffer() {
    let image = compile(TALLY).expect("tally is accepted");
    assert_eq!(image.len(), 134);
    let mut buffer = [0xa5; 200];
    assert_eq!(compile_into(TALLY, &mut buffer), Ok(134));
    assert_eq!(buffer[..134], image);
    assert_eq!(buffer[134..], [0xa5; 66], "bytes behind the image");
    let mut exact = [0; 134];
    assert_eq!(compile_into(TALLY, &mut exact), Ok(134));
    assert_eq!(exact[..], image);
}

#[test]
fn a_vector_keeps_no_more_than_its_image() {
    assert!(image_of(TALLY).capacity() < LONGEST_IMAGE);
}

#[test]
fn a_short_buffer_is_10_and_stays_as_it_was() {
    for room in [0, 1, 133] {
        let mut buffer = vec![0xa5; room];
        assert_eq!(compile_into(TALLY, &mut buffer), Err(refusal(10, 134)));
        assert_eq!(buffer, vec![0xa5; room]);
    }
}

#[test]
fn the_longest_text_is_accepted() {
    let mut text = TALLY.to_vec();
    text.resize(LONGEST_TEXT, b'\n');
    assert_eq!(compile(&text), compile(TALLY));
    assert_eq!(check(&text), Ok(()));
}

#[test]
fn refused_texts_change_nothing() {
    for (number, case) in (1..).zip(refused_texts()) {
        assert_eq!(case.refusal.number, number);
        let refused = case.refusal;
        assert_eq!(compile(&case.text), Err(refused));
        assert_eq!(check(&case.text), Err(refused));
        assert_eq!(direct_fresh(&case.text), Err(refused));
        let mut buffer = [0xa5; 500];
        assert_eq!(compile_into(&case.text, &mut buffer), Err(refused));
        assert_eq!(buffer, [0xa5; 500]);
        let mut outputs = [77];
        let mut state = direct_fresh(TALLY).expect("tally is accepted");
        let before = state.clone();
        let answer = direct(&case.text, &mut state, &[7], &mut outputs);
        assert_eq!((answer, state, outputs), (Err(refused), before, [77]));
    }
}

#[test]
fn the_token_of_a_refusal() {
    for case in refused_texts() {
        let place = case.refusal.place as usize;
        assert_eq!(token_at(&case.text, place), case.token.as_bytes());
    }
}

#[test]
fn no_token_where_none_starts() {
    assert_eq!(token_at(b"entity 5", 0), b"entity");
    for place in [1, 6, 8, 9, usize::MAX] {
        assert_eq!(token_at(b"entity 5", place), b"", "{place}");
    }
    assert_eq!(token_at(b"", 0), b"");
}

#[test]
fn tally_runs_from_its_text() {
    let mut state = direct_fresh(TALLY).expect("tally is accepted");
    assert_eq!(state.place(), BEGINNING);
    let (mut lines, mut totals) = (Vec::new(), Vec::new());
    for d in [7, 7, 1, -5, 20] {
        let mut total = [99];
        lines.push(direct(TALLY, &mut state, &[d], &mut total));
        totals.push(total[0]);
    }
    assert_eq!(lines, [3, 3, 4, 3, 3].map(Ok));
    assert_eq!(totals, [0, 0, 14, 14, 14]);
}

/// A call of the direct run that is refused, and leaves state and outputs as they were.
fn refused_row(text: &[u8], state: &State, inputs: &[i32], outputs: usize) -> rabtishu::Refusal {
    let (mut left, mut row) = (state.clone(), vec![77; outputs]);
    let answer = direct(text, &mut left, inputs, &mut row);
    assert_eq!((&left, row), (state, vec![77; outputs]));
    answer.expect_err("the row is refused")
}

#[test]
fn refused_rows_of_the_direct_run_change_nothing() {
    let fresh = direct_fresh(TALLY).expect("tally is accepted");
    assert_eq!(refused_row(TALLY, &fresh, &[], 1), refusal(14, 0));
    assert_eq!(refused_row(TALLY, &fresh, &[1, 2], 1), refusal(14, 0));
    assert_eq!(refused_row(TALLY, &fresh, &[1], 0), refusal(14, 0));
    let bits = direct_fresh(BITS).expect("bits is accepted");
    assert_eq!(refused_row(BITS, &bits, &[1, 2], 1), refusal(14, 1));
    let strange = State::from_numbers([513; 49]);
    assert_eq!(refused_row(TALLY, &strange, &[1], 1), refusal(15, 0));
    let mut low = fresh.clone();
    direct(TALLY, &mut low, &[-1], &mut [0]).expect("the row is taken");
    assert_eq!(refused_row(TALLY, &low, &[i32::MIN], 1), refusal(16, 1));
    let divides = changed("s + d", "s / d");
    assert_eq!(refused_row(&divides, &fresh, &[0], 1), refusal(18, 1));
}

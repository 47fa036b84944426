//! The module `raw`: every function of the C interface, with its three numbers.

mod common;

use common::{image_of, TALLY};
use rabtishu::raw;

/// What stands in an answer before a call, so that one that is not written is seen.
const BEFORE: raw::Answer = [9, 9, 9];

#[test]
fn of_a_text() {
    let (mut image, mut answer) = ([0; 134], BEFORE);
    raw::compile(TALLY, &mut image, &mut answer);
    assert_eq!((answer, &image[..]), ([0, 0, 134], &image_of(TALLY)[..]));
    raw::compile(TALLY, &mut image[1..], &mut answer);
    assert_eq!(answer, [10, 134, 0]);
    let (mut state, mut total) = ([7; 49], [77]);
    raw::direct_fresh(TALLY, &mut state, &mut answer);
    assert_eq!((answer, state[0], state[48]), ([0, 0, 0], 512, 0));
    raw::direct(TALLY, &mut state, &[7], &mut total, &mut answer);
    assert_eq!((answer, state[17], total), ([0, 0, 3], 7, [0]));
    assert_eq!(raw::token_at(b"entity 5", 0), 6);
    assert_eq!(raw::token_at(b"entity 5", 1), 0);
}

#[test]
fn of_an_image() {
    let (image, mut state, mut answer) = (image_of(TALLY), [7; 49], BEFORE);
    raw::open(&image, &mut answer);
    assert_eq!(answer, [0, 0, 0]);
    raw::open(&image[..5], &mut answer);
    assert_eq!(answer, [11, 0, 0]);
    raw::fresh(&image, &mut state, &mut answer);
    assert_eq!((answer, state[0]), ([0, 0, 0], 512));
    let mut total = [77];
    raw::cycle(&image, &mut state, &[7], &mut total, &mut answer);
    assert_eq!((answer, state[17], total), ([0, 0, 3], 7, [0]));
    raw::cycle(&image[..5], &mut state, &[7], &mut total, &mut answer);
    assert_eq!(answer, [11, 0, 0]);
}

/// The count and the lengths are the caller's, and need not fit.
#[test]
fn of_many_rows() {
    let (image, mut state, mut answer) = (image_of(TALLY), [0; 49], BEFORE);
    raw::fresh(&image, &mut state, &mut answer);
    let (mut totals, mut answers) = ([77; 2], [9; 6]);
    let given = &[7, 7];
    for (count, inputs) in [(2, 1), (3, 2), (usize::MAX, 2)] {
        let given = &given[..inputs];
        raw::cycles(
            &image,
            &mut state,
            count,
            given,
            &mut totals,
            &mut answers,
            &mut answer,
        );
        assert_eq!((answer, totals, answers), ([17, 0, 0], [77; 2], [9; 6]));
    }
    raw::cycles(
        &image,
        &mut state,
        2,
        given,
        &mut totals,
        &mut answers,
        &mut answer,
    );
    assert_eq!(answer, [0, 0, 0]);
    assert_eq!((totals, answers), ([0, 0], [0, 0, 3, 0, 0, 3]));
    assert_eq!(state[17], 14);
}

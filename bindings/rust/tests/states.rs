//! State records: their numbers, kept and taken up again; and what threads may do with all types.

mod common;

use common::{image_of, TALLY};
use rabtishu::raw::Record;
use rabtishu::{Image, Refusal, Row, State, BEGINNING};

/// 100 and on, so that every slot has its own number.
fn numbers() -> Record {
    std::array::from_fn(|slot| 100 + slot as i32)
}

#[test]
fn the_parts_of_a_record() {
    let state = State::from_numbers(numbers());
    assert_eq!(state.numbers(), &numbers());
    assert_eq!(state.place(), 100);
    assert_eq!(state.outputs(), (101..117).collect::<Vec<_>>());
    assert_eq!(state.variables(), (117..149).collect::<Vec<_>>());
}

#[test]
fn numbers_and_back() {
    const START: State = State::from_numbers([0; 49]);
    assert_eq!(State::from(numbers()), State::from_numbers(numbers()));
    assert_eq!(Record::from(State::from(numbers())), numbers());
    assert_ne!(START, State::from(numbers()));
}

#[test]
fn the_wait_of_a_record() {
    let wait = |place| {
        let mut numbers = numbers();
        numbers[0] = place;
        State::from_numbers(numbers).wait()
    };
    assert_eq!(wait(0), Some(0));
    assert_eq!(wait(511), Some(511));
    for place in [BEGINNING, 513, 65_536, -1, i32::MIN] {
        assert_eq!(wait(place), None, "{place}");
    }
}

#[test]
fn a_record_that_was_kept_goes_on() {
    let bytes = image_of(TALLY);
    let image = Image::open(&bytes).expect("a compiled image opens");
    let (mut state, mut total) = (image.fresh(), [0]);
    image.cycle(&mut state, &[7], &mut total).expect("taken");
    let kept: Record = state.clone().into();
    let mut taken_up = State::from(kept);
    for state in [&mut state, &mut taken_up] {
        assert_eq!(image.cycle(state, &[5], &mut total), Ok(3));
    }
    assert_eq!(state, taken_up);
}

#[test]
fn places_beyond_16_bits_are_refused() {
    let bytes = image_of(TALLY);
    let image = Image::open(&bytes).expect("a compiled image opens");
    for place in [-1, 513, 65_536 + 512, i32::MIN, i32::MAX] {
        let mut numbers = [0; 49];
        numbers[0] = place;
        let mut state = State::from_numbers(numbers);
        let refused = image.cycle(&mut state, &[7], &mut [0]).unwrap_err();
        assert_eq!((refused.number, refused.place), (15, 0));
        assert_eq!(state.numbers(), &numbers);
    }
}

#[test]
fn all_types_go_from_thread_to_thread() {
    fn goes<T: Send + Sync + 'static>() {}
    goes::<Image<'static>>();
    goes::<State>();
    goes::<Refusal>();
    goes::<Row>();
}

#[test]
fn two_threads_run_one_image() {
    let bytes = image_of(TALLY);
    let image = Image::open(&bytes).expect("a compiled image opens");
    let run = || {
        let (mut state, mut total) = (image.fresh(), [0]);
        for d in [7, 7, 1] {
            image.cycle(&mut state, &[d], &mut total).expect("taken");
        }
        total
    };
    let totals = std::thread::scope(|scope| [scope.spawn(run), scope.spawn(run)].map(|t| t.join()));
    assert_eq!(totals.map(|total| total.expect("no panic")), [[14]; 2]);
}

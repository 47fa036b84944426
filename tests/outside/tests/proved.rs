//! The proved crates against the reference, through the C interface: frozen cases, texts at the
//! limits, random inputs of all kinds. Without the archive of the proved crates there is nothing
//! to test, and RABTISHU_REQUIRED makes that a failure.

#[cfg(proved)]
use reference::board::REFERENCE;
#[cfg(proved)]
use reference::proved::PROVED;

#[test]
fn the_archive_is_there_if_it_must_be() {
    let required = std::env::var_os("RABTISHU_REQUIRED").is_some();
    assert!(
        cfg!(proved) || !required,
        "rt lib in crates/api_c comes first"
    );
}

#[cfg(proved)]
#[test]
fn frozen_texts() {
    let (texts, more) = (
        reference::frozen::texts(),
        reference::frozen::request_texts(),
    );
    for case in texts.iter().chain(&more) {
        reference::frozen::check_text(&PROVED, case);
    }
}

#[cfg(proved)]
#[test]
fn frozen_images() {
    let (images, more) = (
        reference::frozen::images(),
        reference::frozen::request_images(),
    );
    for case in images.iter().chain(&more) {
        reference::frozen::check_image(&PROVED, case);
    }
}

#[cfg(proved)]
#[test]
fn random_inputs() {
    let seed = reference::generate::random::seed();
    reference::compare::everything(&REFERENCE, &PROVED, seed);
}

/// A place of a state is a full 32-bit number: one that no u16 has is refused by 15, behind 14.
#[cfg(proved)]
#[test]
fn places_beyond_16_bits() {
    let text = include_bytes!("../../../examples/tally/process.vhd");
    let image = reference::compare::compiled(&REFERENCE, text);
    for place in [
        -1,
        65_535,
        65_536,
        65_536 + 512,
        131_072 + 2,
        i32::MIN,
        i32::MAX,
    ] {
        let mut state = [0; 49];
        state[0] = place;
        let before = state;
        for (inputs, number) in [(vec![1], 15), (vec![1, 2], 14)] {
            let mut row = [77];
            let answer = (PROVED.cycle)(&image, &mut state, &inputs, &mut row);
            assert_eq!((answer, state, row), ([number, 0, 0], before, [77]));
            let answer = (PROVED.direct)(text, &mut state, &inputs, &mut row);
            assert_eq!((answer, state, row), ([number, 0, 0], before, [77]));
        }
    }
}

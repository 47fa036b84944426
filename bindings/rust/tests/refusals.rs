//! Refusals as errors: their words, their places, boxed and by `?`.

mod common;

use common::refusal;
use rabtishu::Refusal;
use std::error::Error;

#[test]
fn the_titles_are_the_headings_of_the_document() {
    let document = include_str!("../../../docs/REFUSALS.md");
    for number in 1..=18 {
        let heading = format!("### {number}, {}", refusal(number, 0).title());
        assert!(document.lines().any(|line| line == heading), "{heading}");
    }
    assert_eq!(refusal(0, 0).title(), "unknown refusal");
    assert_eq!(refusal(19, 0).title(), "unknown refusal");
}

#[test]
fn the_place_is_told_by_what_it_is() {
    let told = [
        (refusal(1, 0), "text too long (refusal 1)"),
        (refusal(2, 40), "no token (refusal 2 at byte 40)"),
        (refusal(9, 0), "wrong class (refusal 9 at byte 0)"),
        (
            refusal(10, 134),
            "image buffer too short (refusal 10, 134 bytes are needed)",
        ),
        (refusal(11, 0), "sections (refusal 11)"),
        (refusal(12, 0), "signature (refusal 12)"),
        (refusal(13, 1), "lines or code (refusal 13 at line 1)"),
        (
            refusal(14, 0),
            "row (refusal 14: its length or its first value)",
        ),
        (refusal(14, 3), "row (refusal 14 at index 3)"),
        (refusal(15, 0), "state (refusal 15)"),
        (refusal(16, 0), "out of range (refusal 16 at line 0)"),
        (refusal(17, 0), "lengths (refusal 17)"),
        (refusal(18, 511), "zero divisor (refusal 18 at line 511)"),
    ];
    for (refusal, words) in told {
        assert_eq!(refusal.to_string(), words);
    }
}

/// What a caller writes who has errors of several kinds.
fn length_of(text: &str) -> Result<usize, Box<dyn Error + Send + Sync>> {
    let bytes = rabtishu::compile(text.as_bytes())?;
    Ok(rabtishu::Image::open(&bytes)?.bytes().len())
}

#[test]
fn a_refusal_is_an_error() {
    let error = length_of("entity 5").expect_err("no sentence");
    assert_eq!(error.to_string(), "no sentence (refusal 3 at byte 7)");
    assert!(error.source().is_none());
    assert_eq!(error.downcast_ref::<Refusal>(), Some(&refusal(3, 7)));
}

#[test]
fn a_refusal_is_a_value() {
    let (one, other) = (refusal(16, 1), refusal(16, 2));
    let copy = one;
    assert_eq!(one, copy);
    assert_ne!(one, other);
    assert_eq!(format!("{one:?}"), "Refusal { number: 16, place: 1 }");
    assert_eq!(std::collections::HashSet::from([one, copy, other]).len(), 2);
}

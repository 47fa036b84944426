//! The stored output of the test program `test_caller`, which calls every public function of the crate
//! entry, is what this implementation answers on the same texts.

use reference::caller::answers;
use std::path::PathBuf;

#[test]
fn the_program_prints_what_document_01_says() {
    let folder = PathBuf::from(env!("CARGO_MANIFEST_DIR")).join("../../crates/test_caller");
    let read = |name: &str| std::fs::read(folder.join(name)).expect(name);
    let stored = String::from_utf8(read("stdout")).expect("text");
    let mut stored = stored.lines();
    for expected in answers(&read("data/texts")).lines() {
        assert_eq!(stored.next(), Some(expected));
    }
    assert_eq!(stored.next(), None);
}

/// Every refusal of document 01 is among them.
#[test]
fn every_refusal_is_told() {
    let texts =
        PathBuf::from(env!("CARGO_MANIFEST_DIR")).join("../../crates/test_caller/data/texts");
    let answers = answers(&std::fs::read(texts).expect("texts"));
    for number in 1..=18 {
        assert!(answers.contains(&format!(" refused {number} ")), "{number}");
    }
}

//! The stored output of the test program `test_damaged`, which runs the proved code on damaged images,
//! states and rows, is what this implementation answers on the same cases.

use reference::damaged::answers;
use std::path::PathBuf;

#[test]
fn the_program_prints_what_document_01_says() {
    let folder = PathBuf::from(env!("CARGO_MANIFEST_DIR")).join("../../crates/test_damaged");
    let stored = std::fs::read_to_string(folder.join("stdout")).expect("the stored output");
    let mut stored = stored.lines();
    for expected in answers(&folder).expect("images and cases").lines() {
        assert_eq!(stored.next(), Some(expected));
    }
    assert_eq!(stored.next(), None);
}

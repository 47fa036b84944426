//! The stored output of the test program `test_refusals`, which runs the proved front end on texts, is
//! the verdict of this implementation on the same texts.

use reference::refusals::answers;
use std::path::PathBuf;

#[test]
fn the_program_prints_what_document_01_says() {
    let folder = PathBuf::from(env!("CARGO_MANIFEST_DIR")).join("../../crates/test_refusals");
    let stored = std::fs::read(folder.join("stdout")).expect("the stored output");
    let answers = answers(&folder).expect("the files of texts");
    let mut stored = stored.split(|byte| *byte == b'\n');
    for expected in answers.split(|byte| *byte == b'\n') {
        let found = stored.next().map(String::from_utf8_lossy);
        assert_eq!(found, Some(String::from_utf8_lossy(expected)));
    }
    assert_eq!(stored.next(), None);
}

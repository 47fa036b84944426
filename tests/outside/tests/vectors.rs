//! The stored cases of the test program `test_vectors`, which compiles texts and runs their rows by the
//! proved code, are those of the generator, and the stored output is what this implementation
//! answers on them.

use reference::generate;
use reference::vectors::{answers, cases, folder_answer, folders};
use std::path::PathBuf;

#[test]
fn the_program_prints_what_document_01_says() {
    let folder = PathBuf::from(env!("CARGO_MANIFEST_DIR")).join("../../crates/test_vectors");
    let read = |name: &str| std::fs::read(folder.join(name)).expect(name);
    let arguments = String::from_utf8(read("args")).expect("names of files");
    let stored = String::from_utf8(read("stdout")).expect("text");
    let mut stored = stored.lines();
    for name in arguments.lines() {
        let expected = match name.ends_with('/') {
            true => folder_answer(&folder.join("data"), name).expect("a folder of examples"),
            false => answers(name, &cases(&read(&format!("data/{name}")))),
        };
        for expected in expected.lines() {
            assert_eq!(stored.next(), Some(expected), "{name}");
        }
    }
    assert_eq!(stored.next(), None);
}

#[test]
fn the_cases_are_those_of_the_generator() {
    let folder = PathBuf::from(env!("CARGO_MANIFEST_DIR")).join("../../crates/test_vectors");
    let mut names = String::new();
    for (name, bytes) in generate::vectors::files() {
        let stored = std::fs::read(folder.join("data").join(&name)).expect("a file of cases");
        assert!(stored == bytes, "{name}");
        names += &format!("{name}\n");
    }
    for name in folders(&folder.join("data")).expect("the folders of examples") {
        names += &format!("{name}\n");
    }
    assert_eq!(
        std::fs::read_to_string(folder.join("args")).expect("args"),
        names
    );
}

/// Table and direct run of this implementation agree on every row.
#[test]
fn every_row_is_the_same_both_ways() {
    for (name, bytes) in generate::vectors::files() {
        let answers = answers(&name, &cases(&bytes));
        assert!(!answers.contains(" direct"), "{name}");
        assert!(!answers.contains("differs"), "{name}");
        assert!(!answers.contains(" touched"), "{name}");
    }
}

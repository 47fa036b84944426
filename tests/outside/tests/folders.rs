//! The folders in examples/: each has the trace that this implementation gives, by the table and by
//! the direct run.

use reference::trace::{direct_trace, trace};
use std::fs;
use std::path::Path;

#[test]
fn every_folder_has_its_trace() {
    let folders = Path::new(env!("CARGO_MANIFEST_DIR")).join("../../examples");
    let mut seen = 0;
    for folder in fs::read_dir(folders).expect("examples/ is there") {
        let folder = folder.expect("a folder").path();
        let read = |name: &str| fs::read(folder.join(name)).expect("every folder has its files");
        let (text, rows) = (read("process.vhd"), read("rows.txt"));
        let expected = String::from_utf8(read("trace.txt")).expect("a trace is text");
        assert_eq!(trace(&text, &rows), expected, "{}", folder.display());
        assert_eq!(direct_trace(&text, &rows), expected, "{}", folder.display());
        seen += 1;
    }
    assert_eq!(seen, 12);
}

/// The program crates/trace has its own copy of tally, as a program's data must stand in its crate.
#[test]
fn the_trace_program_has_tally() {
    let root = Path::new(env!("CARGO_MANIFEST_DIR")).join("../..");
    let read = |name: &str| fs::read(root.join(name)).expect("the file is there");
    let pairs = [
        ("process.vhd", "data/process.vhd"),
        ("rows.txt", "data/rows.txt"),
        ("trace.txt", "stdout"),
    ];
    for (example, own) in pairs {
        let example = read(&format!("examples/tally/{example}"));
        assert_eq!(example, read(&format!("crates/trace/{own}")));
    }
}

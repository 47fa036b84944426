//! examples/ and the examples in the data of the program test_vectors: the same files, byte for byte. rt follows no links, so each is a folder of its own.

use crate::project::Project;
use crate::Finding;
use std::collections::BTreeSet;
use std::fs;

const EXAMPLES: &str = "examples/";
const COPY: &str = "crates/test_vectors/data/examples/";

/// Files that one of the two has not, and files that differ.
pub fn check(project: &Project) -> Vec<Finding> {
    let (examples, copy) = (below(project, EXAMPLES), below(project, COPY));
    let mut found = Vec::new();
    for file in examples.union(&copy) {
        let read = |folder: &str| fs::read(project.root.join(format!("{folder}{file}"))).ok();
        let says = match (read(EXAMPLES), read(COPY)) {
            (Some(a), Some(b)) if a == b => continue,
            (Some(_), Some(_)) => format!("it differs from {COPY}{file}"),
            (None, _) => format!("{COPY} has it, and examples has not"),
            (_, None) => format!("{COPY} has it not"),
        };
        found.push(Finding::new(&format!("{EXAMPLES}{file}"), 0, says));
    }
    found
}

/// The files below a folder, by their paths from it.
fn below<'a>(project: &'a Project, folder: &str) -> BTreeSet<&'a str> {
    let inside = project.files.iter();
    inside.filter_map(|f| f.strip_prefix(folder)).collect()
}

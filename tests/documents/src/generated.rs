//! The parts of documents that this program writes. Each stands between two marks, which a reader of the page does not see.

use crate::crates;
use crate::project::Project;
use crate::trust;
use crate::Finding;
use std::fs;
use std::io;

const END: &str = "<!-- end of what tests/documents writes -->";

/// What computes the lines of a part.
type Writes = fn(&Project) -> Vec<String>;

/// Document, name of the part, what computes its lines.
const PARTS: [(&str, &str, Writes); 4] = [
    ("README.md", "groups", crates::groups),
    ("docs/ARCHITECTURE.md", "way", crates::way),
    ("docs/ARCHITECTURE.md", "graph", crates::graph),
    ("docs/ARCHITECTURE.md", "crates", crates::table),
];

fn begin(name: &str) -> String {
    format!("<!-- written by tests/documents: {name} -->")
}

/// A document with a part written anew; none where its marks are missing.
fn replaced(text: &str, name: &str, part: &[String]) -> Option<String> {
    let begin = begin(name);
    let from = text.find(&begin)? + begin.len();
    let to = from + text[from..].find(END)?;
    Some(format!(
        "{}\n{}\n{}",
        &text[..from],
        part.join("\n"),
        &text[to..]
    ))
}

/// Parts that are missing, or are not what would be written.
pub fn check(project: &Project) -> Vec<Finding> {
    let mut found = Vec::new();
    for (path, name, lines) in PARTS {
        let text = project.text(path).unwrap_or_default();
        let says = match replaced(&text, name, &lines(project)) {
            None => format!(
                "the marks of the part `{name}` are missing: {} .. {END}",
                begin(name)
            ),
            Some(new) if new != text => {
                format!("the part `{name}` is stale: run `documents write`")
            }
            Some(_) => continue,
        };
        found.push(Finding::new(path, 0, says));
    }
    found
}

/// Writes the parts, and tells which documents changed.
pub fn write(project: &Project) -> io::Result<Vec<String>> {
    let mut written = Vec::new();
    for (path, name, lines) in PARTS {
        let text = project.text(path)?;
        let missing = || io::Error::other(format!("{path}: {} is missing", begin(name)));
        let new = replaced(&text, name, &lines(project)).ok_or_else(missing)?;
        if new != text {
            fs::write(project.root.join(path), new)?;
            written.push(path.to_string());
        }
    }
    written.extend(trust::write(project)?);
    written.dedup();
    Ok(written)
}

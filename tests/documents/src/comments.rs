//! Comments in code and definitions that name a crate.

use crate::project::{without_comment, Project};
use crate::Finding;

/// Crates that comments in code and definitions name, and that do not exist: "the crate NAME".
pub fn check(project: &Project) -> Vec<Finding> {
    let mut found = Vec::new();
    for file in project.files.iter().filter(|f| f.starts_with("crates/")) {
        let Some(mark) = comment_mark(file) else {
            continue;
        };
        let text = project.text(file).unwrap_or_default();
        for (number, line) in text.lines().enumerate() {
            let comment = &line[without_comment(line, mark).len()..];
            for (at, words) in comment.match_indices("the crate ") {
                let rest = comment[at + words.len()..].trim_start_matches('`');
                let name = rest
                    .split(|c: char| !(c.is_alphanumeric() || c == '_'))
                    .next();
                let name = name.unwrap_or("");
                if !project.is_crate(name) {
                    let says = format!("there is no crate {name}");
                    found.push(Finding::new(file, number + 1, says));
                }
            }
        }
    }
    found
}

/// How a comment begins in a file of code or definitions.
fn comment_mark(file: &str) -> Option<&'static str> {
    match file.rsplit_once('.')?.1 {
        "rt" => Some("//"),
        "antt" => Some("--"),
        "edit" => Some("#"),
        _ => None,
    }
}

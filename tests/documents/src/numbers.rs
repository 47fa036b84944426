//! The numbers of decisions and promises.

use crate::document::{cells, Document};
use crate::project::Project;
use crate::Finding;
use std::collections::BTreeMap;

const DECISIONS: &str = "docs/DECISIONS.md";
const PROMISES: &str = "docs/PROMISES.md";

pub fn check(project: &Project, document: &Document) -> Vec<Finding> {
    let mut found = cited(project, document);
    match document.path.as_str() {
        DECISIONS => {
            found.extend(twice(document));
            found.extend(order(document));
        }
        PROMISES => found.extend(twice(document)),
        _ => {}
    }
    found
}

/// The numbers of the rows of a document's tables, in order: the line, the table and the number. A table's first column is headed "No".
fn numbers(document: &Document) -> Vec<(usize, usize, String)> {
    let mut rows = Vec::new();
    let mut table = 0;
    let mut is_numbered = false;
    for (line, text) in document.numbered() {
        if !text.trim_start().starts_with('|') {
            is_numbered = false;
            continue;
        }
        match cells(text).first() {
            Some(&"No") => {
                table += 1;
                is_numbered = true;
            }
            Some(number) if is_numbered => rows.push((line, table, number.to_string())),
            _ => {}
        }
    }
    rows
}

/// Rows that share a number.
fn twice(document: &Document) -> Vec<Finding> {
    let mut found = Vec::new();
    let mut first: BTreeMap<String, usize> = BTreeMap::new();
    for (line, _, number) in numbers(document) {
        if let Some(before) = first.insert(number.clone(), line) {
            let says = format!("the number {number} stands in line {before} too");
            found.push(Finding::new(&document.path, line, says));
        }
    }
    found
}

/// Decisions that are not in order: within a table numbers rise, and so do the first numbers of the tables. A later decision stands at the end of its table.
fn order(document: &Document) -> Vec<Finding> {
    let mut found = Vec::new();
    let mut before: Option<(usize, usize)> = None;
    let mut head = 0;
    for (line, table, text) in numbers(document) {
        let Ok(number) = text.parse::<usize>() else {
            found.push(Finding::new(
                &document.path,
                line,
                format!("{text} is no number"),
            ));
            continue;
        };
        let least = match before {
            Some((same, last)) if same == table => last,
            _ => std::mem::replace(&mut head, number),
        };
        if number <= least {
            let says = format!("decision {number} stands behind {least}");
            found.push(Finding::new(&document.path, line, says));
        }
        before = Some((table, number));
    }
    found
}

/// Decisions that are cited by number and do not exist.
fn cited(project: &Project, document: &Document) -> Vec<Finding> {
    let decisions = Document::new(DECISIONS, &project.text(DECISIONS).unwrap_or_default());
    let known: Vec<String> = numbers(&decisions).into_iter().map(|(_, _, n)| n).collect();
    let mut found = Vec::new();
    for (line, text) in document.numbered() {
        let lower = text.to_lowercase();
        for (at, word) in lower.match_indices("decision") {
            let rest = lower[at + word.len()..].trim_start_matches('s');
            let Some(rest) = rest.strip_prefix(' ') else {
                continue;
            };
            let all = rest
                .split(|c: char| !(c.is_ascii_digit() || c == ',' || c == ' '))
                .next();
            let cited = all
                .unwrap_or("")
                .split([',', ' '])
                .filter(|n| !n.is_empty());
            for number in cited.filter(|n| !known.iter().any(|k| k == n)) {
                let says = format!("there is no decision {number}");
                found.push(Finding::new(&document.path, line, says));
            }
        }
    }
    found
}

//! Bounds on the code: parameters of a function, characters of a contract, `.before` in a row in a proof, and no dependency against the way of the data.

use crate::crates::against_the_way;
use crate::project::{without_comment, Project};
use crate::Finding;

const PARAMETERS: usize = 9;
const CONTRACT: usize = 400;
const CHAIN: usize = 15;

/// A function's head: its name, the line it begins in, how many parameters it has, and how many characters its contract.
#[derive(Debug, PartialEq, Eq)]
pub struct Head {
    pub name: String,
    pub line: usize,
    pub parameters: usize,
    pub contract: usize,
}

/// Everything above its bound.
pub fn check(project: &Project) -> Vec<Finding> {
    let mut found = against_the_way(project);
    for file in project.files.iter().filter(|f| f.starts_with("crates/")) {
        if file.ends_with(".rt") {
            let text = project.text(file).unwrap_or_default();
            found.extend(heads(&text).into_iter().flat_map(|head| above(file, &head)));
        } else if file.ends_with(".antt") {
            let text = project.text(file).unwrap_or_default();
            found.extend(longest_chain(file, &text));
        }
    }
    found
}

fn above(file: &str, head: &Head) -> Vec<Finding> {
    let mut found = Vec::new();
    if head.parameters > PARAMETERS {
        let says = format!(
            "{} has {} parameters (bound {PARAMETERS})",
            head.name, head.parameters
        );
        found.push(Finding::new(file, head.line, says));
    }
    if head.contract > CONTRACT {
        let says = format!(
            "the contract of {} has {} characters (bound {CONTRACT})",
            head.name, head.contract
        );
        found.push(Finding::new(file, head.line, says));
    }
    found
}

/// The heads of all functions of a source file.
pub fn heads(source: &str) -> Vec<Head> {
    let lines: Vec<&str> = source.lines().map(|l| without_comment(l, "//")).collect();
    let code = lines.join("\n");
    let mut heads = Vec::new();
    for (at, _) in code.match_indices("fn ") {
        let begins = code[..at].ends_with(|c: char| c.is_whitespace()) || at == 0;
        let rest = &code[at + 3..];
        let name: String = rest
            .chars()
            .take_while(|c| c.is_alphanumeric() || *c == '_')
            .collect();
        if !begins || name.is_empty() {
            continue;
        }
        let Some(open) = rest.find('(') else { continue };
        let close = closing(rest, open);
        heads.push(Head {
            name,
            line: code[..at].matches('\n').count() + 1,
            parameters: parameters(&rest[open + 1..close]),
            contract: contract(&rest[close..]),
        });
    }
    heads
}

/// Where the bracket that opens at a place is closed.
fn closing(text: &str, open: usize) -> usize {
    let mut depth = 0;
    for (at, c) in text[open..].char_indices() {
        match c {
            '(' | '{' | '[' => depth += 1,
            ')' | '}' | ']' => depth -= 1,
            _ => {}
        }
        if depth == 0 {
            return open + at;
        }
    }
    text.len()
}

/// The number of parts that commas outside brackets part.
fn parameters(list: &str) -> usize {
    let mut depth = 0;
    let mut count = 0;
    let mut is_empty = true;
    for c in list.chars() {
        match c {
            '(' | '[' | '<' | '{' => depth += 1,
            ')' | ']' | '>' | '}' => depth -= 1,
            ',' if depth == 0 => {
                count += 1;
                is_empty = true;
                continue;
            }
            _ => {}
        }
        is_empty &= c.is_whitespace();
    }
    count + usize::from(!is_empty)
}

/// The characters of `requires` and `ensures` between a function's parameters and its body, a run of blanks counted as one.
fn contract(rest: &str) -> usize {
    let mut count = 0;
    let mut from = 0;
    while let Some(open) = rest[from..].find(['{', ';']).map(|at| from + at) {
        let head = &rest[from..open];
        if rest[open..].starts_with(';') && !head.contains('[') {
            break;
        }
        if rest[open..].starts_with(';') {
            from = open + 1;
            continue;
        }
        if !head.contains("requires") && !head.contains("ensures") {
            break;
        }
        let close = closing(rest, open);
        let clause: Vec<&str> = rest[open + 1..close].split_whitespace().collect();
        count += clause.join(" ").chars().count();
        from = close + 1;
    }
    count
}

/// The longest chain of `.before` in a proof file, if it is above its bound: `c.before.before`. A chain may go on in the next line.
fn longest_chain(file: &str, text: &str) -> Option<Finding> {
    const STEP: &str = ".before";
    let lines: Vec<&str> = text.lines().map(|l| without_comment(l, "--")).collect();
    let code = lines.join("\n");
    let (mut longest, mut at) = (0, 0);
    let (mut run, mut end) = (0, 0);
    for (begins, step) in code.match_indices(STEP) {
        let between = &code[end..begins];
        let joins = between
            .chars()
            .all(|c| c.is_whitespace() || "()".contains(c));
        run = if run > 0 && joins { run + 1 } else { 1 };
        end = begins + step.len();
        if run > longest {
            (longest, at) = (run, code[..begins].matches('\n').count() + 1);
        }
    }
    let says = format!("{longest} `.before` in a row (bound {CHAIN})");
    (longest > CHAIN).then(|| Finding::new(file, at, says))
}

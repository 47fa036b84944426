//! Which tokens could stand where a text stops being a sentence (refusal 3).
//!
//! The proved compiler is asked: the text up to the place, and behind it each token of the language
//! in turn. A token that cannot stand there is refused where it stands; of every other one the
//! refusal is another, or is told behind it. So the list is exact.

use rabtishu::{check, Refusal, LONGEST_TEXT};

use crate::tokens::tokens;

/// Every word and mark of the language, in the order in which lists show them.
pub const FIXED: [&str; 47] = [
    ";",
    ",",
    ":",
    ":=",
    "(",
    ")",
    "<=",
    "=",
    "/=",
    "<",
    ">",
    ">=",
    "+",
    "-",
    "*",
    "/",
    "mod",
    "rem",
    "and",
    "or",
    "xor",
    "not",
    "entity",
    "is",
    "port",
    "in",
    "out",
    "std_logic",
    "integer",
    "end",
    "architecture",
    "of",
    "begin",
    "process",
    "variable",
    "null",
    "wait",
    "until",
    "if",
    "then",
    "else",
    "while",
    "loop",
    "'1'",
    "'0'",
    "0",
    "a",
];

/// How a token of the list is shown: the last two stand for all of their kind.
fn shown(token: &str) -> String {
    match token {
        "0" => "a number".to_string(),
        "a" => "a name".to_string(),
        word => format!("`{word}`"),
    }
}

/// What could stand at a place to which the text can be continued: tokens, and the text's end. None
/// where the text is too long for the question.
pub fn expected(text: &[u8], place: usize) -> Option<Vec<String>> {
    let mut asked = beginning(text, place)?;
    let start = asked.len();
    let mut list: Vec<String> = Vec::new();
    for token in FIXED {
        asked.truncate(start);
        asked.extend_from_slice(token.as_bytes());
        if !refused_at(&asked, start) {
            list.push(shown(token));
        }
    }
    asked.truncate(start);
    if place < text.len() && !refused_at(&asked, start) {
        list.push("the end of the text".to_string());
    }
    Some(list)
}

/// Whether the grammar or a limit has nothing for what stands at the place, or for the end there.
fn refused_at(text: &[u8], place: usize) -> bool {
    matches!(check(text), Err(Refusal { number: 3 | 4, place: at }) if at as usize == place)
}

/// The text up to a place without comments and doubled blanks, since it is read for every question:
/// one LF for whatever parts two tokens, and one behind the last. None where the longest token would
/// not fit behind it.
fn beginning(text: &[u8], place: usize) -> Option<Vec<u8>> {
    let longest = FIXED.map(str::len).into_iter().max().unwrap_or(0);
    let mut short = Vec::new();
    let mut end = 0;
    for token in tokens(&text[..place]) {
        if token.place > end {
            short.push(b'\n');
        }
        short.extend_from_slice(token.bytes);
        end = token.end();
    }
    short.push(b'\n');
    Some(short).filter(|short| short.len() + longest <= LONGEST_TEXT)
}

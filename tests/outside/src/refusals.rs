//! What the test program `test_refusals`, which runs the proved front end on texts, must print for the
//! files of its data: the verdicts of this implementation, in the program's own words.

use std::io;
use std::path::Path;

use crate::lexer::token_at;
use crate::verdict::verdict;

/// How many of the program's arguments name a file in which each line is a text.
const LISTS: usize = 16;

/// What the program prints, whose crate is this folder: its arguments name the files.
pub fn answers(folder: &Path) -> io::Result<Vec<u8>> {
    let mut out = Vec::new();
    let arguments = std::fs::read_to_string(folder.join("args"))?;
    for (at, name) in arguments.lines().enumerate() {
        let bytes = std::fs::read(folder.join("data").join(name))?;
        if at < LISTS {
            for (number, text) in texts(&bytes).into_iter().enumerate() {
                out.extend(format!("{name} {}: ", number + 1).bytes());
                line(&mut out, text);
            }
        } else {
            out.extend(format!("{name}: ").bytes());
            line(&mut out, &bytes);
        }
    }
    Ok(out)
}

/// `number place token`, a long token as its length in parentheses; `0` for an accepted text.
fn line(out: &mut Vec<u8>, text: &[u8]) {
    match verdict(text) {
        Ok(_) => out.push(b'0'),
        Err(refused) => {
            out.extend(format!("{} {}", refused.number, refused.place).bytes());
            let token = token_at(text, refused.place as usize);
            if token.len() > 40 {
                out.extend(format!(" ({})", token.len()).bytes());
            } else if !token.is_empty() {
                out.push(b' ');
                out.extend(token);
            }
        }
    }
    out.push(b'\n');
}

/// The texts of a file that has one in each line; a last line without its end counts.
fn texts(bytes: &[u8]) -> Vec<&[u8]> {
    let mut texts: Vec<&[u8]> = bytes.split(|byte| *byte == b'\n').collect();
    if texts.last().is_some_and(|text| text.is_empty()) {
        texts.pop();
    }
    texts
}

//! How tokens are written: names, case, blanks and comments.

use super::random::Random;
use crate::lexer::RESERVED;

/// A text as its tokens.
pub type Tokens = Vec<String>;

/// The tokens of a line that is written with blanks between them.
pub fn split(line: &str) -> Tokens {
    line.split_whitespace().map(str::to_string).collect()
}

/// A name that is not yet in use.
pub fn name(random: &mut Random, used: &mut Vec<String>) -> String {
    loop {
        let name = candidate(random);
        let same = |other: &str| other.eq_ignore_ascii_case(&name);
        let reserved = RESERVED.iter().any(|(word, _)| same(word));
        if !reserved && !used.iter().any(|other| same(other)) {
            used.push(name.clone());
            return name;
        }
    }
}

fn candidate(random: &mut Random) -> String {
    // Words of VHDL that are free here, and words that nearly are reserved.
    const NEAR: [&str; 16] = [
        "elsif",
        "mod_1",
        "modulo",
        "rem0",
        "boolean",
        "signal",
        "std",
        "logic",
        "std_logic1",
        "integers",
        "i",
        "end1",
        "xnor",
        "e",
        "o",
        "v",
    ];
    const LETTERS: &[u8] = b"abcdefghijklmnopqrstuvwxyz";
    const REST: &[u8] = b"abcdefghijklmnopqrstuvwxyz0123456789";
    if random.chance(8) {
        return random.pick(&NEAR).to_string();
    }
    let length = match random.below(20) {
        0 => 32,
        1 => random.between(9, 31),
        _ => random.between(1, 5),
    };
    let mut name = String::from(char::from(*random.pick(LETTERS)));
    while name.len() < length {
        let last = name.len() + 1 == length;
        if !last && !name.ends_with('_') && random.chance(10) {
            name.push('_');
        } else {
            name.push(char::from(*random.pick(REST)));
        }
    }
    name
}

/// How a whole text is written.
#[derive(Clone, Copy, PartialEq, Eq)]
enum Blanks {
    /// Only where two tokens would run together.
    Needed,
    /// One space between tokens.
    One,
    /// Any blanks and comments.
    Wild,
}

/// The bytes of a text. Lower-case letters of words may become capitals.
pub fn write(tokens: &[String], random: &mut Random) -> Vec<u8> {
    let blanks = *random.pick(&[Blanks::Needed, Blanks::One, Blanks::Wild]);
    let capitals = *random.pick(&[0, 0, 50, 100]);
    let mut text = Vec::new();
    for token in tokens {
        separate(&mut text, token, blanks, random);
        for byte in token.bytes() {
            let upper = random.chance(capitals);
            text.push(if upper {
                byte.to_ascii_uppercase()
            } else {
                byte
            });
        }
    }
    if blanks == Blanks::Wild && random.chance(50) {
        text.extend(b" -- the end, without LF");
    }
    text
}

fn separate(text: &mut Vec<u8>, token: &str, blanks: Blanks, random: &mut Random) {
    match blanks {
        Blanks::Needed => {
            if run_together(text, token.as_bytes()) {
                text.push(b' ');
            }
        }
        Blanks::One => {
            if !text.is_empty() {
                text.push(b' ');
            }
        }
        Blanks::Wild => {
            for _ in 0..random.below(3) {
                blank(text, random);
            }
            if run_together(text, token.as_bytes()) {
                text.push(*random.pick(b" \t\n\r"));
            }
        }
    }
}

fn blank(text: &mut Vec<u8>, random: &mut Random) {
    if !random.chance(10) {
        text.push(*random.pick(b"  \t\n\r"));
        return;
    }
    if text.ends_with(b"-") {
        text.push(b' ');
    }
    text.extend(b"--");
    for _ in 0..random.below(6) {
        let byte = random.byte();
        text.push(if byte == b'\n' { b';' } else { byte });
    }
    text.push(b'\n');
}

/// Whether a token would lengthen the one before it, or open a comment with it.
fn run_together(text: &[u8], token: &[u8]) -> bool {
    let wordlike = |byte: u8| byte.is_ascii_alphanumeric() || byte == b'_';
    let run = text
        .iter()
        .rev()
        .take_while(|byte| wordlike(**byte))
        .count();
    let before = &text[text.len() - run..];
    match (text.last(), token.first()) {
        (Some(last), Some(first)) => {
            let number = before.iter().all(u8::is_ascii_digit);
            let words = wordlike(*last) && wordlike(*first);
            words && !(number && first.is_ascii_alphabetic())
                || *last == b'-' && *first == b'-'
                || b":</>".contains(last) && *first == b'='
        }
        _ => false,
    }
}

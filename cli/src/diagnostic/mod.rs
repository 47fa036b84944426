//! A refusal as a person reads it: what is wrong, where, and what to do.

mod clause;
mod expected;
mod operands;
mod position;
mod question;

use std::fmt::{Display, Formatter, Result};
use std::ops::Range;

use rabtishu::{token_at, Refusal};

use crate::json::Json;
use crate::refusals;
use crate::tokens::{tokens, Token};

pub use clause::quoted;
pub use expected::FIXED;
pub use position::{position, Excerpt, Position};

use clause::Told;

/// The place in a text that a refusal is about.
#[derive(Clone, Debug, PartialEq, Eq)]
pub struct Spot {
    /// Line and column.
    pub position: Position,
    /// The line, and what is marked in it.
    pub excerpt: Excerpt,
    /// The token that starts there; empty where none does.
    pub token: String,
}

/// A refusal, put into words.
#[derive(Clone, Debug, PartialEq, Eq)]
pub struct Diagnostic {
    /// The refusal itself.
    pub refusal: Refusal,
    /// The file that was refused.
    pub file: String,
    /// What is wrong, in a sentence without its full stop.
    pub message: String,
    /// Where, if it is a text that was refused.
    pub spot: Option<Spot>,
    /// What could stand there instead, for 3.
    pub expected: Vec<String>,
}

impl Diagnostic {
    /// The refusal of a text (1 to 9) whose file has so many bytes.
    pub fn of_text(file: &str, text: &[u8], length: u64, refusal: Refusal) -> Diagnostic {
        let place = refusal.place as usize;
        let token = token_at(text, place);
        let marked = marked(text, refusal).len();
        let spot = Spot {
            position: position(text, place),
            excerpt: position::excerpt(text, place, marked),
            token: String::from_utf8_lossy(token).into_owned(),
        };
        let listed = if refusal.number == 3 {
            expected::expected(text, place)
        } else {
            None
        };
        Diagnostic {
            refusal,
            file: file.to_string(),
            message: message(text, length, refusal),
            spot: (refusal.number != 1).then_some(spot),
            expected: listed.unwrap_or_default(),
        }
    }

    /// The refusal of something that is no text.
    pub fn of_file(file: &str, message: String, refusal: Refusal) -> Diagnostic {
        let file = file.to_string();
        Diagnostic {
            refusal,
            file,
            message,
            spot: None,
            expected: Vec::new(),
        }
    }

    /// The bytes of a text that its refusal is about.
    pub fn marked(&self, text: &[u8]) -> Range<usize> {
        marked(text, self.refusal)
    }

    /// The refusal as fields, for programs.
    pub fn json(&self) -> Json {
        let words = |words: &str| Json::Words(words.to_string());
        let mut fields = vec![
            ("file", words(&self.file)),
            ("accepted", Json::Truth(false)),
            ("number", Json::Number(self.refusal.number.into())),
            ("place", Json::Number(self.refusal.place.into())),
            ("title", words(self.refusal.title())),
            ("message", words(&self.message)),
        ];
        if let Some(spot) = &self.spot {
            fields.push(("line", Json::Number(spot.position.line as u64)));
            fields.push(("column", Json::Number(spot.position.column as u64)));
            fields.push(("token", words(&spot.token)));
        }
        if self.refusal.number == 3 {
            let list = self
                .expected
                .iter()
                .map(|token| words(token.trim_matches('`')))
                .collect();
            fields.push(("expected", Json::List(list)));
        }
        fields.push(("remedy", words(&refusals::remedy(self.refusal.number))));
        Json::Object(fields)
    }

    fn put_spot(&self, f: &mut Formatter, spot: &Spot) -> Result {
        let Position { line, column } = spot.position;
        let number = line.to_string();
        let margin = " ".repeat(number.len());
        let marks = "^".repeat(spot.excerpt.marked);
        writeln!(f, "{margin}--> {}:{line}:{column}", self.file)?;
        writeln!(f, "{margin} |")?;
        writeln!(
            f,
            "{}",
            format!("{number} | {}", spot.excerpt.line).trim_end()
        )?;
        writeln!(f, "{margin} | {}{marks}", " ".repeat(spot.excerpt.before))?;
        writeln!(f, "{margin} |")
    }
}

impl Display for Diagnostic {
    fn fmt(&self, f: &mut Formatter) -> Result {
        let (number, title) = (self.refusal.number, self.refusal.title());
        writeln!(f, "refused[{number}]: {title}: {}", self.message)?;
        let mut margin = 1;
        match &self.spot {
            Some(spot) => {
                self.put_spot(f, spot)?;
                margin = spot.position.line.to_string().len();
            }
            None => writeln!(f, " --> {}", self.file)?,
        }
        if !self.expected.is_empty() {
            put_note(f, margin, "expected", &self.expected.join(", "))?;
        }
        put_note(f, margin, "do", &refusals::remedy(number))?;
        put_note(f, margin, "more", &format!("rabtishu explain {number}"))
    }
}

/// A note below the mark, in lines of at most about 100 characters.
fn put_note(f: &mut Formatter, margin: usize, head: &str, words: &str) -> Result {
    const WIDEST: usize = 84;
    let (margin, head) = (" ".repeat(margin), format!("= {head}: "));
    let mut lines = vec![String::new()];
    for word in words.split(' ') {
        let line = lines.last_mut().expect("there is a line");
        if !line.is_empty() && line.chars().count() + 1 + word.chars().count() > WIDEST {
            lines.push(word.to_string());
        } else {
            if !line.is_empty() {
                line.push(' ');
            }
            line.push_str(word);
        }
    }
    writeln!(f, "{margin} {head}{}", lines[0])?;
    let indent = " ".repeat(head.len());
    lines[1..]
        .iter()
        .try_for_each(|line| writeln!(f, "{margin} {indent}{line}"))
}

/// The token at a place or, where none starts, what stands there; nothing for a text that is too long.
fn marked(text: &[u8], refusal: Refusal) -> Range<usize> {
    let place = (refusal.place as usize).min(text.len());
    let length = match (refusal.number, token_at(text, place).len()) {
        (1, _) => 0,
        (_, 0) => malformed(text, place).len(),
        (_, length) => length,
    };
    place..place + length
}

/// The bytes at a place where no token starts: a malformed word to its end, else one character.
fn malformed(text: &[u8], place: usize) -> &[u8] {
    let rest = text.get(place..).unwrap_or_default();
    let word = rest
        .iter()
        .take_while(|byte| byte.is_ascii_alphanumeric() || **byte == b'_')
        .count();
    match rest.first() {
        Some(first) if first.is_ascii_alphabetic() => &rest[..word],
        Some(_) => &rest[..character(rest).len()],
        None => rest,
    }
}

/// The first character of some bytes: more than one byte where they are UTF-8.
fn character(bytes: &[u8]) -> &[u8] {
    let longest = bytes.len().min(4);
    let found = (1..=longest).find(|&length| std::str::from_utf8(&bytes[..length]).is_ok());
    &bytes[..found.unwrap_or(1)]
}

/// What is wrong with a text, in a sentence.
fn message(text: &[u8], length: u64, refusal: Refusal) -> String {
    let place = refusal.place as usize;
    let tokens: Vec<Token> = tokens(text).collect();
    let index = tokens.iter().position(|token| token.place == place);
    match (refusal.number, index) {
        (1, _) => format!("this text has {length} bytes, and at most 16384 are allowed"),
        (2, _) => no_token(malformed(text, place)),
        (3, None) => "the text ends too early".to_string(),
        (3, Some(index)) => format!("{} cannot stand here", quoted(tokens[index].bytes)),
        (number, Some(index)) => {
            let told = Told {
                text,
                tokens: &tokens,
                index,
            };
            match number {
                4 => told.limit(),
                5 => told.name_clause(),
                6 => told.type_clause(),
                7 => told.value_clause(),
                8 => told.clock_clause(),
                _ => told.class_clause(),
            }
        }
        _ => refusal.to_string(),
    }
}

fn no_token(bytes: &[u8]) -> String {
    match bytes {
        [first, _, ..] if first.is_ascii_alphabetic() => {
            let word = quoted(bytes);
            format!("{word} is a malformed word: no underscore is doubled or stands at the end")
        }
        [b'\''] => "a quote begins `'0'` or `'1'`, and nothing else".to_string(),
        [byte] if !(b' '..=b'~').contains(byte) => format!("the byte {byte} begins no token"),
        _ => format!("{} begins no token", quoted(bytes)),
    }
}

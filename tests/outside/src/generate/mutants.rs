//! Texts with one to three changes: most are refused, by any of 2 to 9.

use super::random::Random;
use super::spelling::{write, Tokens};
use super::texts;
use crate::lexer::RESERVED;

/// Tokens, and what is none, that a change may bring in.
const ODD: [&str; 41] = [
    "(",
    ")",
    ";",
    ",",
    ":",
    ":=",
    "<=",
    "=",
    "/=",
    "<",
    ">",
    ">=",
    "+",
    "-",
    "'0'",
    "'1'",
    "0",
    "1",
    "2147483647",
    "2147483648",
    "00000000002147483647",
    "99999999999999999999",
    "a__b",
    "ab_",
    "_a",
    "'2'",
    "'0",
    "*",
    "**",
    "/",
    "%",
    "\"",
    "1_000",
    "1e5",
    "clk",
    "x",
    "elsif",
    "mod",
    "rem",
    "mod_1",
    "a23456789012345678901234567890123",
];

/// Operators, one of which may stand in the place of another.
const OPERATORS: [&str; 10] = ["and", "or", "xor", "+", "-", "=", "*", "/", "mod", "rem"];

/// A mutant of an accepted text.
pub fn mutant(random: &mut Random) -> Vec<u8> {
    let mut tokens = texts::tokens(random);
    let changes = if random.chance(25) { 2 } else { 1 };
    for _ in 0..changes {
        match random.below(16) {
            0..=1 => without_initial(&mut tokens, random),
            2..=4 => without_wait(&mut tokens, random),
            5..=8 => other_name(&mut tokens, random),
            9..=10 => exchange(
                &mut tokens,
                &["'0'", "'1'", "0", "1", "7", "2147483648"],
                random,
            ),
            11 => exchange(&mut tokens, &["std_logic", "integer"], random),
            12 => exchange(&mut tokens, &["<=", ":=", "=", "<"], random),
            13 => exchange(&mut tokens, &OPERATORS, random),
            _ => token(&mut tokens, random),
        }
    }
    let mut text = write(&tokens, random);
    if random.chance(12) {
        byte(&mut text, random);
    }
    text
}

/// A change of one token.
fn token(tokens: &mut Tokens, random: &mut Random) {
    let at = random.below(tokens.len());
    let own = tokens[random.below(tokens.len())].clone();
    let odd = match random.below(3) {
        0 => random.pick(&RESERVED).0.to_string(),
        _ => random.pick(&ODD).to_string(),
    };
    match random.below(8) {
        0 if tokens.len() > 1 => drop(tokens.remove(at)),
        1 => tokens.insert(at, own),
        2 => tokens.insert(at, odd),
        3 => tokens[at] = odd,
        4 if at > 0 => tokens.swap(at - 1, at),
        5 if random.chance(20) => tokens.truncate(at.max(1)),
        6 => tokens.push(odd),
        _ => tokens[at] = own,
    }
}

/// One of these tokens in the place of another of them: 6, 5, or a meaning of its own.
fn exchange(tokens: &mut Tokens, choices: &[&str], random: &mut Random) {
    let places = positions(tokens, |token| choices.contains(&token));
    if let Some(at) = places.get(random.below(places.len())) {
        tokens[*at] = random.pick(choices).to_string();
    }
}

fn positions(tokens: &Tokens, such: impl Fn(&str) -> bool) -> Vec<usize> {
    let all = 0..tokens.len();
    all.filter(|at| such(&tokens[*at])).collect()
}

/// An initial value left out, or an assignment's right side: 7, or 3.
fn without_initial(tokens: &mut Tokens, random: &mut Random) {
    let places = positions(tokens, |token| token == ":=");
    if let Some(at) = places.get(random.below(places.len())) {
        let value = tokens
            .get(at + 1)
            .map_or(0, |next| if next == "-" { 3 } else { 2 });
        let end = (at + value).min(tokens.len());
        tokens.drain(*at..end);
    }
}

/// A wait made null: 9, unless the text has others to spare.
fn without_wait(tokens: &mut Tokens, random: &mut Random) {
    let places = positions(tokens, |token| token == "wait");
    if let Some(at) = places.get(random.below(places.len())) {
        let end = (at + 5).min(tokens.len());
        tokens.splice(*at..end, ["null".to_string()]);
    }
}

/// A name in the place of another: 5, 6 or 8, or accepted with another meaning.
fn other_name(tokens: &mut Tokens, random: &mut Random) {
    let is_name = |token: &str| {
        token.starts_with(|first: char| first.is_ascii_alphabetic())
            && !RESERVED
                .iter()
                .any(|(word, _)| token.eq_ignore_ascii_case(word))
    };
    let places = positions(tokens, is_name);
    if !places.is_empty() {
        let from = *random.pick(&places);
        let to = *random.pick(&places);
        tokens[to] = tokens[from].clone();
    }
}

/// A change of one byte.
fn byte(text: &mut Vec<u8>, random: &mut Random) {
    let at = random.below(text.len());
    let byte = random.byte();
    match random.below(4) {
        0 if !text.is_empty() => drop(text.remove(at)),
        1 => text.insert(at, byte),
        2 if random.chance(30) => text.truncate(at),
        _ if !text.is_empty() => text[at] = byte,
        _ => {}
    }
}

/// Any bytes, or any tokens.
pub fn noise(random: &mut Random) -> Vec<u8> {
    let length = random.below(60);
    if random.chance(30) {
        return (0..length).map(|_| random.byte()).collect();
    }
    let mut tokens = Vec::new();
    for _ in 0..length {
        let choice = match random.below(2) {
            0 => random.pick(&RESERVED).0,
            _ => *random.pick(&ODD),
        };
        tokens.push(choice.to_string());
    }
    write(&tokens, random)
}

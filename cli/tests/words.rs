//! Words for every text: no text makes the command fail, and what it says of a text agrees with what
//! the compiler told.

mod common;

use common::{examples, tally};
use rabtishu_cli::diagnostic::{position, Diagnostic};

/// The diagnostic of a text, if it is refused; whatever it is, it can be shown in both ways.
fn told(text: &[u8]) -> Option<Diagnostic> {
    let refusal = rabtishu::check(text).err()?;
    let diagnostic = Diagnostic::of_text("text", text, text.len() as u64, refusal);
    let (words, json) = (diagnostic.to_string(), diagnostic.json().line());
    assert!(
        words.starts_with(&format!("refused[{}]: ", refusal.number)),
        "{words}"
    );
    assert!(
        !words.chars().any(|c| c.is_control() && c != '\n'),
        "{words:?}"
    );
    assert!(
        json.contains(&format!("\"number\":{}", refusal.number)),
        "{json}"
    );
    assert!(
        words.lines().all(|line| line == line.trim_end()),
        "{words:?}"
    );
    Some(diagnostic)
}

/// Every byte of tally exchanged for others, taken out, and every beginning.
#[test]
fn damaged_texts() {
    let text = tally().into_bytes();
    let mut numbers = [0; 10];
    for place in 0..text.len() {
        for byte in [
            0, b'\t', b'\r', b'\n', b' ', b'\'', b'(', b'-', b'1', b'x', b';', 0x1b, 0xc3, 0xff,
        ] {
            let mut other = text.clone();
            other[place] = byte;
            told(&other).inspect(|told| numbers[told.refusal.number as usize] += 1);
        }
        let mut shorter = text.clone();
        shorter.remove(place);
        told(&shorter);
        assert!(told(&text[..place]).is_none_or(|told| told.refusal.number <= 3));
    }
    assert!(
        numbers[2] > 100 && numbers[3] > 100 && numbers[5] > 10,
        "{numbers:?}"
    );
}

/// Every pair of neighbouring tokens of every example exchanged, and every token doubled.
#[test]
fn exchanged_tokens() {
    for example in examples() {
        let text = std::fs::read(example.join("process.vhd")).expect("a text");
        let tokens: Vec<&[u8]> = rabtishu_cli::tokens::tokens(&text)
            .map(|token| token.bytes)
            .collect();
        for index in 1..tokens.len() {
            let mut exchanged = tokens.clone();
            exchanged.swap(index - 1, index);
            told(&exchanged.join(&b' '));
            let mut doubled = tokens.clone();
            doubled.insert(index, tokens[index]);
            told(&doubled.join(&b'\n'));
        }
    }
}

/// Line and column lead to the place: so many lines down, so many characters on.
#[test]
fn positions_lead_to_places() {
    let text = tally()
        .replace("  ", "\t")
        .replace('\n', "\r\n")
        .into_bytes();
    for place in 0..=text.len() {
        let at = position(&text, place);
        let lines: Vec<&[u8]> = text.split_inclusive(|&byte| byte == b'\n').collect();
        let before: usize = lines[..at.line - 1].iter().map(|line| line.len()).sum();
        assert_eq!(before + at.column - 1, place);
    }
}

//! The tokens that could stand where a text stops being a sentence are exactly those that the
//! compiler takes there, and every token of the language is tried.

mod common;

use std::fs;

use common::{root, tally};
use rabtishu::Refusal;
use rabtishu_cli::diagnostic::{Diagnostic, FIXED};
use rabtishu_cli::tokens::tokens;

/// What is expected where a text is refused by 3.
fn expected(text: &str) -> Vec<String> {
    let refusal = rabtishu::check(text.as_bytes()).expect_err("no sentence");
    assert_eq!(refusal.number, 3, "{text}");
    Diagnostic::of_text("text", text.as_bytes(), text.len() as u64, refusal).expected
}

/// The reserved words that docs/LANGUAGE.md lists are those that are tried, and none is a name.
#[test]
fn all_words() {
    let page = fs::read_to_string(root().join("docs/LANGUAGE.md")).expect("the page");
    let (_, behind) = page.split_once("**Reserved** are").expect("the list");
    let block = behind
        .lines()
        .skip(1)
        .skip_while(|line| line.is_empty())
        .take_while(|line| !line.is_empty());
    let mut listed: Vec<String> = block
        .flat_map(str::split_whitespace)
        .map(str::to_string)
        .collect();
    let is_word = |token: &&str| token.len() > 1 && token.as_bytes()[0].is_ascii_alphabetic();
    let mut words: Vec<String> = FIXED
        .into_iter()
        .filter(is_word)
        .map(str::to_string)
        .collect();
    listed.sort();
    words.sort();
    assert_eq!(listed, words);
    for word in words {
        let told = rabtishu::check(format!("entity {word}").as_bytes());
        assert_eq!(
            told,
            Err(Refusal {
                number: 3,
                place: 7
            }),
            "{word} is a name"
        );
    }
}

/// Every token of every example but names and numbers is tried.
#[test]
fn all_tokens_of_the_examples() {
    for example in common::examples() {
        let text = fs::read(example.join("process.vhd")).expect("a text");
        for token in tokens(&text) {
            let own = token.folded();
            let tried = FIXED.contains(&own.as_str());
            let spelled = own
                .bytes()
                .all(|byte| byte.is_ascii_alphanumeric() || byte == b'_');
            assert!(tried || spelled, "{own}");
        }
    }
}

/// In every place of tally: the token that stands there is expected, and a token is expected exactly
/// when the text up to it can go on, as the compiler says by telling no place before the end.
#[test]
fn every_place_of_tally() {
    let text = tally();
    for token in tokens(text.as_bytes()) {
        let cut = &text[..token.place];
        let list = expected(cut);
        let own = match token.bytes[0] {
            _ if FIXED[..45].contains(&token.folded().as_str()) => format!("`{}`", token.folded()),
            b'0'..=b'9' => "a number".to_string(),
            _ => "a name".to_string(),
        };
        assert!(list.contains(&own), "{own} at {}: {list:?}", token.place);
        for other in FIXED {
            let whole = format!("{cut}\n{other}\n");
            let told = rabtishu::check(whole.as_bytes()).err();
            let stands = told.is_none_or(|told| told.place as usize != cut.len() + 1);
            let shown = match other {
                "a" => "a name".to_string(),
                "0" => "a number".to_string(),
                word => format!("`{word}`"),
            };
            assert_eq!(list.contains(&shown), stands, "{other} at {}", token.place);
        }
    }
}

/// A text of 16,384 bytes is asked about too, without its blanks and comments.
#[test]
fn the_longest_text() {
    let blanks = 16_384 - tally().len();
    let cut = tally().replace("s + d;", "s + d") + &" ".repeat(blanks + 1);
    assert_eq!(cut.len(), 16_384);
    assert!(expected(&cut).contains(&"`;`".to_string()));
    let ended = tally() + &" ".repeat(blanks - 1) + "x";
    assert_eq!(expected(&ended), ["the end of the text"]);
    let tight = format!("entity {}", "e ".repeat(8_188));
    assert!(tight.len() <= 16_384);
    assert_eq!(expected(&tight), ["`is`"]);
}

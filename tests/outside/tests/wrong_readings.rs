//! Boards that must be shut out, by how they read the operators of change request 2: each puts the
//! parentheses of a wrong reading into an accepted text and is right on what comes of it. Random
//! expressions and the frozen cases must find it.

use reference::answer::Answer;
use reference::arithmetic::{edges, expressions};
use reference::board::{Board, REFERENCE};
use reference::frozen::{check_text, request_texts};
use reference::generate::random::SEED;
use reference::lexer::{tokens, Kind};
use reference::state::State;

const NONE: u8 = 0;
const SIGN_ON_THE_FIRST_FACTOR: u8 = 1;
const LIKE_A_SUM: u8 = 2;
const RIGHT_FIRST: u8 = 3;

/// A part of a simple expression: an operand (a name, a number, parentheses with what they hold), or
/// an operator.
#[derive(Clone, Copy, PartialEq, Eq)]
enum Part {
    Operand,
    Sum,
    Scale,
}

type Parts = Vec<(Part, String)>;

/// The text with the parentheses of the wrong reading, or as it is if they pass a limit.
fn reread<const FAULT: u8>(text: &[u8]) -> Vec<u8> {
    if (REFERENCE.direct_fresh)(text, &mut [0; 49])[0] != 0 {
        return text.to_vec();
    }
    let list = tokens(text).expect("an accepted text has tokens");
    let mut words = list.iter().map(|token| {
        let spelling = String::from_utf8_lossy(token.bytes(text));
        (token.kind, spelling.to_string())
    });
    let other = rewritten::<FAULT>(&mut words).into_bytes();
    match (REFERENCE.direct_fresh)(&other, &mut [0; 49])[0] {
        0 => other,
        _ => text.to_vec(),
    }
}

/// The tokens up to the parenthesis that closes, each simple expression among them regrouped.
fn rewritten<const FAULT: u8>(words: &mut dyn Iterator<Item = (Kind, String)>) -> String {
    let mut out = String::new();
    let mut parts = Parts::new();
    while let Some((kind, word)) = words.next() {
        let part = match kind {
            Kind::Name | Kind::Number => (Part::Operand, word),
            Kind::Open => (Part::Operand, format!("( {} )", rewritten::<FAULT>(words))),
            Kind::Plus | Kind::Minus => (Part::Sum, word),
            Kind::Times | Kind::Divide | Kind::Mod | Kind::Rem => (Part::Scale, word),
            Kind::Close => break,
            _ => {
                out += &format!(" {} {word}", regrouped::<FAULT>(&parts));
                parts.clear();
                continue;
            }
        };
        parts.push(part);
    }
    format!("{out} {}", regrouped::<FAULT>(&parts))
}

/// A simple expression with the parentheses of the wrong reading.
fn regrouped<const FAULT: u8>(parts: &[(Part, String)]) -> String {
    match FAULT {
        SIGN_ON_THE_FIRST_FACTOR => sign_on_the_first_factor(parts),
        LIKE_A_SUM => like_a_sum(parts),
        RIGHT_FIRST => right_first(parts),
        _ => joined(parts),
    }
}

fn joined(parts: &[(Part, String)]) -> String {
    let words: Vec<&str> = parts.iter().map(|(_, word)| word.as_str()).collect();
    words.join(" ")
}

fn sign_on_the_first_factor(parts: &[(Part, String)]) -> String {
    match parts {
        [(Part::Sum, sign), (_, first), rest @ ..] if matches!(rest, [(Part::Scale, _), ..]) => {
            format!("( {sign} {first} ) {}", joined(rest))
        }
        _ => joined(parts),
    }
}

/// Whatever stands on the left of an operator is its left operand.
fn like_a_sum(parts: &[(Part, String)]) -> String {
    let mut out = String::new();
    let mut sums = 0;
    for (at, (part, word)) in parts.iter().enumerate() {
        sums += usize::from(at > 0 && *part == Part::Sum);
        out = match *part == Part::Scale && sums > 0 {
            true => format!("( {out} ) {word}"),
            false => format!("{out} {word}"),
        };
    }
    out
}

/// Of two operators in a term the right one is first.
fn right_first(parts: &[(Part, String)]) -> String {
    let mut out = String::new();
    let mut open = 0;
    for (at, (part, word)) in parts.iter().enumerate() {
        if *part == Part::Sum {
            out += &" )".repeat(open);
            open = 0;
        }
        out += &format!(" {word}");
        let again = matches!(parts.get(at + 2), Some((Part::Scale, _)));
        if *part == Part::Scale && again {
            out += " (";
            open += 1;
        }
    }
    out + &" )".repeat(open)
}

fn compile<const FAULT: u8>(text: &[u8], image: &mut [u8]) -> Answer {
    (REFERENCE.compile)(&reread::<FAULT>(text), image)
}

fn direct<const FAULT: u8>(
    text: &[u8],
    state: &mut State,
    inputs: &[i32],
    outputs: &mut [i32],
) -> Answer {
    (REFERENCE.direct)(&reread::<FAULT>(text), state, inputs, outputs)
}

fn board<const FAULT: u8>() -> Board {
    Board {
        name: "a board with a fault",
        compile: compile::<FAULT>,
        direct: direct::<FAULT>,
        ..REFERENCE
    }
}

fn by_expressions(board: &Board) {
    expressions(board, 100, SEED);
}

fn by_frozen_cases(board: &Board) {
    for case in request_texts() {
        check_text(board, &case);
    }
}

#[test]
fn without_a_fault_it_passes() {
    let board = board::<NONE>();
    by_expressions(&board);
    by_frozen_cases(&board);
}

/// One operator alone cannot show how several are read.
#[test]
fn edges_do_not_find_it() {
    edges(&board::<SIGN_ON_THE_FIRST_FACTOR>());
    edges(&board::<LIKE_A_SUM>());
    edges(&board::<RIGHT_FIRST>());
}

/// A test for each fault and comparison: it must find another image.
macro_rules! found {
    ($by:ident, $words:literal: $($test:ident: $fault:expr;)*) => {
        mod $by {
            use super::*;

            $(
                #[test]
                #[should_panic(expected = $words)]
                fn $test() {
                    super::$by(&board::<{ $fault }>());
                }
            )*
        }
    };
}

found! { by_expressions, "assertion `left == right` failed: ":
    sign_on_the_first_factor: SIGN_ON_THE_FIRST_FACTOR;
    product_binds_like_a_sum: LIKE_A_SUM;
    right_operator_first: RIGHT_FIRST;
}

found! { by_frozen_cases, " of s2-t":
    sign_on_the_first_factor: SIGN_ON_THE_FIRST_FACTOR;
    product_binds_like_a_sum: LIKE_A_SUM;
    right_operator_first: RIGHT_FIRST;
}

//! Postfix code as an expression of the language, with the fewest parentheses that keep its
//! reading: compiled again it is the same code.
//!
//! Codes are those of docs/FORMAT.md. A literal below 0, which no compile writes but an image may
//! have, is shown with its sign, as the sign of a number would be.

use crate::signals::{Signal, Signals};

/// How tightly the outermost operator of an expression binds, in the order of document 01.
#[derive(Clone, Copy, Debug, PartialEq, Eq, PartialOrd, Ord)]
enum Level {
    Chain,
    Relation,
    Sum,
    Term,
    Factor,
    Primary,
}

/// A part of an expression: its words, and the outermost operator, if it has one.
struct Part {
    words: String,
    level: Level,
    operator: &'static str,
}

/// The expression of a run of code, with the names of its image's signals.
pub fn expression(code: &[u8], names: &Signals) -> String {
    let mut parts = Vec::new();
    let mut rest = code;
    while let [operation, operands @ ..] = rest {
        rest = step(&mut parts, *operation, operands, names);
    }
    parts.pop().map(|part| part.words).unwrap_or_default()
}

/// One operation, on the parts that those before it left; what is behind it.
fn step<'a>(parts: &mut Vec<Part>, operation: u8, rest: &'a [u8], names: &Signals) -> &'a [u8] {
    let size = match operation {
        1 => 4,
        2..=4 => 1,
        _ => 0,
    };
    let (operand, behind) = rest.split_at(size);
    let part = match operation {
        1 => number(i32::from_le_bytes(operand.try_into().expect("four bytes"))),
        2 => primary(format!("'{}'", operand[0])),
        3 => named(&names.inputs, operand[0]),
        4 => named(&names.variables, operand[0]),
        16 => sign(pop(parts)),
        17 => not(pop(parts)),
        _ => {
            let right = pop(parts);
            binary(pop(parts), operation, right)
        }
    };
    parts.push(part);
    behind
}

/// The opener has checked that every operation finds its operands.
fn pop(parts: &mut Vec<Part>) -> Part {
    parts.pop().expect("an opened image has whole expressions")
}

fn primary(words: String) -> Part {
    Part {
        words,
        level: Level::Primary,
        operator: "",
    }
}

fn number(value: i32) -> Part {
    let level = match value {
        0.. => Level::Primary,
        _ => Level::Sum,
    };
    Part {
        level,
        ..primary(value.to_string())
    }
}

fn named(signals: &[Signal], index: u8) -> Part {
    let signal = signals.get(usize::from(index));
    primary(signal.map_or_else(|| format!("#{index}"), |signal| signal.name.clone()))
}

fn sign(operand: Part) -> Part {
    let bare = operand.level >= Level::Term;
    Part {
        words: format!("-{}", held(operand, bare)),
        level: Level::Sum,
        operator: "-",
    }
}

fn not(operand: Part) -> Part {
    let bare = operand.level == Level::Primary;
    Part {
        words: format!("not {}", held(operand, bare)),
        level: Level::Factor,
        operator: "not",
    }
}

fn binary(left: Part, operation: u8, right: Part) -> Part {
    let (operator, level) = operator(operation);
    let left_bare = match level {
        Level::Chain => left.level > level || left.operator == operator,
        Level::Relation => left.level > level,
        _ => left.level >= level,
    };
    let right_bare = right.level > level;
    let (left, right) = (held(left, left_bare), held(right, right_bare));
    Part {
        words: format!("{left} {operator} {right}"),
        level,
        operator,
    }
}

/// The words of a part, in parentheses unless it may stand bare.
fn held(part: Part, bare: bool) -> String {
    match bare {
        true => part.words,
        false => format!("({})", part.words),
    }
}

fn operator(operation: u8) -> (&'static str, Level) {
    match operation {
        18 => ("+", Level::Sum),
        19 => ("-", Level::Sum),
        20 => ("=", Level::Relation),
        21 => ("/=", Level::Relation),
        22 => ("<", Level::Relation),
        23 => ("<=", Level::Relation),
        24 => (">", Level::Relation),
        25 => (">=", Level::Relation),
        26 => ("and", Level::Chain),
        27 => ("or", Level::Chain),
        28 => ("xor", Level::Chain),
        29 => ("*", Level::Term),
        30 => ("/", Level::Term),
        31 => ("mod", Level::Term),
        32 => ("rem", Level::Term),
        _ => unreachable!("an opened image has no operation {operation}"),
    }
}

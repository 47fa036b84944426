//! An opened image decoded: signature, lines, and what each line does in words (docs/FORMAT.md).

use crate::expression::expression;
use crate::signals::{Kind, Signal, Signals};
use rabtishu::Image;

/// What kind of statement a line is.
#[derive(Clone, Copy, Debug, PartialEq, Eq)]
pub enum LineKind {
    /// A cycle ends here.
    Wait,
    /// An output gets a value.
    Signal,
    /// A variable gets a value.
    Variable,
    /// An `if` or a `while`: two followers.
    Branch,
    /// Nothing happens.
    Null,
}

/// An output or variable of the signature.
#[derive(Clone, Copy, Debug, PartialEq, Eq)]
pub struct Slot {
    /// Its type.
    pub kind: Kind,
    /// Its value before the first cycle.
    pub initial: i32,
}

/// A line of the table.
#[derive(Clone, Copy, Debug, PartialEq, Eq)]
pub struct Line<'a> {
    /// What kind of statement it is.
    pub kind: LineKind,
    /// Index of the output or variable.
    pub target: u8,
    /// Its expression, in postfix.
    pub code: &'a [u8],
    /// The line that follows; for a branch where its condition is true.
    pub next: u16,
    /// The line that follows a branch whose condition is false.
    pub other: u16,
    /// How many lines a cycle can still perform behind it, at most.
    pub reach: u16,
}

/// Signature and lines of an image.
#[derive(Clone, Debug, PartialEq, Eq)]
pub struct Table<'a> {
    /// Types of the data inputs.
    pub inputs: Vec<Kind>,
    /// The outputs.
    pub outputs: Vec<Slot>,
    /// The variables.
    pub variables: Vec<Slot>,
    /// The lines, from 0.
    pub lines: Vec<Line<'a>>,
}

impl LineKind {
    /// The word that tables on paper have for it.
    pub fn word(self) -> &'static str {
        match self {
            LineKind::Wait => "wait",
            LineKind::Signal => "signal",
            LineKind::Variable => "var",
            LineKind::Branch => "branch",
            LineKind::Null => "null",
        }
    }

    fn of_byte(byte: u8) -> LineKind {
        match byte {
            0 => LineKind::Wait,
            1 => LineKind::Signal,
            2 => LineKind::Variable,
            3 => LineKind::Branch,
            _ => LineKind::Null,
        }
    }
}

impl Line<'_> {
    /// What the line does, in words of the language; a branch with the lines that it leads to.
    pub fn words(&self, names: &Signals) -> String {
        let value = expression(self.code, names);
        match self.kind {
            LineKind::Wait => waiting(names),
            LineKind::Signal => format!("{} <= {value}", target(&names.outputs, self.target)),
            LineKind::Variable => format!("{} := {value}", target(&names.variables, self.target)),
            LineKind::Branch => format!("if {value} then {} else {}", self.next, self.other),
            LineKind::Null => "null".to_string(),
        }
    }

    /// The field that branches alone use.
    pub fn other(&self) -> Option<u16> {
        (self.kind == LineKind::Branch).then_some(self.other)
    }
}

impl<'a> Table<'a> {
    /// Decodes an image. The opener has checked it, so every field is there.
    pub fn of(image: &Image<'a>) -> Table<'a> {
        let types = &image.signature()[3..];
        let (inputs, slots) = types.split_at(image.inputs());
        let slots: Vec<Slot> = slots.chunks_exact(5).map(slot).collect();
        let (outputs, variables) = slots.split_at(image.outputs());
        let lines = image.lines().chunks_exact(12);
        Table {
            inputs: inputs.iter().map(|&byte| Kind::of_byte(byte)).collect(),
            outputs: outputs.to_vec(),
            variables: variables.to_vec(),
            lines: lines.map(|bytes| line(bytes, image.code())).collect(),
        }
    }

    /// How many lines a cycle performs at most, from whatever place it goes on: one more than the
    /// largest reach of a line that a cycle can begin with. That the bound holds for every image
    /// that opens is proved (`Outcome`, crates/spec_simulation/specs).
    pub fn bound(&self) -> u32 {
        let waits = self.lines.iter().filter(|line| line.kind == LineKind::Wait);
        let begins = waits.map(|wait| usize::from(wait.next)).chain([0]);
        let reaches = begins.map(|begin| self.lines[begin].reach);
        1 + u32::from(reaches.max().unwrap_or(0))
    }
}

fn waiting(names: &Signals) -> String {
    match &names.clock {
        Some(clock) => format!("wait until {clock} = '1'"),
        None => "wait".to_string(),
    }
}

fn target(signals: &[Signal], index: u8) -> String {
    match signals.get(usize::from(index)) {
        Some(signal) => signal.name.clone(),
        None => format!("#{index}"),
    }
}

/// A type and four bytes of an initial value.
fn slot(bytes: &[u8]) -> Slot {
    Slot {
        kind: Kind::of_byte(bytes[0]),
        initial: i32::from_le_bytes([bytes[1], bytes[2], bytes[3], bytes[4]]),
    }
}

fn line<'a>(bytes: &[u8], code: &'a [u8]) -> Line<'a> {
    let field = |at: usize| u16::from_le_bytes([bytes[at], bytes[at + 1]]);
    let (start, length) = (usize::from(field(2)), usize::from(field(4)));
    Line {
        kind: LineKind::of_byte(bytes[0]),
        target: bytes[1],
        code: &code[start..start + length],
        next: field(6),
        other: field(8),
        reach: field(10),
    }
}

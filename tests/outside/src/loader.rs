//! The opener: an image is checked (refusals 11, 12, 13) and its three sections are lent out as
//! parts of the caller's bytes.

use crate::answer::{refusal, Outcome};
use crate::design::Slot;
use crate::encoder::{
    BINARY_CODES, BRANCH, CODE_INPUT, CODE_INTEGER, CODE_STD_LOGIC, CODE_VARIABLE, NULL, OUTPUT,
    UNARY_CODES, VARIABLE, WAIT,
};
use crate::limits::{ITEMS, OUTPUTS, STATEMENTS, VARIABLES};
use crate::tree::Type;
use crate::types::{binary, unary, Of};

/// "data inputs (at most 16)": the clock is one of the 17 `in` ports.
pub const DATA_INPUTS: usize = 16;
/// "at most 65,535 bytes."
pub const IMAGE: usize = 65_535;
/// The bytes of a line.
pub const LINE: usize = 12;

/// An opened image: its sections.
#[derive(Clone, Copy, Debug, PartialEq, Eq)]
pub struct Image<'a> {
    pub signature: &'a [u8],
    pub lines: &'a [u8],
    pub code: &'a [u8],
}

/// A line of the table.
#[derive(Clone, Copy, Debug, PartialEq, Eq)]
pub struct Line {
    pub kind: u8,
    pub target: u8,
    pub offset: u16,
    pub length: u16,
    pub next: u16,
    pub other: u16,
    pub reach: u16,
}

fn word(bytes: &[u8], at: usize) -> u16 {
    u16::from_le_bytes([bytes[at], bytes[at + 1]])
}

fn long(bytes: &[u8], at: usize) -> u32 {
    u32::from_le_bytes([bytes[at], bytes[at + 1], bytes[at + 2], bytes[at + 3]])
}

/// Checks an image: 11, then 12, then 13.
pub fn open(bytes: &[u8]) -> Outcome<Image<'_>> {
    let image = sections(bytes).ok_or(refusal(11, 0))?;
    if !good_signature(image.signature) {
        return Err(refusal(12, 0));
    }
    lines(&image)?;
    Ok(image)
}

/// 11: "form, count, pairs, image length, lines section not 1 to 512 whole lines".
fn sections(bytes: &[u8]) -> Option<Image<'_>> {
    if bytes.len() < 28 || bytes.len() > IMAGE || word(bytes, 0) != 1 || word(bytes, 2) != 3 {
        return None;
    }
    // "the first starts at byte 28, no gaps, the last ends the image".
    let mut parts = [&bytes[..0]; 3];
    let mut start = 28;
    for (index, part) in parts.iter_mut().enumerate() {
        let pair = 4 + 8 * index;
        if long(bytes, pair) as usize != start {
            return None;
        }
        let end = start.checked_add(long(bytes, pair + 4) as usize)?;
        *part = bytes.get(start..end)?;
        start = end;
    }
    let [signature, lines, code] = parts;
    let whole = lines.len() % LINE == 0 && (1..=STATEMENTS).contains(&(lines.len() / LINE));
    (start == bytes.len() && whole).then_some(Image {
        signature,
        lines,
        code,
    })
}

/// 12: counts within their bounds, the section just as long as they ask, types 0 or 1, initial
/// values of their types.
fn good_signature(signature: &[u8]) -> bool {
    let [inputs, outputs, variables, rest @ ..] = signature else {
        return false;
    };
    let inputs = usize::from(*inputs);
    let outputs = usize::from(*outputs);
    let variables = usize::from(*variables);
    inputs <= DATA_INPUTS
        && outputs <= OUTPUTS
        && variables <= VARIABLES
        && rest.len() == inputs + 5 * (outputs + variables)
        && rest[..inputs].iter().all(|b| Type::from_byte(*b).is_some())
        && rest[inputs..].chunks(5).all(|chunk| {
            let value = long(chunk, 1) as i32;
            Type::from_byte(chunk[0]).is_some_and(|kind| kind.holds(value))
        })
}

impl<'a> Image<'a> {
    /// The types of the data inputs.
    pub fn inputs(&self) -> impl ExactSizeIterator<Item = Type> + 'a {
        let count = usize::from(self.signature[0]);
        self.signature[3..3 + count].iter().map(|byte| kind(*byte))
    }

    /// The outputs.
    pub fn outputs(&self) -> impl ExactSizeIterator<Item = Slot> + 'a {
        self.slots(0, usize::from(self.signature[1]))
    }

    /// The variables.
    pub fn variables(&self) -> impl ExactSizeIterator<Item = Slot> + 'a {
        let before = usize::from(self.signature[1]);
        self.slots(before, usize::from(self.signature[2]))
    }

    fn slots(&self, before: usize, count: usize) -> impl ExactSizeIterator<Item = Slot> + 'a {
        let start = 3 + usize::from(self.signature[0]) + 5 * before;
        let chunks = self.signature[start..start + 5 * count].chunks(5);
        chunks.map(|chunk| Slot {
            kind: kind(chunk[0]),
            initial: long(chunk, 1) as i32,
        })
    }

    /// The number of lines.
    pub fn count(&self) -> usize {
        self.lines.len() / LINE
    }

    /// The line with this number.
    pub fn line(&self, number: usize) -> Line {
        let bytes = &self.lines[LINE * number..LINE * (number + 1)];
        Line {
            kind: bytes[0],
            target: bytes[1],
            offset: word(bytes, 2),
            length: word(bytes, 4),
            next: word(bytes, 6),
            other: word(bytes, 8),
            reach: word(bytes, 10),
        }
    }

    /// The code of a line, if it is inside the section.
    pub fn code_of(&self, line: &Line) -> Option<&'a [u8]> {
        let start = usize::from(line.offset);
        self.code.get(start..start + usize::from(line.length))
    }
}

/// The type with this byte; an opened image has no others.
fn kind(byte: u8) -> Type {
    Type::from_byte(byte).unwrap_or(Type::Integer)
}

/// 13: "lines or code", at "lowest bad line; the line count if only the code section is not
/// filled".
fn lines(image: &Image) -> Outcome<()> {
    let mut end = 0;
    for number in 0..image.count() {
        let line = image.line(number);
        // "a line without code has length 0 and the offset where the run before ended."
        let adjoins = usize::from(line.offset) == end;
        if !(adjoins && good_line(image, &line) && good_reach(image, &line)) {
            return Err(refusal(13, number));
        }
        end += usize::from(line.length);
    }
    if end != image.code.len() {
        return Err(refusal(13, image.count()));
    }
    Ok(())
}

/// Kind, target, code, followers, and "Unused fields are 0".
fn good_line(image: &Image, line: &Line) -> bool {
    let target = usize::from(line.target);
    let output = image.outputs().nth(target).map(|slot| slot.kind);
    let variable = image.variables().nth(target).map(|slot| slot.kind);
    let (target_good, needed) = match line.kind {
        WAIT | NULL => (target == 0, None),
        OUTPUT => (output.is_some(), output.map(Of::Value)),
        VARIABLE => (variable.is_some(), variable.map(Of::Value)),
        BRANCH => (target == 0, Some(Of::Boolean)),
        _ => return false,
    };
    let code = image.code_of(line);
    let code_good = match needed {
        None => line.length == 0,
        Some(needed) => code.is_some_and(|code| type_of(image, code) == Some(needed)),
    };
    let count = image.count();
    let other_good = match line.kind {
        BRANCH => usize::from(line.other) < count,
        _ => line.other == 0,
    };
    target_good && code_good && usize::from(line.next) < count && other_good
}

/// "Reach is 0 for a wait, else 1 plus the larger reach of its followers", as they are stored.
fn good_reach(image: &Image, line: &Line) -> bool {
    let stored = |number: u16| u32::from(image.line(usize::from(number)).reach);
    let reach = match line.kind {
        WAIT => 0,
        BRANCH => 1 + stored(line.next).max(stored(line.other)),
        _ => 1 + stored(line.next),
    };
    u32::from(line.reach) == reach
}

/// The type of the one value that code leaves; none if it is bad: "1 to 64 operations", operands
/// there and of the types that the operators take.
fn type_of(image: &Image, code: &[u8]) -> Option<Of> {
    let mut stack = Vec::new();
    let mut operations = 0;
    let mut rest = code;
    while let [operation, after @ ..] = rest {
        operations += 1;
        rest = after;
        if let Some((_, operator)) = UNARY_CODES.iter().find(|(byte, _)| byte == operation) {
            let operand = stack.pop()?;
            stack.push(unary(*operator, operand)?);
            continue;
        }
        if let Some((_, operator)) = BINARY_CODES.iter().find(|(byte, _)| byte == operation) {
            let right = stack.pop()?;
            let left = stack.pop()?;
            stack.push(binary(*operator, left, right)?);
            continue;
        }
        let length = if *operation == CODE_INTEGER { 4 } else { 1 };
        let operand = rest.get(..length)?;
        rest = &rest[length..];
        let index = usize::from(operand[0]);
        let kind = match *operation {
            CODE_INTEGER => Type::Integer,
            CODE_STD_LOGIC if index <= 1 => Type::StdLogic,
            CODE_INPUT => image.inputs().nth(index)?,
            CODE_VARIABLE => image.variables().nth(index)?.kind,
            _ => return None,
        };
        stack.push(Of::Value(kind));
    }
    match stack[..] {
        [value] if operations <= ITEMS => Some(value),
        _ => None,
    }
}

//! The image of a design, form 1 ("Image, form 1"), and compile with refusal 10.

use crate::answer::{refusal, Outcome};
use crate::design::{Action, Design, Slot, Step, Term};
use crate::tree::{Binary, Unary};
use crate::verdict::verdict;

/// "kind byte (0 wait, 1 output, 2 variable, 3 branch, 4 null)".
pub const WAIT: u8 = 0;
pub const OUTPUT: u8 = 1;
pub const VARIABLE: u8 = 2;
pub const BRANCH: u8 = 3;
pub const NULL: u8 = 4;

/// "1 integer (4 bytes), 2 std_logic (1 byte), 3 input, 4 variable (1-byte index)".
pub const CODE_INTEGER: u8 = 1;
pub const CODE_STD_LOGIC: u8 = 2;
pub const CODE_INPUT: u8 = 3;
pub const CODE_VARIABLE: u8 = 4;

/// "16 sign, 17 not".
pub const UNARY_CODES: [(u8, Unary); 2] = [(16, Unary::Sign), (17, Unary::Not)];

/// "18 +, 19 -, 20 =, 21 /=, 22 <, 23 <=, 24 >, 25 >=, 26 and, 27 or, 28 xor." Those of `*`, `/`,
/// `mod` and `rem` "are 29 to 32 in the order named" (change request 2).
pub const BINARY_CODES: [(u8, Binary); 15] = [
    (18, Binary::Plus),
    (19, Binary::Minus),
    (20, Binary::Equal),
    (21, Binary::Unequal),
    (22, Binary::Less),
    (23, Binary::LessEqual),
    (24, Binary::Greater),
    (25, Binary::GreaterEqual),
    (26, Binary::And),
    (27, Binary::Or),
    (28, Binary::Xor),
    (29, Binary::Times),
    (30, Binary::Divide),
    (31, Binary::Mod),
    (32, Binary::Rem),
];

/// Compile: the image is written at the buffer's beginning and its length answered. "an accepted
/// compile writes only the image's own bytes"; 10: "image buffer too short", at "bytes needed".
pub fn compile(text: &[u8], buffer: &mut [u8]) -> Outcome<u32> {
    let image = encode(&verdict(text)?);
    let Some(room) = buffer.get_mut(..image.len()) else {
        return Err(refusal(10, image.len()));
    };
    room.copy_from_slice(&image);
    Ok(image.len() as u32)
}

/// The image of a design.
pub fn encode(design: &Design) -> Vec<u8> {
    let table = table(design);
    let signature = signature(design);
    let lines: Vec<u8> = line_bytes(&table);
    let code: Vec<u8> = table.iter().flat_map(|line| line.code.clone()).collect();
    assemble(&signature, &lines, &code)
}

/// "Two-byte form 1, two-byte count 3, then pairs of four-byte offset and length, sorted by offset,
/// for signature, lines, code; the first starts at byte 28, no gaps, the last ends the image".
pub fn assemble(signature: &[u8], lines: &[u8], code: &[u8]) -> Vec<u8> {
    let mut image = Vec::new();
    image.extend(1u16.to_le_bytes());
    image.extend(3u16.to_le_bytes());
    let mut offset = 28u32;
    for section in [signature, lines, code] {
        let length = section.len() as u32;
        image.extend(offset.to_le_bytes());
        image.extend(length.to_le_bytes());
        offset += length;
    }
    image.extend(signature);
    image.extend(lines);
    image.extend(code);
    image
}

/// "Signature: bytes for the counts of data inputs (at most 16), outputs, variables (at most 16,
/// 32); a type byte per input (0 std_logic, 1 integer); for each output, then variable, type and
/// 4-byte initial value. The clock is omitted."
fn signature(design: &Design) -> Vec<u8> {
    let mut bytes = vec![
        design.inputs.len() as u8,
        design.outputs.len() as u8,
        design.variables.len() as u8,
    ];
    bytes.extend(design.inputs.iter().map(|kind| kind.byte()));
    for Slot { kind, initial } in design.outputs.iter().chain(&design.variables) {
        bytes.push(kind.byte());
        bytes.extend(initial.to_le_bytes());
    }
    bytes
}

/// A line of the table, before its code has an offset.
#[derive(Clone, Debug)]
pub struct Line {
    pub kind: u8,
    pub target: u8,
    pub code: Vec<u8>,
    pub next: u16,
    pub other: u16,
}

/// "One 12-byte line per statement in text order, from 0".
pub fn table(design: &Design) -> Vec<Line> {
    let mut lines = Vec::new();
    // "from the end of the process its beginning."
    sequence(&design.body, 0, &mut lines);
    lines
}

/// The lines of a sequence that is followed by line `after`.
fn sequence(steps: &[Step], after: usize, lines: &mut Vec<Line>) {
    for (index, step) in steps.iter().enumerate() {
        let after = steps.get(index + 1).map_or(after, |part| part.number);
        statement(step, after, lines);
    }
}

/// "Next is the line to follow; a branch takes next if true, other if false. Unused fields are 0."
fn statement(step: &Step, after: usize, lines: &mut Vec<Line>) {
    let mut line = Line {
        kind: NULL,
        target: 0,
        code: Vec::new(),
        next: after as u16,
        other: 0,
    };
    match &step.action {
        Action::Null => lines.push(line),
        Action::Wait => {
            line.kind = WAIT;
            lines.push(line);
        }
        Action::Output { index, value } => {
            line.kind = OUTPUT;
            line.target = *index as u8;
            postfix(value, &mut line.code);
            lines.push(line);
        }
        Action::Variable { index, value } => {
            line.kind = VARIABLE;
            line.target = *index as u8;
            postfix(value, &mut line.code);
            lines.push(line);
        }
        Action::If {
            condition,
            then,
            otherwise,
        } => {
            let otherwise = otherwise.as_deref().unwrap_or(&[]);
            line.kind = BRANCH;
            line.next = then[0].number as u16;
            line.other = otherwise.first().map_or(after, |part| part.number) as u16;
            postfix(condition, &mut line.code);
            lines.push(line);
            sequence(then, after, lines);
            sequence(otherwise, after, lines);
        }
        Action::While { condition, body } => {
            line.kind = BRANCH;
            line.next = body[0].number as u16;
            line.other = after as u16;
            postfix(condition, &mut line.code);
            lines.push(line);
            // "from the end of a loop body the condition follows".
            sequence(body, step.number, lines);
        }
    }
}

/// "Code is postfix, left operand first".
fn postfix(term: &Term, code: &mut Vec<u8>) {
    match term {
        Term::Integer(value) => {
            code.push(CODE_INTEGER);
            code.extend(value.to_le_bytes());
        }
        Term::StdLogic(value) => code.extend([CODE_STD_LOGIC, *value as u8]),
        Term::Input(index) => code.extend([CODE_INPUT, *index as u8]),
        Term::Variable(index) => code.extend([CODE_VARIABLE, *index as u8]),
        Term::Unary(operator, operand) => {
            postfix(operand, code);
            let found = UNARY_CODES.iter().find(|(_, unary)| unary == operator);
            code.extend(found.map(|(byte, _)| *byte));
        }
        Term::Binary(operator, left, right) => {
            postfix(left, code);
            postfix(right, code);
            let found = BINARY_CODES.iter().find(|(_, binary)| binary == operator);
            code.extend(found.map(|(byte, _)| *byte));
        }
    }
}

/// "kind byte, target byte, then two bytes each for code offset (from the code section's start),
/// code length, next, other, reach. Code runs of successive lines adjoin and fill the section".
pub fn line_bytes(lines: &[Line]) -> Vec<u8> {
    let reaches = reaches(lines);
    let mut bytes = Vec::new();
    let mut offset = 0u16;
    for (line, reach) in lines.iter().zip(reaches) {
        let length = line.code.len() as u16;
        bytes.extend([line.kind, line.target]);
        for field in [offset, length, line.next, line.other, reach] {
            bytes.extend(field.to_le_bytes());
        }
        offset += length;
    }
    bytes
}

/// "Reach is 0 for a wait, else 1 plus the larger reach of its followers." The lines must lead to
/// waits.
pub fn reaches(lines: &[Line]) -> Vec<u16> {
    let mut known = vec![None; lines.len()];
    (0..lines.len())
        .map(|line| reach(line, lines, &mut known))
        .collect()
}

fn reach(at: usize, lines: &[Line], known: &mut [Option<u16>]) -> u16 {
    if let Some(reach) = known[at] {
        return reach;
    }
    let line = &lines[at];
    let found = match line.kind {
        WAIT => 0,
        BRANCH => {
            let next = reach(line.next as usize, lines, known);
            let other = reach(line.other as usize, lines, known);
            1 + next.max(other)
        }
        _ => 1 + reach(line.next as usize, lines, known),
    };
    known[at] = Some(found);
    found
}

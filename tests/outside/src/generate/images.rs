//! Images: good ones that need not come from a text, and damaged ones.

use super::random::Random;
use crate::encoder::{
    assemble, line_bytes, Line, BRANCH, CODE_INPUT, CODE_INTEGER, CODE_STD_LOGIC, CODE_VARIABLE,
    NULL, OUTPUT, VARIABLE, WAIT,
};
use crate::tree::Type;
use crate::types::Of;

/// What code may read.
struct Readable {
    inputs: Vec<Type>,
    variables: Vec<Type>,
}

fn kinds(most: usize, random: &mut Random) -> Vec<Type> {
    let count = match random.below(10) {
        0 => most,
        _ => random.below(4),
    };
    let choices = [Type::StdLogic, Type::Integer];
    (0..count).map(|_| *random.pick(&choices)).collect()
}

fn value(kind: Type, random: &mut Random) -> i32 {
    match kind {
        Type::StdLogic => random.below(2) as i32,
        Type::Integer => random.integer(),
    }
}

/// An image that opens. Its lines lead anywhere, but never round without a wait.
pub fn good(random: &mut Random) -> Vec<u8> {
    let readable = Readable {
        inputs: kinds(16, random),
        variables: kinds(32, random),
    };
    let outputs = kinds(16, random);
    let mut signature = vec![
        readable.inputs.len() as u8,
        outputs.len() as u8,
        readable.variables.len() as u8,
    ];
    signature.extend(readable.inputs.iter().map(|kind| kind.byte()));
    for kind in outputs.iter().chain(&readable.variables) {
        signature.push(kind.byte());
        signature.extend(value(*kind, random).to_le_bytes());
    }
    let lines = lines(&readable, &outputs, random);
    let code: Vec<u8> = lines.iter().flat_map(|line| line.code.clone()).collect();
    assemble(&signature, &line_bytes(&lines), &code)
}

/// An image of this length, from about 28,000 to 65,536 bytes: 511 assignments and a wait. It is
/// good if it is not too long.
pub fn of_length(length: usize) -> Vec<u8> {
    let signature = [0, 0, 1, Type::Integer.byte(), 0, 0, 0, 0];
    let code = length - 28 - signature.len() - 512 * 12;
    let mut lines = Vec::new();
    for number in 0..511 {
        let share = code * (number + 1) / 511 - code * number / 511;
        lines.push(Line {
            kind: VARIABLE,
            target: 0,
            code: sum_of_length(share),
            next: number as u16 + 1,
            other: 0,
        });
    }
    lines.push(Line {
        kind: WAIT,
        target: 0,
        code: Vec::new(),
        next: 0,
        other: 0,
    });
    let code: Vec<u8> = lines.iter().flat_map(|line| line.code.clone()).collect();
    assemble(&signature, &line_bytes(&lines), &code)
}

/// Code of this length: a sum of literals, then signs.
fn sum_of_length(length: usize) -> Vec<u8> {
    let mut code = vec![CODE_INTEGER, 1, 0, 0, 0];
    while code.len() + 6 <= length {
        code.extend([CODE_INTEGER, 1, 0, 0, 0, 18]);
    }
    code.resize(length, 16);
    code
}

fn lines(readable: &Readable, outputs: &[Type], random: &mut Random) -> Vec<Line> {
    let count = match random.below(30) {
        0 => 512,
        1..=4 => random.between(1, 80),
        _ => random.between(1, 12),
    };
    // A line may follow lines that stand before it in this order; waits may follow any.
    let mut order: Vec<usize> = (0..count).collect();
    for index in (1..count).rev() {
        order.swap(index, random.below(index + 1));
    }
    let waits = random.between(1, count.div_ceil(3));
    let empty = Line {
        kind: WAIT,
        target: 0,
        code: Vec::new(),
        next: 0,
        other: 0,
    };
    let mut lines = vec![empty; count];
    for (index, at) in order.iter().enumerate() {
        let line = &mut lines[*at];
        if index < waits {
            line.next = random.below(count) as u16;
            continue;
        }
        // Often the line just before, so that long ways come about.
        let before = if random.chance(60) {
            index - 1
        } else {
            random.below(index)
        };
        line.next = order[before] as u16;
        line.kind = *random.pick(&[OUTPUT, VARIABLE, VARIABLE, BRANCH, NULL]);
        match line.kind {
            BRANCH => {
                line.other = order[random.below(index)] as u16;
                line.code = code(Of::Boolean, readable, random);
            }
            OUTPUT if !outputs.is_empty() => {
                let target = random.below(outputs.len());
                line.target = target as u8;
                line.code = code(Of::Value(outputs[target]), readable, random);
            }
            VARIABLE if !readable.variables.is_empty() => {
                let target = random.below(readable.variables.len());
                line.target = target as u8;
                line.code = code(Of::Value(readable.variables[target]), readable, random);
            }
            _ => line.kind = NULL,
        }
    }
    lines
}

/// Code of 1 to 64 operations that leaves a value of this type.
fn code(give: Of, readable: &Readable, random: &mut Random) -> Vec<u8> {
    let mut size = if random.chance(4) { 9 } else { 2 };
    loop {
        let mut code = Vec::new();
        let operations = postfix(give, size, readable, &mut code, random);
        if operations <= 64 {
            return code;
        }
        size -= 1;
    }
}

/// Writes postfix code and answers the number of its operations.
fn postfix(
    give: Of,
    size: usize,
    readable: &Readable,
    code: &mut Vec<u8>,
    random: &mut Random,
) -> usize {
    let integer = Of::Value(Type::Integer);
    let std_logic = Of::Value(Type::StdLogic);
    if let Of::Value(kind) = give {
        if size == 0 || random.chance(30) {
            leaf(kind, readable, code, random);
            return 1;
        }
    }
    let size = size.saturating_sub(1);
    if random.chance(20) && (give != Of::Boolean || size > 0) {
        let operations = postfix(give, size, readable, code, random);
        code.push(if give == integer { 16 } else { 17 });
        return operations + 1;
    }
    let (operand, operators): (Of, &[u8]) = match give {
        Of::Value(Type::Integer) => (integer, &[18, 19, 18, 19, 29, 30, 31, 32]),
        Of::Value(Type::StdLogic) => (std_logic, &[26, 27, 28]),
        Of::Boolean if size > 0 && random.chance(40) => (give, &[26, 27, 28]),
        Of::Boolean if random.chance(60) => (integer, &[20, 21, 22, 23, 24, 25]),
        Of::Boolean => (std_logic, &[20, 21]),
    };
    let left = postfix(operand, size, readable, code, random);
    let right = postfix(operand, size, readable, code, random);
    code.push(*random.pick(operators));
    left + right + 1
}

fn leaf(kind: Type, readable: &Readable, code: &mut Vec<u8>, random: &mut Random) {
    let (operation, names) = if random.chance(50) {
        (CODE_INPUT, &readable.inputs)
    } else {
        (CODE_VARIABLE, &readable.variables)
    };
    let fitting: Vec<usize> = (0..names.len()).filter(|at| names[*at] == kind).collect();
    if !fitting.is_empty() && random.chance(80) {
        code.extend([operation, *random.pick(&fitting) as u8]);
        return;
    }
    match kind {
        Type::Integer => {
            code.push(CODE_INTEGER);
            code.extend(random.integer().to_le_bytes());
        }
        Type::StdLogic => code.extend([CODE_STD_LOGIC, random.below(2) as u8]),
    }
}

/// An image with one to three changes; some still open.
pub fn damaged(image: &[u8], random: &mut Random) -> Vec<u8> {
    let mut image = image.to_vec();
    for _ in 0..random.between(1, 3) {
        damage(&mut image, random);
    }
    image
}

fn damage(image: &mut Vec<u8>, random: &mut Random) {
    if image.len() < 40 {
        return image.push(random.byte());
    }
    let at = random.below(image.len());
    let small = *random.pick(&[0, 1, 2, 3, 5, 16, 17, 18, 29, 30, 31, 32, 33, 255]);
    match random.below(24) {
        0 => image[at] ^= 1 << random.below(8),
        1 => image[at] = random.byte(),
        2 => image.truncate(at),
        3 => image.push(small),
        4 => drop(image.remove(at)),
        5 => {
            // Form, count, pairs.
            let at = random.below(28);
            image[at] = image[at].wrapping_add(*random.pick(&[1, 255, 12, 244]));
        }
        6..=7 => {
            let at = (28 + random.below(20)).min(image.len() - 1);
            image[at] = small;
        }
        8 => shift_bounds(image, random),
        9..=12 => code_byte(image, small, random),
        13 => lengthened_code(image, small, random),
        _ => line_field(image, random),
    }
}

/// A byte of the code changed.
fn code_byte(image: &mut [u8], small: u8, random: &mut Random) {
    let (start, end) = bounds(image, 2);
    if start < end {
        image[random.between(start, end - 1)] = small;
    }
}

/// One more byte of code, the section's length as it should be.
fn lengthened_code(image: &mut Vec<u8>, small: u8, random: &mut Random) {
    let (start, end) = bounds(image, 2);
    image.insert(random.between(start, end), small);
    let length = (end + 1 - start) as u32;
    image[24..28].copy_from_slice(&length.to_le_bytes());
}

/// The start and the end of the section with this pair, if they are inside the image.
fn bounds(image: &[u8], pair: usize) -> (usize, usize) {
    let long = |at: usize| {
        let bytes = [image[at], image[at + 1], image[at + 2], image[at + 3]];
        u32::from_le_bytes(bytes) as usize
    };
    let start = long(4 + 8 * pair).min(image.len());
    let end = start.saturating_add(long(8 + 8 * pair)).min(image.len());
    (start, end)
}

/// A field of a line set to something near, or to anything.
fn line_field(image: &mut [u8], random: &mut Random) {
    let (start, end) = bounds(image, 1);
    let count = (end - start) / 12;
    if count == 0 {
        return;
    }
    let line = start + 12 * random.below(count);
    let field = random.below(7);
    if field < 2 {
        image[line + field] = random.below(8) as u8;
        return;
    }
    let at = line + 2 * (field - 1);
    let old = u16::from_le_bytes([image[at], image[at + 1]]);
    let new = match random.below(4) {
        0 => old.wrapping_add(1),
        1 => old.wrapping_sub(1),
        2 => random.below(count + 1) as u16,
        _ => *random.pick(&[0, 511, 512, 65_535, 65_534]),
    };
    image[at..at + 2].copy_from_slice(&new.to_le_bytes());
}

/// The border between two sections moved, the pairs still without gaps.
fn shift_bounds(image: &mut [u8], random: &mut Random) {
    let pair = random.below(2);
    let (start, end) = bounds(image, pair);
    let (_, last) = bounds(image, pair + 1);
    let by = *random.pick(&[1, 5, 12]);
    let border = if random.chance(50) {
        end.saturating_sub(by).max(start)
    } else {
        (end + by).min(last)
    };
    let fields = [
        border.saturating_sub(start) as u32,
        border as u32,
        last.saturating_sub(border) as u32,
    ];
    for (index, field) in fields.iter().enumerate() {
        let at = 8 + 8 * pair + 4 * index;
        image[at..at + 4].copy_from_slice(&field.to_le_bytes());
    }
}

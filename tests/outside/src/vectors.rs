//! The cases of the test program `test_vectors`, which compiles texts and runs their rows, and what this
//! implementation answers on them, in the program's own words.

use std::fmt::Write;
use std::path::Path;
use std::{fs, io};

use crate::answer::Answer;
use crate::board::REFERENCE;
use crate::state::{State, BEGINNING, OUTPUTS, VARIABLES};
use crate::trace::trace;

/// What buffers and output rows hold before a call.
pub(crate) const BYTE: u8 = 165;
pub(crate) const WORD: i32 = 99;
/// An image of more bytes is told by its first and last ones and two sums.
const WHOLE: usize = 1024;
const PART: usize = 64;
/// The longest image.
const LONGEST: usize = 65_535;

/// An input row with the length of the output row that is lent.
#[derive(Clone)]
pub struct Row {
    pub inputs: Vec<i32>,
    pub room: usize,
}

pub struct Case {
    pub text: Vec<u8>,
    pub rows: Vec<Row>,
}

/// The folders of examples in the program's data, by the names that it is given.
pub fn folders(data: &Path) -> io::Result<Vec<String>> {
    let mut names = Vec::new();
    for folder in fs::read_dir(data.join("examples"))? {
        let name = folder?.file_name();
        names.push(format!("examples/{}/", name.to_string_lossy()));
    }
    names.sort();
    Ok(names)
}

/// What the program prints of a folder: the length of its trace, and whether it is the stored one.
pub fn folder_answer(data: &Path, name: &str) -> io::Result<String> {
    let read = |file: &str| fs::read(data.join(name).join(file));
    let printed = trace(&read("process.vhd")?, &read("rows.txt")?);
    let same = match printed.as_bytes() == read("trace.txt")? {
        true => "same",
        false => "differs",
    };
    Ok(format!("{name}: trace {} {same}\n", printed.len()))
}

/// The bytes of cases: two bytes for the length of the text, two for that of the rows, the text, the
/// rows; a row is the number of inputs, the length of the output row, and four bytes for each input.
pub fn bytes(cases: &[Case]) -> Vec<u8> {
    let mut bytes = Vec::new();
    for case in cases {
        let mut rows = Vec::new();
        for row in &case.rows {
            rows.extend([row.inputs.len() as u8, row.room as u8]);
            rows.extend(row.inputs.iter().flat_map(|value| value.to_le_bytes()));
        }
        bytes.extend((case.text.len() as u16).to_le_bytes());
        bytes.extend((rows.len() as u16).to_le_bytes());
        bytes.extend(&case.text);
        bytes.extend(rows);
    }
    bytes
}

/// The cases that stand in these bytes.
pub fn cases(bytes: &[u8]) -> Vec<Case> {
    let mut cases = Vec::new();
    let mut at = 0;
    while at < bytes.len() {
        let word = |at: usize| usize::from(u16::from_le_bytes([bytes[at], bytes[at + 1]]));
        let middle = at + 4 + word(at);
        let end = middle + word(at + 2);
        cases.push(Case {
            text: bytes[at + 4..middle].to_vec(),
            rows: rows(&bytes[middle..end]),
        });
        at = end;
    }
    cases
}

fn rows(bytes: &[u8]) -> Vec<Row> {
    let mut rows = Vec::new();
    let mut at = 0;
    while at < bytes.len() {
        let end = at + 2 + 4 * usize::from(bytes[at]);
        let values = bytes[at + 2..end].chunks_exact(4);
        let value = |value: &[u8]| i32::from_le_bytes(value.try_into().expect("four bytes"));
        rows.push(Row {
            inputs: values.map(value).collect(),
            room: usize::from(bytes[at + 1]),
        });
        at = end;
    }
    rows
}

/// What the program prints for the cases of a file.
pub fn answers(name: &str, cases: &[Case]) -> String {
    let mut out = String::new();
    for (number, case) in cases.iter().enumerate() {
        write!(out, "{name} {number}:").expect("written");
        case_answers(&mut out, case);
    }
    out
}

fn case_answers(out: &mut String, case: &Case) {
    let mut whole = vec![BYTE; LONGEST];
    let answer = (REFERENCE.compile)(&case.text, &mut whole);
    if answer[0] != 0 {
        refused(out, answer);
        untouched(out, &whole);
        out.push('\n');
        refused_text(out, &case.text);
        return;
    }
    let (image, rest) = whole.split_at(answer[2] as usize);
    image_answer(out, image);
    untouched(out, rest);
    out.push('\n');
    for room in [image.len(), image.len() - 1, 0] {
        compiled_into(out, &case.text, image, room);
    }
    run(out, case, image);
}

pub(crate) fn refused(out: &mut String, answer: Answer) {
    write!(out, " refused {} {}", answer[0], answer[1]).expect("written");
}

pub(crate) fn untouched(out: &mut String, buffer: &[u8]) {
    let all = buffer.iter().all(|byte| *byte == BYTE);
    out.push_str(if all { " untouched" } else { " touched" });
}

pub(crate) fn hexadecimal(out: &mut String, bytes: &[u8]) {
    out.push(' ');
    for byte in bytes {
        write!(out, "{byte:02x}").expect("written");
    }
}

fn image_answer(out: &mut String, image: &[u8]) {
    write!(out, " image {}", image.len()).expect("written");
    if image.len() <= WHOLE {
        return hexadecimal(out, image);
    }
    hexadecimal(out, &image[..PART]);
    hexadecimal(out, &image[image.len() - PART..]);
    let (mut bytes, mut sums) = (1, 0);
    for byte in image {
        bytes = (bytes + u32::from(*byte)) % 65_521;
        sums = (sums + bytes) % 65_521;
    }
    write!(out, " {bytes} {sums}").expect("written");
}

fn compiled_into(out: &mut String, text: &[u8], image: &[u8], room: usize) {
    let mut buffer = vec![BYTE; room];
    let answer = (REFERENCE.compile)(text, &mut buffer);
    write!(out, " into {room}").expect("written");
    if answer[0] == 0 {
        let same = if buffer == image { "same" } else { "differs" };
        writeln!(out, " written {} {same}", answer[2]).expect("written");
        return;
    }
    refused(out, answer);
    untouched(out, &buffer);
    out.push('\n');
}

/// A call's answer, the output row and the state.
pub(crate) fn cycled(out: &mut String, answer: Answer, row: &[i32], state: &State) {
    match answer {
        [0, _, count] => write!(out, " {count}").expect("written"),
        _ => refused(out, answer),
    }
    out.push_str(" row");
    for value in row {
        write!(out, " {value}").expect("written");
    }
    print_state(out, state);
}

/// The place, and the slots that are not 0.
pub(crate) fn print_state(out: &mut String, state: &State) {
    write!(out, " at {}", state[0]).expect("written");
    for (label, slots) in [("o", OUTPUTS..VARIABLES), ("v", VARIABLES..49)] {
        for (k, value) in state[slots].iter().enumerate() {
            if *value != 0 {
                write!(out, " {label}{k}={value}").expect("written");
            }
        }
    }
}

/// Place 512 with 0 in every slot: what stands beside a refused fresh state.
pub(crate) fn blank() -> State {
    let mut state = [0; 49];
    state[0] = BEGINNING;
    state
}

fn refused_text(out: &mut String, text: &[u8]) {
    let mut state = blank();
    let answer = (REFERENCE.direct_fresh)(text, &mut state);
    out.push_str(" fresh");
    refused(out, answer);
    print_state(out, &state);
    out.push('\n');
    let mut row = [WORD; 2];
    let answer = (REFERENCE.direct)(text, &mut state, &[0, 0], &mut row);
    cycled(out, answer, &row, &state);
    out.push('\n');
}

fn run(out: &mut String, case: &Case, image: &[u8]) {
    let (mut state, mut direct) = (blank(), blank());
    (REFERENCE.fresh)(image, &mut state);
    (REFERENCE.direct_fresh)(&case.text, &mut direct);
    out.push_str(" fresh");
    print_state(out, &state);
    out.push_str(if state == direct { " same\n" } else { "\n" });
    for row in &case.rows {
        let mut by_text = state;
        let mut outputs = vec![WORD; row.room];
        let mut direct_outputs = vec![WORD; row.room];
        let answer = (REFERENCE.cycle)(image, &mut state, &row.inputs, &mut outputs);
        cycled(out, answer, &outputs, &state);
        let direct = (REFERENCE.direct)(&case.text, &mut by_text, &row.inputs, &mut direct_outputs);
        if (direct, by_text, &direct_outputs) == (answer, state, &outputs) {
            out.push_str(" same\n");
            continue;
        }
        out.push_str(" direct");
        cycled(out, direct, &direct_outputs, &by_text);
        out.push('\n');
    }
}

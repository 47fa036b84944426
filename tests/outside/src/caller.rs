//! What the test program `test_caller`, which calls every public function of the crate api_rattle and many rows
//! in one call, must print for the texts of its file: the answers of this implementation, in the
//! program's own words.

use std::fmt::Write;

use crate::board::REFERENCE;
use crate::lexer::token_at;
use crate::limits::TEXT;
use crate::loader::{open, IMAGE};
use crate::state::{State, OUTPUTS, VARIABLES};
use crate::vectors::{cycled, hexadecimal, print_state, refused, untouched, BYTE, WORD};

/// The longest text whose tokens are printed.
const SHORT: usize = 1000;
/// Every so many bytes of an image one is changed.
const STEP: usize = 7;
/// The values of all inputs, row by row.
const VALUES: [i32; 8] = [1, 0, 7, 7, -5, 1, i32::MIN, -5];

/// What the program prints for a file in which each line is a text. A text of blanks that is too
/// long comes first.
pub fn answers(file: &[u8]) -> String {
    let mut out = String::new();
    text_answers(&mut out, 0, &[b' '; TEXT + 1]);
    let lines = file.strip_suffix(b"\n").unwrap_or(file);
    for (index, text) in lines.split(|byte| *byte == b'\n').enumerate() {
        text_answers(&mut out, index + 1, text);
    }
    out
}

fn text_answers(out: &mut String, number: usize, text: &[u8]) {
    let mut whole = vec![BYTE; IMAGE];
    let answer = (REFERENCE.compile)(text, &mut whole);
    write!(out, "{number}: compile").expect("written");
    if answer[0] != 0 {
        refused(out, answer);
        untouched(out, &whole);
        out.push_str(" token");
        token(out, text, answer[1] as usize);
        out.push('\n');
        tokens(out, text);
        let calls = Calls {
            bytes: text,
            on_image: false,
            inputs: 1,
            outputs: 2,
        };
        calls.start(out);
        calls.row(out, marked(), 1);
        out.push('\n');
        return;
    }
    let (image, rest) = whole.split_at(answer[2] as usize);
    write!(out, " {}", image.len()).expect("written");
    untouched(out, rest);
    out.push('\n');
    compiled_short(out, text, image.len() - 1);
    tokens(out, text);
    opened(out, image);
    let calls = |bytes, on_image| Calls {
        bytes,
        on_image,
        inputs: usize::from(image[28]),
        outputs: usize::from(image[29]),
    };
    out.push_str(" text\n");
    calls(text, false).run(out);
    out.push_str(" image\n");
    calls(image, true).run(out);
    calls(image, true).batches(out);
    damaged(out, image, |bytes| calls(bytes, true));
}

/// The text compiled into a buffer of which it is lent so many bytes, one less than it needs.
fn compiled_short(out: &mut String, text: &[u8], room: usize) {
    let mut buffer = vec![BYTE; IMAGE];
    let answer = (REFERENCE.compile)(text, &mut buffer[..room]);
    write!(out, " into {room}").expect("written");
    refused(out, answer);
    untouched(out, &buffer);
    out.push('\n');
}

fn token(out: &mut String, text: &[u8], place: usize) {
    let token = token_at(text, place);
    if !token.is_empty() {
        write!(out, " {}", String::from_utf8_lossy(token)).expect("written");
    }
}

/// The tokens that start at the places of a text, its end included.
fn tokens(out: &mut String, text: &[u8]) {
    if text.len() > SHORT {
        return;
    }
    out.push_str(" tokens");
    for place in 0..=text.len() {
        token(out, text, place);
    }
    out.push('\n');
}

/// What opening finds, as the program has it from two functions: number and place of a refusal, the
/// starts of the sections and the end of the last.
fn found(out: &mut String, image: &[u8]) {
    let found = match open(image) {
        Ok(opened) => {
            let lines = 28 + opened.signature.len();
            let code = lines + opened.lines.len();
            let end = code + opened.code.len();
            format!("0 0 28 {lines} {code} {end}")
        }
        Err(refusal) => format!("{} {} 0 0 0 0", refusal.number, refusal.place),
    };
    write!(out, " find {found} open {found}").expect("written");
}

/// An image opened, with its sections.
fn opened(out: &mut String, image: &[u8]) {
    found(out, image);
    out.push('\n');
    let opened = open(image).expect("a compiled image");
    let sections = [
        ("signature", opened.signature),
        ("lines", opened.lines),
        ("code", opened.code),
    ];
    for (name, section) in sections {
        write!(out, " {name} {}", section.len()).expect("written");
        hexadecimal(out, section);
        out.push('\n');
    }
}

/// An image with a byte changed, cut by a byte, and empty.
fn damaged<'a>(out: &mut String, image: &'a [u8], calls: impl Fn(&'a [u8]) -> Calls<'a>) {
    let mut fresh = marked();
    (REFERENCE.fresh)(image, &mut fresh);
    let lengths = calls(image);
    let mut case = |label: &str, number: usize, bytes: &[u8]| {
        write!(out, " {label} {number}").expect("written");
        found(out, bytes);
        let lent = open(bytes).map_or([0; 3], |opened| {
            [opened.signature, opened.lines, opened.code].map(<[u8]>::len)
        });
        write!(out, " lent {} {} {}", lent[0], lent[1], lent[2]).expect("written");
        let calls = Calls { bytes, ..lengths };
        calls.start(out);
        calls.row(out, fresh, 1);
        out.push('\n');
    };
    for place in (0..image.len()).step_by(STEP) {
        let mut bytes = image.to_vec();
        bytes[place] = bytes[place].wrapping_add(1);
        case("changed", place, &bytes);
    }
    case("cut", image.len() - 1, &image[..image.len() - 1]);
    case("cut", 0, &[]);
}

/// A record that no image or text has: a call that is refused leaves it so.
fn marked() -> State {
    let mut state = [0; 49];
    state[0] = 7;
    state[OUTPUTS + 15] = 3;
    state[VARIABLES + 31] = -5;
    state
}

/// What a call with many rows leaves: answers, outputs and state.
fn batched(out: &mut String, answers: &[u32], outputs: &[i32], state: &State) {
    out.push_str(" answers");
    for number in answers {
        write!(out, " {number}").expect("written");
    }
    out.push_str(" row");
    for value in outputs {
        write!(out, " {value}").expect("written");
    }
    print_state(out, state);
    out.push('\n');
}

/// Calls on an image or on a text, with so many inputs and outputs in a row.
struct Calls<'a> {
    bytes: &'a [u8],
    on_image: bool,
    inputs: usize,
    outputs: usize,
}

impl Calls<'_> {
    /// The fresh state asked for with a marked record.
    fn start(&self, out: &mut String) -> State {
        let mut state = marked();
        let fresh = match self.on_image {
            true => REFERENCE.fresh,
            false => REFERENCE.direct_fresh,
        };
        let answer = fresh(self.bytes, &mut state);
        out.push_str(" fresh");
        if answer[0] != 0 {
            refused(out, answer);
        }
        print_state(out, &state);
        state
    }

    /// A row with this value in all inputs.
    fn row(&self, out: &mut String, mut state: State, value: i32) -> State {
        let inputs = vec![value; self.inputs];
        let mut outputs = vec![WORD; self.outputs];
        let cycle = match self.on_image {
            true => REFERENCE.cycle,
            false => REFERENCE.direct,
        };
        let answer = cycle(self.bytes, &mut state, &inputs, &mut outputs);
        out.push_str(" cycle");
        cycled(out, answer, &outputs, &state);
        state
    }

    fn line(&self, out: &mut String, state: State, value: i32) -> State {
        let after = self.row(out, state, value);
        out.push('\n');
        after
    }

    /// The rows in one call from the fresh state: the same rows given singly, laid end to end. Then a
    /// count of one more, for which they are too few: 17.
    fn batches(&self, out: &mut String) {
        let mut fresh = marked();
        (REFERENCE.fresh)(self.bytes, &mut fresh);
        let mut state = fresh;
        let mut answers = Vec::new();
        let mut rows = Vec::new();
        for value in VALUES {
            let mut row = vec![WORD; self.outputs];
            let inputs = vec![value; self.inputs];
            answers.extend((REFERENCE.cycle)(self.bytes, &mut state, &inputs, &mut row));
            rows.extend(row);
        }
        write!(out, " rows {}", VALUES.len()).expect("written");
        batched(out, &answers, &rows, &state);
        write!(out, " rows {}", VALUES.len() + 1).expect("written");
        refused(out, [17, 0, 0]);
        answers.fill(WORD as u32);
        rows.fill(WORD);
        batched(out, &answers, &rows, &fresh);
    }

    /// The rows, then rows of wrong lengths, then states that are changed.
    fn run(&self, out: &mut String) {
        let mut state = self.start(out);
        out.push('\n');
        for value in VALUES {
            state = self.line(out, state, value);
        }
        for (inputs, outputs) in [(17, self.outputs), (self.inputs, 17)] {
            let longer = Calls {
                inputs,
                outputs,
                ..*self
            };
            longer.line(out, state, 1);
        }
        for (slot, value) in [(0, 513), (VARIABLES + 31, 1), (OUTPUTS, 2)] {
            let mut other = state;
            other[slot] = value;
            self.line(out, other, 1);
        }
    }
}

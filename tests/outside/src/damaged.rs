//! What the test program `test_damaged`, which runs the proved code on damaged images, states and rows,
//! must print for the cases of its data: the answers of this implementation, in the program's own
//! words.

use std::fmt::Write;
use std::io;
use std::path::Path;

use crate::board::REFERENCE;
use crate::loader::open;
use crate::state::{State, OUTPUTS};
use crate::vectors::{blank, cycled, print_state, refused, WORD};

/// The bytes of a case.
const CASE: usize = 28;

/// What the program prints, whose crate is this folder: its arguments name images and their cases.
pub fn answers(folder: &Path) -> io::Result<String> {
    let mut out = String::new();
    let read = |name: &str| std::fs::read(folder.join("data").join(name));
    let arguments = std::fs::read_to_string(folder.join("args"))?;
    let names: Vec<&str> = arguments.lines().collect();
    for pair in names.chunks_exact(2) {
        let (image, cases) = (read(pair[0])?, read(pair[1])?);
        let mut state = fresh(&image);
        for (number, case) in cases.chunks_exact(CASE).enumerate() {
            write!(out, "{number}:").expect("written");
            state = Case(case).answer(&mut out, &image, &state);
            out.push('\n');
        }
    }
    Ok(out)
}

fn fresh(image: &[u8]) -> State {
    let mut state = blank();
    (REFERENCE.fresh)(image, &mut state);
    state
}

/// A case of 28 bytes; the program's first lines say what each of them is.
struct Case<'a>(&'a [u8]);

impl Case<'_> {
    fn word(&self, at: usize) -> usize {
        usize::from(u16::from_le_bytes([self.0[at], self.0[at + 1]]))
    }

    fn integer(&self, at: usize) -> i32 {
        i32::from_le_bytes(self.0[at..at + 4].try_into().expect("four bytes"))
    }

    /// The bytes of the image, damaged; past its end they are 0.
    fn image(&self, image: &[u8]) -> Vec<u8> {
        let mut bytes = vec![0; self.word(0)];
        for (byte, good) in bytes.iter_mut().zip(image) {
            *byte = *good;
        }
        let (position, count) = (self.word(2), usize::from(self.0[4]));
        for k in 0..count {
            if let Some(byte) = bytes.get_mut(position + k) {
                *byte = self.0[5 + k];
            }
        }
        bytes
    }

    /// The state that the case calls with.
    fn state(&self, image: &[u8], before: &State) -> State {
        let mut state = if self.0[9] == 0 {
            fresh(image)
        } else {
            *before
        };
        if self.word(10) != 65535 {
            state[0] = self.word(10) as i32;
        }
        let slot = usize::from(self.0[12]);
        if slot < 48 {
            state[OUTPUTS + slot] = self.integer(13);
        }
        state
    }

    fn inputs(&self) -> Vec<i32> {
        let mut row = vec![self.integer(22); 20];
        row[0] = self.integer(18);
        row.truncate(usize::from(self.0[17]));
        row
    }

    /// What is printed of the case; gives the state that its call leaves.
    fn answer(&self, out: &mut String, image: &[u8], before: &State) -> State {
        let mut state = self.state(image, before);
        let bytes = self.image(image);
        if self.0[27] == 1 {
            opened(out, &bytes);
        }
        let mut row = vec![WORD; usize::from(self.0[26]).min(20)];
        let answer = (REFERENCE.cycle)(&bytes, &mut state, &self.inputs(), &mut row);
        out.push_str(" cycle");
        cycled(out, answer, &row, &state);
        state
    }
}

/// The sections of an image and its fresh state, or the refusals in their place.
fn opened(out: &mut String, bytes: &[u8]) {
    out.push_str(" open");
    match open(bytes) {
        Ok(opened) => {
            let lines = 28 + opened.signature.len();
            let code = lines + opened.lines.len();
            let end = code + opened.code.len();
            write!(out, " 28 {lines} {code} {end}").expect("written");
        }
        Err(r) => refused(out, [r.number, r.place, 0]),
    }
    let mut first = blank();
    let answer = (REFERENCE.fresh)(bytes, &mut first);
    out.push_str(" fresh");
    if answer[0] != 0 {
        refused(out, answer);
    }
    print_state(out, &first);
}

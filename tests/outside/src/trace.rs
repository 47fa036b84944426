//! The trace program ("The trace of tally"): what it prints for the bytes of `process.vhd` and
//! `rows.txt`.

use crate::answer::{Outcome, Refusal};
use crate::design::Design;
use crate::encoder::encode;
use crate::loader::open;
use crate::state::State;
use crate::verdict::verdict;
use crate::{direct, table};

/// "an accepted text with above 65,536 bytes of rows".
pub const ROWS: usize = 65_536;

/// The trace, by the cycle on the table.
pub fn trace(text: &[u8], rows: &[u8]) -> String {
    trace_by(text, rows, |design| {
        let image = encode(design);
        move |state: &mut State, inputs: &[i32], outputs: &mut [i32]| {
            let image = open(&image)?;
            table::cycle_opened(&image, state, inputs, outputs, |_| {})
        }
    })
}

/// The trace, by the direct run.
pub fn direct_trace(text: &[u8], rows: &[u8]) -> String {
    trace_by(text, rows, |design| {
        let design = design.clone();
        move |state: &mut State, inputs: &[i32], outputs: &mut [i32]| {
            let way = direct::cycle(&design, state, inputs, outputs)?;
            Ok(way.len() as u32)
        }
    })
}

/// "prints a header (`cycle`, `wait`, `lines`, output names in lower case), then per row: row
/// number, wait line, lines performed, outputs; a refused row prints its number, `refused`, the
/// refusal. A refused text prints only `refused`, number, place."
fn trace_by<Run>(text: &[u8], rows: &[u8], run: impl Fn(&Design) -> Run) -> String
where
    Run: Fn(&mut State, &[i32], &mut [i32]) -> Outcome<u32>,
{
    let design = match verdict(text) {
        Ok(design) => design,
        Err(Refusal { number, place }) => return format!("refused {number} {place}\n"),
    };
    if rows.len() > ROWS {
        return "refused 14 0\n".to_string();
    }
    let cycle = run(&design);
    let mut state = direct::fresh(&design);
    let mut outputs = vec![0; design.outputs.len()];
    let mut printed = "cycle wait lines".to_string();
    for name in &design.output_names {
        printed += &format!(" {name}");
    }
    printed += "\n";
    for (number, row) in split(rows).into_iter().enumerate() {
        // "A row that is unreadable or has a decimal outside integer counts as 14."
        let outcome = match decimals(row) {
            None => Err(14),
            Some(inputs) => cycle(&mut state, &inputs, &mut outputs).map_err(|r| r.number),
        };
        match outcome {
            Err(refused) => printed += &format!("{number} refused {refused}\n"),
            Ok(lines) => {
                printed += &format!("{number} {} {lines}", state[0]);
                for value in &outputs {
                    printed += &format!(" {value}");
                }
                printed += "\n";
            }
        }
    }
    printed
}

/// "LF ends a row, and a last line without LF counts if it has bytes."
pub fn split(rows: &[u8]) -> Vec<&[u8]> {
    let mut list: Vec<&[u8]> = rows.split(|byte| *byte == b'\n').collect();
    if list.last().is_some_and(|last| last.is_empty()) {
        list.pop();
    }
    list
}

/// "Each row is a line of decimals (digits, perhaps after `-`) parted by one space"; an empty line
/// is a row of no decimals.
pub fn decimals(row: &[u8]) -> Option<Vec<i32>> {
    if row.is_empty() {
        return Some(Vec::new());
    }
    row.split(|byte| *byte == b' ').map(decimal).collect()
}

fn decimal(bytes: &[u8]) -> Option<i32> {
    let (sign, digits) = match bytes {
        [b'-', digits @ ..] => (-1, digits),
        digits => (1, digits),
    };
    if digits.is_empty() || !digits.iter().all(u8::is_ascii_digit) {
        return None;
    }
    let size = digits.iter().fold(0i64, |size, digit| {
        (size * 10 + i64::from(digit - b'0')).min(1 << 40)
    });
    i32::try_from(sign * size).ok()
}

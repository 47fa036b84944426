//! A table in words, for a terminal: signature, lines, sizes and the bound of a cycle.

use crate::signals::{Kind, Signal, Signals};
use crate::table::{Line, Slot, Table};
use rabtishu::Image;

/// Columns that what a line does may take; longer expressions go on below.
const WORDS: usize = 56;

/// The table of an image with these names.
pub fn show(image: &Image, names: &Signals) -> String {
    let table = Table::of(image);
    let parts = [
        sizes(image, names),
        signature(&table, names),
        lines(&table, names),
        bound(&table),
    ];
    parts.join("\n")
}

/// Form and sizes. What stands before the sections has no name in document 01.
fn sizes(image: &Image, names: &Signals) -> String {
    let sections = [
        ("signature", image.signature().len()),
        ("lines", image.lines().len()),
        ("code", image.code().len()),
    ];
    let header = image.bytes().len() - sections.iter().map(|(_, size)| size).sum::<usize>();
    let words: Vec<String> = [("header", header)]
        .iter()
        .chain(&sections)
        .map(|(name, size)| format!("{name} {size}"))
        .collect();
    let (form, all) = (image.form(), image.bytes().len());
    let list = words.join(", ");
    format!("{}: form {form}, {all} bytes ({list})\n", names.entity)
}

/// One line for the clock, if it has a name, and for each input, output and variable.
fn signature(table: &Table, names: &Signals) -> String {
    let mut rows = Vec::new();
    if let Some(clock) = &names.clock {
        rows.push(entry("clock", clock, Kind::Bit, None));
    }
    for signal in &names.inputs {
        rows.push(entry("input", &signal.name, signal.kind, None));
    }
    rows.extend(slots("output", &names.outputs, &table.outputs));
    rows.extend(slots("variable", &names.variables, &table.variables));
    aligned(&rows, &[false; 4])
}

fn slots(role: &str, signals: &[Signal], slots: &[Slot]) -> Vec<[String; 4]> {
    let pairs = signals.iter().zip(slots);
    pairs
        .map(|(signal, slot)| entry(role, &signal.name, signal.kind, Some(slot.initial)))
        .collect()
}

fn entry(role: &str, name: &str, kind: Kind, initial: Option<i32>) -> [String; 4] {
    let initial = initial.map(|value| format!(":= {}", kind.literal(value)));
    [
        role.to_string(),
        name.to_string(),
        kind.word().to_string(),
        initial.unwrap_or_default(),
    ]
}

fn lines(table: &Table, names: &Signals) -> String {
    let heading = ["line", "kind", "what it does", "next", "other", "reach"];
    let mut rows = vec![heading.map(String::from)];
    for (number, line) in table.lines.iter().enumerate() {
        rows.extend(row(number, line, names));
    }
    aligned(&rows, &[true, false, false, true, true, true])
}

/// A line of the table, and below it what is left of a long expression.
fn row(number: usize, line: &Line, names: &Signals) -> Vec<[String; 6]> {
    let mut words = wrapped(&line.words(names)).into_iter();
    let first = [
        number.to_string(),
        line.kind.word().to_string(),
        words.next().unwrap_or_default(),
        line.next.to_string(),
        line.other().map_or_else(String::new, |it| it.to_string()),
        line.reach.to_string(),
    ];
    let rest = words.map(|words| {
        let empty = String::new;
        [empty(), empty(), words, empty(), empty(), empty()]
    });
    [first].into_iter().chain(rest).collect()
}

fn bound(table: &Table) -> String {
    match table.bound() {
        1 => "A cycle performs 1 line.\n".to_string(),
        bound => format!("A cycle performs at most {bound} lines.\n"),
    }
}

/// Words broken at blanks into parts of at most `WORDS` columns; what goes on is indented.
fn wrapped(words: &str) -> Vec<String> {
    let mut parts: Vec<String> = vec![String::new()];
    for word in words.split(' ') {
        let part = parts.last_mut().expect("never empty");
        if part.is_empty() {
            part.push_str(word);
        } else if part.len() + 1 + word.len() <= WORDS {
            part.push(' ');
            part.push_str(word);
        } else {
            parts.push(format!("  {word}"));
        }
    }
    parts
}

/// Rows in columns, two blanks between them; numbers to the right, words to the left.
fn aligned<const N: usize>(rows: &[[String; N]], right: &[bool; N]) -> String {
    let width = |column: usize| rows.iter().map(|row| row[column].len()).max();
    let widths: Vec<usize> = (0..N).map(|column| width(column).unwrap_or(0)).collect();
    let mut all = String::new();
    for row in rows {
        let cells = (0..N).map(|column| {
            let (cell, width) = (&row[column], widths[column]);
            match right[column] {
                true => format!("{cell:>width$}"),
                false => format!("{cell:<width$}"),
            }
        });
        let line = cells.collect::<Vec<_>>().join("  ");
        all.push_str(line.trim_end());
        all.push('\n');
    }
    all
}

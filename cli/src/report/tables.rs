//! The tables of the page: signature, lines, refused rows, and every beat in numbers.

use super::html::{self, escaped};
use super::words;
use crate::beats::{Beat, Performed};
use crate::diagnostic::position;
use crate::signals::{statements, Kind, Signal, Signals};
use crate::table::{LineKind, Slot, Table};
use rabtishu::Refusal;

/// Refused rows that are listed.
const MOST_REFUSED: usize = 100;

/// Letters of a row that are shown.
const ROW: usize = 80;

/// Clock, inputs, outputs and variables with their types and initial values.
pub fn signature(table: &Table, names: &Signals) -> String {
    let mut rows = Vec::new();
    if let Some(clock) = &names.clock {
        rows.push(entry("clock", clock, Kind::Bit, None));
    }
    for signal in &names.inputs {
        rows.push(entry("input", &signal.name, signal.kind, None));
    }
    rows.extend(slots("output", &names.outputs, &table.outputs));
    rows.extend(slots("variable", &names.variables, &table.variables));
    let headings = ["Name", "Role", "Type", "Initial value"].map(String::from);
    html::table("signature", "Signature", &headings, &rows)
}

fn slots(role: &str, signals: &[Signal], slots: &[Slot]) -> Vec<String> {
    let pairs = signals.iter().zip(slots);
    pairs
        .map(|(signal, slot)| entry(role, &signal.name, signal.kind, Some(slot.initial)))
        .collect()
}

fn entry(role: &str, name: &str, kind: Kind, initial: Option<i32>) -> String {
    let initial = initial.map(|value| escaped(&kind.literal(value)));
    let cells = [
        role.to_string(),
        kind.word().to_string(),
        initial.unwrap_or_default(),
    ];
    html::row("", &format!("<code>{}</code>", escaped(name)), &cells)
}

/// The lines of the table, each with the line of the text where its statement begins.
pub fn lines(text: &[u8], table: &Table, names: &Signals) -> String {
    let places = statements(text);
    let rows = table.lines.iter().enumerate().map(|(number, line)| {
        let place = places
            .get(number)
            .map(|&place| position(text, place).line.to_string());
        let cells = [
            line.kind.word().to_string(),
            format!("<code>{}</code>", escaped(&line.words(names))),
            line.next.to_string(),
            line.other()
                .map_or_else(String::new, |other| other.to_string()),
            line.reach.to_string(),
            place.unwrap_or_default(),
        ];
        let class = if line.kind == LineKind::Wait {
            "wait"
        } else {
            ""
        };
        html::row(class, &number.to_string(), &cells)
    });
    let headings = [
        "Line",
        "Kind",
        "What it does",
        "Next",
        "Other",
        "Reach",
        "Text line",
    ];
    let rows: Vec<String> = rows.collect();
    html::table("lines", "Lines", &headings.map(String::from), &rows)
}

/// The rows that were refused, with reasons; `rows` are all rows as the file has them.
pub fn refused(beats: &[Beat], rows: &[&[u8]], names: &Signals, table: &Table) -> String {
    let all: Vec<(&Beat, Refusal)> = beats
        .iter()
        .filter_map(|beat| beat.result.as_ref().err().map(|refusal| (beat, *refusal)))
        .collect();
    if all.is_empty() {
        return "<p>No row is refused.</p>\n".to_string();
    }
    let listed = all.iter().take(MOST_REFUSED).map(|(beat, refusal)| {
        let cells = [
            format!("<code>{}</code>", cut(rows[beat.row as usize])),
            format!(
                "<b class=\"chip bad\">{}</b> {}",
                refusal.number,
                refusal.title()
            ),
            words::of_row(beat, refusal, names, table),
        ];
        html::row("", &beat.row.to_string(), &cells)
    });
    let headings = ["Beat", "Row", "Refusal", "Why"].map(String::from);
    let table = html::table(
        "refused",
        "Rows that changed nothing, and why",
        &headings,
        &listed.collect::<Vec<_>>(),
    );
    table + &left_out(all.len().saturating_sub(MOST_REFUSED), "refused row")
}

/// The beginning of a row.
fn cut(row: &[u8]) -> String {
    match row.len() {
        0..=ROW => html::shown(row),
        _ => html::shown(&row[..ROW]) + "…",
    }
}

/// Says what is not there; nothing where all is.
pub fn left_out(count: usize, noun: &str) -> String {
    match count {
        0 => String::new(),
        1 => format!("<p class=\"left-out\">1 more {noun} is left out.</p>\n"),
        _ => format!(
            "<p class=\"left-out\">{} more {noun}s are left out.</p>\n",
            html::grouped(count)
        ),
    }
}

/// Every beat in numbers, for those who cannot see the charts or want to copy values.
pub fn numbers(beats: &[Beat], names: &Signals) -> String {
    let heading = |signal: &Signal| format!("<code>{}</code>", escaped(&signal.name));
    let mut headings = vec!["Beat".to_string()];
    headings.extend(names.inputs.iter().map(heading));
    headings.extend(["Wait", "Lines"].map(String::from));
    headings.extend(names.variables.iter().chain(&names.outputs).map(heading));
    let rows: Vec<String> = beats.iter().map(|beat| numbered(beat, names)).collect();
    let table = html::table("numbers", "Beats in numbers", &headings, &rows);
    format!("<details>\n<summary>Inputs, wait, lines, variables and outputs of every beat drawn</summary>\n{table}</details>\n")
}

fn numbered(beat: &Beat, names: &Signals) -> String {
    let due = names.inputs.len();
    let inputs = beat.inputs.as_ref().filter(|values| values.len() == due);
    let mut cells: Vec<String> = match inputs {
        Some(values) => values.iter().map(i32::to_string).collect(),
        None => vec!["–".to_string(); due],
    };
    match &beat.result {
        Ok(performed) => {
            cells.extend(after(performed));
            html::row("", &beat.row.to_string(), &cells)
        }
        Err(refusal) => {
            cells.push(format!("refused {}", refusal.number));
            cells.push("0".to_string());
            let kept = names.variables.len() + names.outputs.len();
            cells.extend(vec!["–".to_string(); kept]);
            html::row("bad", &beat.row.to_string(), &cells)
        }
    }
}

fn after(performed: &Performed) -> Vec<String> {
    let counts = [performed.wait.to_string(), performed.lines.to_string()];
    let values = performed.variables.iter().chain(&performed.outputs);
    counts
        .into_iter()
        .chain(values.map(i32::to_string))
        .collect()
}

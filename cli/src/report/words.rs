//! Refusals of rows in words.

use super::html::escaped;
use crate::beats::Beat;
use crate::signals::Signals;
use crate::table::Table;
use rabtishu::Refusal;

/// Why a row was refused, as HTML.
pub fn of_row(beat: &Beat, refusal: &Refusal, names: &Signals, table: &Table) -> String {
    match refusal.number {
        14 => row(beat, refusal, names),
        16 => at_line(refusal, names, table, "a result is outside 32-bit integers"),
        18 => at_line(refusal, names, table, "a divisor is 0"),
        _ => escaped(&refusal.to_string()),
    }
}

fn row(beat: &Beat, refusal: &Refusal, names: &Signals) -> String {
    let due = names.inputs.len();
    match &beat.inputs {
        None => "the row cannot be read".to_string(),
        Some(values) if values.len() != due => {
            format!("the row has {} of {due} values", values.len())
        }
        Some(values) => {
            let index = refusal.place as usize;
            let name = names.inputs.get(index).map_or("", |signal| &signal.name);
            let value = values.get(index).copied().unwrap_or_default();
            format!(
                "<code>{}</code> is {value}, and a std_logic is 0 or 1",
                escaped(name)
            )
        }
    }
}

fn at_line(refusal: &Refusal, names: &Signals, table: &Table, why: &str) -> String {
    let place = refusal.place as usize;
    let words = table.lines.get(place).map(|line| line.words(names));
    let words = escaped(&words.unwrap_or_default());
    format!("{why} in line {place}, <code>{words}</code>")
}

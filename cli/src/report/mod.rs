//! A process and its rows as one page of HTML: the verdict on its text, the text, the table, and
//! what the rows come to as waveforms and as the countdown that a board shows.
//!
//! The page needs nothing besides itself: no script, no font, no picture and no style from
//! elsewhere. Values come from the proved compiler and cycle; the drawing is tested, not proved.

mod chart;
mod countdown;
mod html;
mod lanes;
mod source;
mod tables;
mod waves;
mod words;

use crate::beats::{beats, Beat};
use crate::diagnostic::Diagnostic;
use crate::refusals;
use crate::rows::split;
use crate::signals::Signals;
use crate::table::{LineKind, Table};
use crate::text::Text;
use chart::Scale;
use html::{counted, escaped, grouped, section};
use lanes::Film;
use rabtishu::{Image, LONGEST_TEXT};

/// The most beats that are drawn; more would make a page that browsers open slowly.
pub const MOST_BEATS: usize = 2_000;

/// Colours, sizes and what changes in the dark and on paper.
const STYLE: &str = include_str!("style.css");

/// The hatching of refused columns, which all charts share.
const HATCHING: &str = "<svg class=\"defs\" width=\"0\" height=\"0\" aria-hidden=\"true\"><defs>\
    <pattern id=\"hatching\" width=\"6\" height=\"6\" patternUnits=\"userSpaceOnUse\" patternTransform=\"rotate(45)\">\
    <path class=\"hatch\" d=\"M0 0V6\"/></pattern></defs></svg>\n";

/// The page of a process, from its text and its rows; `name` is its folder's.
pub fn page(name: &str, text: &Text, rows: &[u8]) -> String {
    let name = escaped(name);
    let body = match text.compile() {
        Ok(image) => accepted(&name, &text.bytes, rows, &image),
        Err(refusal) => refused(&name, text, &text.diagnostic(refusal)),
    };
    format!(
        "<!DOCTYPE html>\n<html lang=\"en\">\n<head>\n<meta charset=\"utf-8\">\n\
         <meta name=\"viewport\" content=\"width=device-width, initial-scale=1\">\n\
         <title>{name}: Rabtishu report</title>\n<style>\n{STYLE}</style>\n</head>\n\
         <body>\n{HATCHING}<main>\n{body}</main>\n\
         <footer>Made by Rabtishu. Verdict, image and values come from the proved compiler and cycle; \
         the page that shows them is tested, not proved.</footer>\n</body>\n</html>\n"
    )
}

fn accepted(name: &str, text: &[u8], rows: &[u8], bytes: &[u8]) -> String {
    let image = Image::open(bytes).expect("what a compile writes opens");
    let names = Signals::of_text(text);
    let table = Table::of(&image);
    let drawn: Vec<Beat> = beats(image, image.fresh(), rows).take(MOST_BEATS).collect();
    let rows: Vec<&[u8]> = split(rows).collect();
    let tables = tables::signature(&table, &names) + &tables::lines(text, &table, &names);
    let mut all = header(
        name,
        &verdict(&names),
        &facts(&image, &table, &drawn, rows.len()),
    );
    all.push_str(&section("text", "Text", &source::accepted(text, &table)));
    all.push_str(&section("table", "Table", &tables));
    match drawn.is_empty() {
        true => all.push_str(&section("beats", "Beats", "<p>There are no rows.</p>\n")),
        false => all.push_str(&pictures(&image, &names, &table, &drawn, &rows)),
    }
    all
}

/// What the rows came to.
fn pictures(
    image: &Image,
    names: &Signals,
    table: &Table,
    drawn: &[Beat],
    rows: &[&[u8]],
) -> String {
    let film = Film::of(names, &image.fresh(), drawn);
    let scale = Scale::of(&film);
    let left = tables::left_out(rows.len() - drawn.len(), "beat");
    let waves = waves::waves(&film, &scale);
    let short = if waves.contains('≈') { SHORTENED } else { "" };
    let waves = format!("<p>{WAVES}{short}</p>\n{left}{waves}");
    let countdown = format!(
        "<p>{COUNTDOWN}</p>\n{left}{}",
        countdown::countdown(&film, &scale)
    );
    let refused = tables::refused(drawn, rows, names, table) + &left;
    let numbers = tables::numbers(drawn, names) + &left;
    section("waveforms", "Waveforms", &waves)
        + &section("countdown", "Countdown", &countdown)
        + &section("refused", "Refused rows", &refused)
        + &section("numbers", "Numbers", &numbers)
}

const WAVES: &str = "Each column is a beat: the inputs of its row, and wait, variables and outputs after its cycle. \
    A hatched column is a refused row under the number of its refusal; wait, variables and outputs stay as they were.";

const SHORTENED: &str =
    " Values with ≈ are shortened; on a screen the last part of this page has them whole.";

const COUNTDOWN: &str = "What each integer output shows from beat to beat.";

/// The page of a refused text: what `rabtishu check` says of it, and the text.
fn refused(name: &str, text: &Text, diagnostic: &Diagnostic) -> String {
    let (refusal, words) = (diagnostic.refusal, html::coded);
    let at = diagnostic.spot.as_ref().map_or(String::new(), |spot| {
        format!(
            " at line {}, column {}",
            spot.position.line, spot.position.column
        )
    });
    let expected = match diagnostic.expected.is_empty() {
        true => String::new(),
        false => format!("<br>Expected: {}", words(&diagnostic.expected.join(", "))),
    };
    let verdict = format!(
        "<p class=\"verdict bad\"><strong>Refused by {}, {}</strong>{at}<br>{}{expected}<br>{}</p>\n",
        refusal.number,
        refusal.title(),
        words(&diagnostic.message),
        words(&refusals::remedy(refusal.number))
    );
    let shown = &text.bytes[..text.bytes.len().min(LONGEST_TEXT)];
    let left = tables::left_out(text.length as usize - shown.len(), "byte");
    let listing = source::refused(shown, diagnostic.marked(shown));
    header(name, &verdict, "") + &section("text", "Text", &(listing + &left))
}

fn header(name: &str, verdict: &str, facts: &str) -> String {
    format!("<header>\n<p class=\"kicker\">Rabtishu report</p>\n<h1>{name}</h1>\n{verdict}{facts}</header>\n")
}

fn verdict(names: &Signals) -> String {
    format!(
        "<p class=\"verdict good\"><strong>Accepted</strong> The text of entity <code>{}</code> keeps all rules and is compiled.</p>\n",
        escaped(&names.entity)
    )
}

/// The numbers that a reader asks for first.
fn facts(image: &Image, table: &Table, drawn: &[Beat], rows: usize) -> String {
    let waits = table
        .lines
        .iter()
        .filter(|line| line.kind == LineKind::Wait)
        .count();
    let refused = drawn.iter().filter(|beat| beat.result.is_err()).count();
    let beats = match rows - drawn.len() {
        0 => format!(
            "{} performed, {} refused",
            grouped(drawn.len() - refused),
            grouped(refused)
        ),
        _ => format!("the first {} are drawn", grouped(drawn.len())),
    };
    let facts = [
        (
            "Image",
            counted(image.bytes().len(), "byte"),
            format!("form {}", image.form()),
        ),
        (
            "Table",
            counted(table.lines.len(), "line"),
            format!("with {}", counted(waits, "wait")),
        ),
        (
            "A cycle performs",
            format!("≤ {}", counted(table.bound() as usize, "line")),
            "proved bound".to_string(),
        ),
        ("Rows", counted(rows, "beat"), beats),
    ];
    let facts = facts.map(|(what, value, more)| {
        format!("<div><dt>{what}</dt><dd><b>{value}</b> <span>{more}</span></dd></div>\n")
    });
    format!("<dl>\n{}</dl>\n", facts.concat())
}

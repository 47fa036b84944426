//! The text of a process with the numbers of its lines and, beside them, the lines of the table
//! that its statements are.

use super::html;
use crate::signals::statements;
use crate::table::{LineKind, Table};
use crate::tokens::tokens;
use std::ops::Range;

/// What a byte of the text belongs to, and so how it is shown.
#[derive(Clone, Copy, PartialEq, Eq)]
enum Look {
    Plain,
    Comment,
    Wait,
    Refused,
}

/// The listing of an accepted text: waits are marked, and statements have their table lines.
pub fn accepted(text: &[u8], table: &Table) -> String {
    let mut looks = commented(text);
    let places = statements(text);
    for (&place, line) in places.iter().zip(&table.lines) {
        if line.kind == LineKind::Wait {
            let end = statement_end(text, place);
            paint(&mut looks, place..end, Look::Wait);
        }
    }
    let starts = line_starts(text, 0).into_iter().enumerate();
    let rows = starts.map(|(index, start)| {
        let range = start..line_end(text, start);
        let numbers = numbers_in(&range, &places, table);
        row(index, &numbers, &pieces(text, range, &looks))
    });
    let headings = ["Text", "Table", "Process"].map(String::from);
    let rows: Vec<String> = rows.collect();
    let caption = "The text, and the lines of the table that its statements are";
    html::table("source", caption, &headings, &rows)
}

/// The listing of a refused text, with the part that the refusal is about marked.
pub fn refused(text: &[u8], about: Range<usize>) -> String {
    let mut looks = commented(text);
    paint(&mut looks, about.clone(), Look::Refused);
    let starts = line_starts(text, about.start).into_iter().enumerate();
    let rows = starts.map(|(index, start)| {
        let range = start..line_end(text, start);
        let mark = match (range.start..=range.end).contains(&about.start) {
            true => "<span class=\"bad\">!</span>",
            false => "",
        };
        row(index, mark, &pieces(text, range, &looks))
    });
    let headings = ["Text", "Place", "Process"].map(String::from);
    let rows: Vec<String> = rows.collect();
    let caption = "The text, and where it is refused";
    html::table("source", caption, &headings, &rows)
}

/// Where each line of the text begins. Behind an LF at the text's end there is one only if it has
/// the place that is asked for.
fn line_starts(text: &[u8], place: usize) -> Vec<usize> {
    let ends = text.iter().enumerate().filter(|(_, &byte)| byte == b'\n');
    let starts = ends.map(|(index, _)| index + 1);
    let inside = starts.filter(|&start| start < text.len() || start == place);
    [0].into_iter().chain(inside).collect()
}

fn line_end(text: &[u8], start: usize) -> usize {
    let rest = &text[start..];
    let end = rest.iter().position(|&byte| byte == b'\n');
    start + end.unwrap_or(rest.len())
}

fn paint(looks: &mut [Look], range: Range<usize>, look: Look) {
    let end = range.end.min(looks.len());
    for each in &mut looks[range.start.min(end)..end] {
        if *each != Look::Comment || look == Look::Refused {
            *each = look;
        }
    }
}

/// Every byte plain but comments: what starts with `--` between two tokens, up to LF.
fn commented(text: &[u8]) -> Vec<Look> {
    let mut looks = vec![Look::Plain; text.len()];
    let mut from = 0;
    let ends = tokens(text).map(|token| (token.place, token.end()));
    for (place, end) in ends.chain([(text.len(), text.len())]) {
        let mut at = from;
        while at < place {
            let comment = text[at..place].starts_with(b"--");
            let stop = if comment { line_end(text, at) } else { at + 1 };
            if comment {
                looks[at..stop].fill(Look::Comment);
            }
            at = stop;
        }
        from = end;
    }
    looks
}

/// Where the statement that begins at a place ends, its `;` included.
fn statement_end(text: &[u8], place: usize) -> usize {
    let mut later = tokens(&text[place..]);
    let mark = later.find(|token| token.is(";"));
    mark.map_or(text.len(), |mark| place + mark.end())
}

/// The table lines of the statements that begin in a line of the text.
fn numbers_in(range: &Range<usize>, places: &[usize], table: &Table) -> String {
    let statements = places.iter().zip(&table.lines).enumerate();
    let here = statements.filter(|(_, (place, _))| range.contains(place));
    let numbers = here.map(|(number, (_, line))| match line.kind {
        LineKind::Wait => format!("<b class=\"chip\">{number}</b>"),
        _ => number.to_string(),
    });
    numbers.collect::<Vec<_>>().join(" ")
}

fn row(index: usize, numbers: &str, pieces: &str) -> String {
    html::row(
        "",
        &(index + 1).to_string(),
        &[numbers.to_string(), pieces.to_string()],
    )
}

/// A line of the text, in pieces of one look.
fn pieces(text: &[u8], range: Range<usize>, looks: &[Look]) -> String {
    let mut all = String::new();
    let mut at = range.start;
    while at < range.end {
        let look = looks[at];
        let same = looks[at..range.end]
            .iter()
            .take_while(|&&other| other == look);
        let end = at + same.count();
        let words = html::shown(&text[at..end]);
        all.push_str(&match look {
            Look::Plain => words,
            Look::Comment => format!("<i>{words}</i>"),
            Look::Wait => format!("<mark>{words}</mark>"),
            Look::Refused => format!("<mark class=\"bad\">{words}</mark>"),
        });
        at = end;
    }
    format!("<code>{all}</code>")
}

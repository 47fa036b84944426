//! What all charts of the page share: how wide a beat is, how the beats wrap into charts one below
//! the other, the axis above them, and the hatched columns of refused rows.

use super::lanes::{Cell, Film, Lane};
use crate::signals::Kind;
use std::ops::Range;

/// The width of a chart. A sheet of A4 shows it nearly at its size, so its letters stay legible.
const WIDTH: f64 = 760.0;

/// The width of a letter in a chart.
const LETTER: f64 = 6.7;

/// Room for the names, at least; values on the axis of a countdown need as much.
const NAMES: f64 = 84.0;

/// Before the first beat of a chart a stub shows what the lane had before.
const LEAD: f64 = 8.0;

/// The most beats in a chart, and the fewest before one more chart is begun.
const MOST: usize = 40;
const FEWEST: usize = 4;

/// The widest beat, unless a value needs more; few rows would else make clumsy charts.
const WIDEST: f64 = 64.0;

/// Letters of a shortened value.
const SHORT: usize = 5;

/// Of the values this part at least stands whole, in percent; a few long ones would else spread
/// all others over many charts.
const WHOLE: usize = 90;

/// Baselines of beat numbers and of refusals, and the height of both.
const BEATS: f64 = 11.0;
const REFUSALS: f64 = 25.0;

/// How beats become columns, the same for all charts of a page.
pub struct Scale {
    start: f64,
    beat: f64,
    per: usize,
    beats: usize,
    /// Where the lanes begin, below the axis.
    pub top: f64,
}

impl Scale {
    /// Beats as narrow as most of their values allow, and charts of equal length.
    pub fn of(film: &Film) -> Scale {
        let beats = film.refused.len();
        let lanes = || film.groups.iter().flat_map(|group| &group.lanes);
        let longest = lanes().map(|lane| lane.name.len()).max().unwrap_or(0);
        let start = NAMES.max(width(longest) + 16.0);
        let room = WIDTH - start - 2.0;
        let (most_values, all_values) = needed(lanes());
        let most = ((room / most_values) as usize).clamp(FEWEST, MOST);
        let charts = beats.div_ceil(most).max(1);
        let per = beats.div_ceil(charts).max(1);
        let refused = film.refused.iter().any(Option::is_some);
        Scale {
            start,
            beat: (room / per as f64).min(WIDEST.max(all_values)),
            per,
            beats,
            top: if refused { REFUSALS } else { BEATS } + 6.0,
        }
    }

    /// The beats of each chart.
    pub fn charts(&self) -> Vec<Range<usize>> {
        let starts = (0..self.beats).step_by(self.per);
        starts
            .map(|start| start..self.beats.min(start + self.per))
            .collect()
    }

    /// Where a beat begins in a chart that begins with another one.
    pub fn x(&self, chart: &Range<usize>, beat: usize) -> f64 {
        self.start + (beat - chart.start) as f64 * self.beat
    }

    /// Where the stub of what was before begins.
    pub fn lead(&self) -> f64 {
        self.start - LEAD
    }

    /// The axis of a chart, and over the height of its lanes a line for each beat, hatched columns
    /// for refused ones.
    pub fn frame(&self, film: &Film, chart: &Range<usize>, bottom: f64) -> String {
        let every = self.label_every(chart);
        let beats = chart.clone().map(|beat| {
            let label = if beat % every == 0 {
                let middle = self.x(chart, beat) + self.beat / 2.0;
                text("axis", middle, BEATS, &beat.to_string())
            } else {
                String::new()
            };
            label + &self.hatched(film, chart, beat, bottom)
        });
        let lines = chart.clone().chain([chart.end]).map(|beat| {
            let x = number(self.x(chart, beat));
            format!("M{x} {}V{}", number(self.top), number(bottom))
        });
        let (lines, beats): (String, String) = (lines.collect(), beats.collect());
        format!("<path class=\"grid\" d=\"{lines}\"/>\n{beats}\n")
    }

    /// The column of a refused beat, with the refusal above it.
    fn hatched(&self, film: &Film, chart: &Range<usize>, beat: usize, bottom: f64) -> String {
        let Some(refusal) = film.refused[beat] else {
            return String::new();
        };
        let (x, top, beat_width) = (self.x(chart, beat), self.top, self.beat);
        let hint = format!("<title>Beat {beat}: refused by {}</title>", refusal.number);
        let middle = x + beat_width / 2.0;
        let label = text("bad", middle, REFUSALS, &refusal.number.to_string());
        let (x, y, wide) = (number(x), number(top), number(beat_width));
        let high = number(bottom - top);
        format!("<rect class=\"hatched\" x=\"{x}\" y=\"{y}\" width=\"{wide}\" height=\"{high}\">{hint}</rect>{label}")
    }

    /// Beat numbers stand at every beat, or at every second, fifth and so on where they are wider.
    fn label_every(&self, chart: &Range<usize>) -> usize {
        let needed = width(chart.end.to_string().len()) + 4.0;
        let steps = [1, 2, 5, 10, 20, 50];
        let fits = |step: &usize| *step as f64 * self.beat >= needed;
        steps.into_iter().find(fits).unwrap_or(100)
    }
}

/// How wide a beat must be for most values to stand whole, the others shortened, and for all.
fn needed<'a>(lanes: impl Iterator<Item = &'a Lane>) -> (f64, f64) {
    let integers = lanes.filter(|lane| lane.kind == Kind::Integer);
    let runs = integers.flat_map(|lane| lane.runs(0..lane.cells.len()));
    let values = runs.filter_map(|run| match run.cell {
        Cell::Value(value) => Some((value.to_string().len(), run.beats.len() as f64)),
        _ => None,
    });
    let values: Vec<(usize, f64)> = values.collect();
    let asked = |letters: usize, beats: f64| (width(letters) + 8.0) / beats;
    let whole = values.iter().map(|&(letters, beats)| asked(letters, beats));
    let short = values
        .iter()
        .map(|&(letters, beats)| asked(letters.min(SHORT), beats));
    let short = short.fold(1.0, f64::max);
    let mut whole: Vec<f64> = whole.collect();
    whole.sort_by(f64::total_cmp);
    let most = whole.get(whole.len() * WHOLE / 100).copied().unwrap_or(1.0);
    let all = whole.last().copied().unwrap_or(1.0);
    (most.max(short), all)
}

/// The width of so many letters.
fn width(letters: usize) -> f64 {
    letters as f64 * LETTER
}

/// A value as it fits into a width: whole, shortened, or not at all.
pub fn fitted(value: i32, room: f64) -> String {
    let about = f64::from(value);
    let words = [
        value.to_string(),
        format!("≈{about:.1e}"),
        format!("≈{about:.0e}"),
    ];
    let fits = |words: &String| width(words.chars().count()) + 6.0 <= room;
    let words = words.into_iter().find(fits);
    words.unwrap_or_else(|| "…".to_string())
}

/// A chart as a picture with a caption; the title is what a screen reader says.
pub fn figure(caption: &str, title: &str, height: f64, body: &str) -> String {
    let (wide, high) = (number(WIDTH), number(height));
    format!(
        "<figure>\n<figcaption>{caption}</figcaption>\n\
         <svg class=\"chart\" role=\"img\" viewBox=\"0 0 {wide} {high}\">\n\
         <title>{title}</title>\n{body}</svg>\n</figure>\n"
    )
}

/// `Beat 3`, `Beats 0 to 39`.
pub fn caption(chart: &Range<usize>) -> String {
    match chart.len() {
        1 => format!("Beat {}", chart.start),
        _ => format!("Beats {} to {}", chart.start, chart.end - 1),
    }
}

/// Words in a chart; their class says how they are aligned.
pub fn text(class: &str, x: f64, y: f64, words: &str) -> String {
    let (x, y) = (number(x), number(y));
    format!("<text class=\"{class}\" x=\"{x}\" y=\"{y}\">{words}</text>")
}

/// A coordinate, to a tenth.
pub fn number(value: f64) -> String {
    let words = format!("{value:.1}");
    match words.strip_suffix(".0") {
        Some(whole) => whole.to_string(),
        None => words,
    }
}

//! Waveforms: bits as square waves, integers as lanes of values.

use super::chart::{caption, figure, fitted, number, text, Scale};
use super::html::escaped;
use super::lanes::{Cell, Film, Group, Lane, Run};
use crate::signals::Kind;
use std::ops::Range;

/// The height of a lane and of a group's heading.
const LANE: f64 = 24.0;
const HEADING: f64 = 19.0;

/// The most lanes in one chart: more would not fit on a sheet of A4.
const MOST_LANES: usize = 36;

/// How far a wave stays from the edges of its lane.
const MARGIN: f64 = 4.0;

/// How far the corners of a value's box are cut.
const CUT: f64 = 3.0;

/// The charts of all lanes, part after part of the beats.
pub fn waves(film: &Film, scale: &Scale) -> String {
    let mut all = String::new();
    for chart in scale.charts() {
        for groups in sheets(&film.groups) {
            all.push_str(&one(film, scale, &chart, &groups));
        }
    }
    all
}

/// Groups in charts of at most so many lanes; no group has more.
fn sheets(groups: &[Group]) -> Vec<Vec<&Group>> {
    let mut sheets: Vec<Vec<&Group>> = Vec::new();
    let lanes = |sheet: &[&Group]| sheet.iter().map(|group| group.lanes.len()).sum::<usize>();
    for group in groups {
        match sheets.last_mut() {
            Some(sheet) if lanes(sheet) + group.lanes.len() <= MOST_LANES => sheet.push(group),
            _ => sheets.push(vec![group]),
        }
    }
    sheets
}

fn one(film: &Film, scale: &Scale, chart: &Range<usize>, groups: &[&Group]) -> String {
    let mut y = scale.top;
    let mut body = String::new();
    for group in groups {
        body.push_str(&text("heading", 0.0, y + HEADING - 6.0, group.title));
        y += HEADING;
        body.push_str(&format!("<g class=\"{}\">\n", group.title));
        for lane in &group.lanes {
            body.push_str(&text("name", 0.0, baseline(y), &escaped(&lane.name)));
            body.push_str(&match lane.kind {
                Kind::Bit => bits(scale, chart, lane, y),
                Kind::Integer => values(scale, chart, lane, y),
            });
            y += LANE;
        }
        body.push_str("</g>\n");
    }
    let names: Vec<&str> = groups.iter().map(|group| group.title).collect();
    let title = format!(
        "Waveforms of {}, {}",
        names.join(", "),
        caption(chart).to_lowercase()
    );
    let frame = scale.frame(film, chart, y + 2.0);
    figure(&caption(chart), &title, y + 4.0, &(frame + &body))
}

/// Where a square wave is when it is low, and when it is high.
struct Levels {
    low: f64,
    high: f64,
}

impl Levels {
    fn of(&self, cell: Cell) -> Option<f64> {
        match cell {
            Cell::Value(0) => Some(self.low),
            Cell::Value(_) => Some(self.high),
            _ => None,
        }
    }
}

/// A square wave, what is below it when it is high, and values that are no bits.
fn bits(scale: &Scale, chart: &Range<usize>, lane: &Lane, y: f64) -> String {
    let levels = Levels {
        low: y + LANE - MARGIN,
        high: y + MARGIN,
    };
    let mut all = [String::new(), String::new()];
    for run in lane.runs(chart.clone()) {
        let (from, to) = ends(scale, chart, &run);
        match run.cell {
            Cell::Value(0) | Cell::Nothing => (),
            Cell::Value(_) => all[0].push_str(&filled(&levels, from, to)),
            Cell::Wrong(value) => {
                let words = fitted(value, to - from);
                all[1].push_str(&text("bad", (from + to) / 2.0, baseline(y), &words));
            }
        }
    }
    let [high, wrong] = all;
    let wave = wave(scale, chart, lane, &levels);
    format!("<path class=\"high\" d=\"{high}\"/><path class=\"wave\" d=\"{wave}\"/>{wrong}\n")
}

fn filled(levels: &Levels, from: f64, to: f64) -> String {
    let (low, high) = (number(levels.low), number(levels.high));
    let (from, to) = (number(from), number(to));
    format!("M{from} {low}H{to}V{high}H{from}Z")
}

fn wave(scale: &Scale, chart: &Range<usize>, lane: &Lane, levels: &Levels) -> String {
    let mut last = levels.of(lane.before(chart.start));
    let start = scale.x(chart, chart.start);
    let mut all = edge(None, last, scale.lead(), start);
    for run in lane.runs(chart.clone()) {
        let (from, to) = ends(scale, chart, &run);
        let now = levels.of(run.cell);
        all.push_str(&edge(last, now, from, to));
        last = now;
    }
    all
}

/// Where words stand in a lane.
fn baseline(y: f64) -> f64 {
    y + LANE / 2.0 + 4.0
}

/// The wave of a run, from the level before it on.
fn edge(last: Option<f64>, now: Option<f64>, from: f64, to: f64) -> String {
    match (last, now) {
        (_, None) => String::new(),
        (None, Some(now)) => format!("M{} {}H{}", number(from), number(now), number(to)),
        (Some(_), Some(now)) => format!("V{}H{}", number(now), number(to)),
    }
}

fn ends(scale: &Scale, chart: &Range<usize>, run: &Run) -> (f64, f64) {
    (
        scale.x(chart, run.beats.start),
        scale.x(chart, run.beats.end),
    )
}

/// A box for each run of one value, with the value in it.
fn values(scale: &Scale, chart: &Range<usize>, lane: &Lane, y: f64) -> String {
    let mut all = String::new();
    let before = lane.before(chart.start);
    let runs = lane.runs(chart.clone());
    let goes_on = runs.first().is_some_and(|run| run.cell == before);
    if !goes_on && before != Cell::Nothing {
        all.push_str(&boxed(
            (scale.lead(), scale.x(chart, chart.start)),
            y,
            (false, true),
        ));
    }
    for run in &runs {
        let (mut from, to) = ends(scale, chart, run);
        let first = run.beats.start == chart.start;
        let (room, middle) = (to - from, (from + to) / 2.0);
        if first && goes_on && before != Cell::Nothing {
            from = scale.lead();
        }
        if let Cell::Value(value) = run.cell {
            let open = (!(first && goes_on), run.beats.end != chart.end);
            all.push_str(&boxed((from, to), y, open));
            all.push_str(&label(value, room, middle, y));
        }
    }
    all.push('\n');
    all
}

/// A value in its box; the whole value is a hint where it does not fit.
fn label(value: i32, room: f64, middle: f64, y: f64) -> String {
    let words = fitted(value, room);
    let hint = match words.starts_with(['≈', '…']) {
        true => format!("<title>{value}</title>"),
        false => String::new(),
    };
    text("value", middle, baseline(y), &(words + &hint))
}

/// A box whose sides are pointed where the value changes.
fn boxed((from, to): (f64, f64), y: f64, (left, right): (bool, bool)) -> String {
    let (top, bottom, middle) = (y + MARGIN, y + LANE - MARGIN, y + LANE / 2.0);
    let (inner, outer) = (
        number(if left { from + CUT } else { from }),
        number(if right { to - CUT } else { to }),
    );
    let (top, bottom, middle) = (number(top), number(bottom), number(middle));
    let (from, to) = (number(from), number(to));
    let right = if right {
        format!("L{to} {middle}L{outer} {bottom}")
    } else {
        format!("V{bottom}")
    };
    let left = if left {
        format!("L{from} {middle}")
    } else {
        String::new()
    };
    format!("<path class=\"box\" d=\"M{inner} {top}H{outer}{right}H{inner}{left}Z\"/>")
}

//! The countdown: each integer output as steps over the beats, as a board would show it.

use super::chart::{caption, figure, fitted, number, text, Scale};
use super::html::escaped;
use super::lanes::{Cell, Film, Lane};
use crate::signals::Kind;
use std::ops::Range;

/// The height of a chart's steps, and the room above them for the highest value.
const HEIGHT: f64 = 92.0;
const ABOVE: f64 = 18.0;

/// Values on the axis do not come closer to each other.
const APART: f64 = 14.0;

/// The charts of all integer outputs, one output after the other.
pub fn countdown(film: &Film, scale: &Scale) -> String {
    let outputs = film.lanes("outputs");
    let integers = outputs.filter(|lane| lane.kind == Kind::Integer);
    let all: String = integers.map(|lane| output(film, scale, lane)).collect();
    match all.is_empty() {
        true => "<p>The process has no integer output.</p>\n".to_string(),
        false => all,
    }
}

fn output(film: &Film, scale: &Scale, lane: &Lane) -> String {
    let name = escaped(&lane.name);
    let axis = Axis::of(lane, scale.top);
    let charts = scale.charts();
    let charts = charts.iter().map(|chart| {
        let title = format!("{name}, {}", caption(chart).to_lowercase());
        let frame = scale.frame(film, chart, axis.bottom);
        let body = frame + &axis.labels(scale, chart) + &steps(scale, chart, lane, &axis);
        figure(
            &format!("<code>{name}</code>: {}", caption(chart).to_lowercase()),
            &title,
            axis.bottom + 6.0,
            &body,
        )
    });
    charts.collect()
}

/// The values between which the steps of an output lie, and where these stand.
struct Axis {
    low: f64,
    high: f64,
    top: f64,
    bottom: f64,
}

impl Axis {
    /// From 0 on, unless all values are far from it: then their steps would not be seen.
    fn of(lane: &Lane, top: f64) -> Axis {
        let cells = lane.cells.iter().chain([&lane.before]);
        let values = cells.filter_map(|cell| match cell {
            Cell::Value(value) => Some(f64::from(*value)),
            _ => None,
        });
        let (mut low, mut high) = values.fold((f64::MAX, f64::MIN), |(low, high), value| {
            (low.min(value), high.max(value))
        });
        if low > 0.0 && (low < high / 2.0 || low == high) {
            low = 0.0;
        }
        if high < 0.0 && (high > low / 2.0 || low == high) {
            high = 0.0;
        }
        if low == high {
            high = low + 1.0;
        }
        Axis {
            low,
            high,
            top: top + ABOVE,
            bottom: top + ABOVE + HEIGHT,
        }
    }

    fn y(&self, value: f64) -> f64 {
        let part = (value - self.low) / (self.high - self.low);
        self.bottom - 4.0 - part * (self.bottom - 4.0 - self.top)
    }

    /// Where 0 is, or the end of the axis that is nearer to it.
    fn base(&self) -> f64 {
        self.y(0.0f64.clamp(self.low, self.high))
    }

    /// The highest and the lowest value, and 0 if it is between them and apart.
    fn labels(&self, scale: &Scale, chart: &Range<usize>) -> String {
        let (from, to) = (scale.x(chart, chart.start), scale.x(chart, chart.end));
        let ends = [self.low, self.high];
        let apart = |value: f64| {
            ends.iter()
                .all(|end| (self.y(value) - self.y(*end)).abs() >= APART)
        };
        let zero = (self.low < 0.0 && 0.0 < self.high && apart(0.0)).then_some(0.0);
        let values = ends.into_iter().chain(zero);
        let labels = values.map(|value| {
            let y = self.y(value);
            let line = format!(
                "<path class=\"grid\" d=\"M{} {1}H{2}\"/>",
                number(from),
                number(y),
                number(to)
            );
            line + &text("scale", scale.lead() - 2.0, y + 4.0, &value.to_string())
        });
        labels.collect()
    }
}

/// The steps, what is between them and 0, and the value of each.
fn steps(scale: &Scale, chart: &Range<usize>, lane: &Lane, axis: &Axis) -> String {
    let level = |cell: Cell| match cell {
        Cell::Value(value) => axis.y(f64::from(value)),
        _ => axis.base(),
    };
    let before = number(level(lane.before(chart.start)));
    let mut line = format!(
        "M{} {before}H{}",
        number(scale.lead()),
        number(scale.x(chart, chart.start))
    );
    let mut labels = String::new();
    for run in lane.runs(chart.clone()) {
        let (from, to) = (
            scale.x(chart, run.beats.start),
            scale.x(chart, run.beats.end),
        );
        let y = level(run.cell);
        line.push_str(&format!("V{}H{}", number(y), number(to)));
        if let Cell::Value(value) = run.cell {
            let words = fitted(value, to - from);
            labels.push_str(&text("value", (from + to) / 2.0, y - 5.0, &words));
        }
    }
    let base = number(axis.base());
    let filled = format!("{line}V{base}H{}Z", number(scale.lead()));
    format!("<g class=\"outputs\"><path class=\"high\" d=\"{filled}\"/><path class=\"wave\" d=\"{line}\"/>{labels}</g>\n")
}

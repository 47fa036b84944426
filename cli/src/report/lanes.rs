//! Beats as lanes: the values of one signal in every beat, in the order in which charts show them.

use crate::beats::Beat;
use crate::signals::{Kind, Signal, Signals};
use rabtishu::{Refusal, State};
use std::ops::Range;

/// What a lane has in one beat.
#[derive(Clone, Copy, Debug, PartialEq, Eq)]
pub enum Cell {
    /// A value.
    Value(i32),
    /// A value of the row that is none of its type, for which the row was refused.
    Wrong(i32),
    /// No value: the row cannot be read.
    Nothing,
}

/// The values of one signal.
pub struct Lane {
    /// The signal's name.
    pub name: String,
    /// Its type.
    pub kind: Kind,
    /// What it had before the first beat.
    pub before: Cell,
    /// What it has in each beat.
    pub cells: Vec<Cell>,
}

/// Lanes of one sort.
pub struct Group {
    /// What the lanes are; also their class in the page.
    pub title: &'static str,
    /// The lanes.
    pub lanes: Vec<Lane>,
}

/// All lanes, and which beats were refused.
pub struct Film {
    /// Inputs, cycle, variables, outputs; none of them empty.
    pub groups: Vec<Group>,
    /// The refusal of each beat.
    pub refused: Vec<Option<Refusal>>,
}

/// Beats in which a lane has one value.
pub struct Run {
    /// The beats.
    pub beats: Range<usize>,
    /// What the lane has in them.
    pub cell: Cell,
}

impl Lane {
    /// What the lane has before a beat.
    pub fn before(&self, beat: usize) -> Cell {
        match beat {
            0 => self.before,
            _ => self.cells[beat - 1],
        }
    }

    /// The runs of a part of the beats.
    pub fn runs(&self, beats: Range<usize>) -> Vec<Run> {
        let mut runs: Vec<Run> = Vec::new();
        for beat in beats {
            let cell = self.cells[beat];
            match runs.last_mut() {
                Some(run) if run.cell == cell => run.beats.end = beat + 1,
                _ => runs.push(Run {
                    beats: beat..beat + 1,
                    cell,
                }),
            }
        }
        runs
    }
}

impl Film {
    /// The lanes of beats that began in this state.
    pub fn of(signals: &Signals, initial: &State, beats: &[Beat]) -> Film {
        let groups = [
            ("inputs", inputs(&signals.inputs, beats)),
            ("cycle", cycle(initial, beats)),
            ("variables", variables(&signals.variables, initial, beats)),
            ("outputs", outputs(&signals.outputs, initial, beats)),
        ];
        let groups = groups.into_iter().filter(|(_, lanes)| !lanes.is_empty());
        Film {
            groups: groups
                .map(|(title, lanes)| Group { title, lanes })
                .collect(),
            refused: beats
                .iter()
                .map(|beat| beat.result.as_ref().err().copied())
                .collect(),
        }
    }

    /// The lanes of a group.
    pub fn lanes(&self, title: &str) -> impl Iterator<Item = &Lane> {
        let group = self.groups.iter().find(move |group| group.title == title);
        group.into_iter().flat_map(|group| &group.lanes)
    }
}

/// A row of the right length is shown also if it was refused.
fn inputs(signals: &[Signal], beats: &[Beat]) -> Vec<Lane> {
    let cell = |index: usize, kind: Kind, beat: &Beat| match &beat.inputs {
        Some(values) if values.len() == signals.len() => match (kind, values[index]) {
            (Kind::Bit, value) if !(0..=1).contains(&value) => Cell::Wrong(value),
            (_, value) => Cell::Value(value),
        },
        _ => Cell::Nothing,
    };
    let numbers = signals.iter().enumerate();
    numbers
        .map(|(index, signal)| Lane {
            name: signal.name.clone(),
            kind: signal.kind,
            before: Cell::Nothing,
            cells: beats
                .iter()
                .map(|beat| cell(index, signal.kind, beat))
                .collect(),
        })
        .collect()
}

/// The wait that was reached, and how many lines that took.
fn cycle(initial: &State, beats: &[Beat]) -> Vec<Lane> {
    let wait = initial
        .wait()
        .map_or(Cell::Nothing, |line| Cell::Value(i32::from(line)));
    let waits = kept(wait, beats, |it| i32::from(it.wait));
    let lines = beats.iter().map(|beat| match &beat.result {
        Ok(performed) => Cell::Value(performed.lines as i32),
        Err(_) => Cell::Value(0),
    });
    let lane = |name: &str, before, cells| Lane {
        name: name.to_string(),
        kind: Kind::Integer,
        before,
        cells,
    };
    vec![
        lane("wait", wait, waits),
        lane("lines", Cell::Nothing, lines.collect()),
    ]
}

fn variables(signals: &[Signal], initial: &State, beats: &[Beat]) -> Vec<Lane> {
    let before = initial.variables();
    slots(signals, before, beats, |it, index| it.variables[index])
}

fn outputs(signals: &[Signal], initial: &State, beats: &[Beat]) -> Vec<Lane> {
    let before = initial.outputs();
    slots(signals, before, beats, |it, index| it.outputs[index])
}

fn slots(
    signals: &[Signal],
    before: &[i32],
    beats: &[Beat],
    value: fn(&crate::beats::Performed, usize) -> i32,
) -> Vec<Lane> {
    let pairs = signals.iter().zip(before).enumerate();
    pairs
        .map(|(index, (signal, &before))| Lane {
            name: signal.name.clone(),
            kind: signal.kind,
            before: Cell::Value(before),
            cells: kept(Cell::Value(before), beats, |it| value(it, index)),
        })
        .collect()
}

/// The value after each beat; a refused one keeps what was there.
fn kept(
    before: Cell,
    beats: &[Beat],
    value: impl Fn(&crate::beats::Performed) -> i32,
) -> Vec<Cell> {
    let mut last = before;
    let cells = beats.iter().map(|beat| {
        if let Ok(performed) = &beat.result {
            last = Cell::Value(value(performed));
        }
        last
    });
    cells.collect()
}

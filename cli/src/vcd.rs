//! Beats as a value change dump (IEEE Std 1364-2005, clause 18), for GTKWave and other viewers.
//!
//! Time. The state before the first row stands at 0, and beat k at (k + 1) * 10 ns: one timestamp
//! a beat, and none besides. A board has no time of its own, so the length of a beat is free.
//!
//! The clock. A cycle is one rising edge, and a wire that rises at every beat would have to fall
//! between two of them, at a timestamp that is no beat. So the clock is an `event`, which the
//! standard has for what happens at an instant: every beat triggers it once, and viewers draw an
//! edge or arrow there.
//!
//! Values. Bits are wires; integers have 32 bits in two's complement. Besides the names of the text
//! there are `wait_line` (the line of the wait reached, 512 at the beginning), `lines` (lines
//! performed) and `refused` (the refusal of the row, or 0). Inputs are `x` before the first row.
//! A refused row keeps outputs, variables and wait, and has performed 0 lines; inputs show it if
//! the board took it (16, 18), and keep theirs if not (14). Only changes are written.
//!
//! There is no date, so that the same rows give the same bytes.

use crate::beats::Beat;
use crate::signals::{Kind, Signal, Signals};
use rabtishu::State;
use std::io::{Result, Write};

/// Nanoseconds between two beats.
const BEAT: u64 = 10;

/// The first of the printable characters that stand for variables.
const FIRST_CODE: u8 = b'!';

/// A variable of the dump: its code, its type, and what was written last.
struct Variable {
    code: char,
    kind: Kind,
    last: Option<i32>,
}

/// A dump that is being written, value by value: `out` is best buffered.
pub struct Dump<W: Write> {
    out: W,
    clock: char,
    values: Values,
}

/// All variables but the clock, in the order of their declarations.
struct Values {
    inputs: Vec<Variable>,
    outputs: Vec<Variable>,
    variables: Vec<Variable>,
    wait: Variable,
    lines: Variable,
    refused: Variable,
}

impl<W: Write> Dump<W> {
    /// Begins the dump of a run that begins in this state.
    pub fn start(mut out: W, signals: &Signals, initial: &State) -> Result<Dump<W>> {
        let clock = char::from(FIRST_CODE);
        let mut values = Values::of(signals);
        declarations(&mut out, signals, clock, &values)?;
        values.begin(&mut out, initial)?;
        Ok(Dump { out, clock, values })
    }

    /// Writes what a beat changed.
    pub fn beat(&mut self, beat: &Beat) -> Result<()> {
        writeln!(self.out, "#{}\n1{}", (beat.row + 1) * BEAT, self.clock)?;
        self.values.beat(&mut self.out, beat)
    }

    /// Where the dump was written to.
    pub fn end(self) -> W {
        self.out
    }
}

fn declarations(out: &mut dyn Write, signals: &Signals, clock: char, dump: &Values) -> Result<()> {
    writeln!(out, "$version Rabtishu $end\n$timescale 1 ns $end")?;
    writeln!(out, "$scope module {} $end", signals.entity)?;
    let own = signals.clock.clone();
    let name = own.unwrap_or_else(|| unique(signals, "clk"));
    writeln!(out, "$var event 1 {clock} {name} $end")?;
    let parts = [
        (&signals.inputs, &dump.inputs),
        (&signals.outputs, &dump.outputs),
        (&signals.variables, &dump.variables),
    ];
    for (names, variables) in parts {
        for (signal, variable) in names.iter().zip(variables) {
            declare(out, &signal.name, variable)?;
        }
    }
    declare(out, &unique(signals, "wait_line"), &dump.wait)?;
    declare(out, &unique(signals, "lines"), &dump.lines)?;
    declare(out, &unique(signals, "refused"), &dump.refused)?;
    writeln!(out, "$upscope $end\n$enddefinitions $end")
}

fn declare(out: &mut dyn Write, name: &str, variable: &Variable) -> Result<()> {
    let size = match variable.kind {
        Kind::Bit => "wire 1",
        Kind::Integer => "integer 32",
    };
    writeln!(out, "$var {size} {} {name} $end", variable.code)
}

/// A name that the text has not: no word of a text ends with an underscore.
fn unique(signals: &Signals, name: &str) -> String {
    match signals.names().any(|other| other == name) {
        true => format!("{name}_"),
        false => name.to_string(),
    }
}

impl Values {
    /// At most 16 inputs, 16 outputs and 32 variables: one character is enough for each.
    fn of(signals: &Signals) -> Values {
        let mut code = FIRST_CODE;
        let mut one = |kind| {
            code += 1;
            Variable {
                code: char::from(code),
                kind,
                last: None,
            }
        };
        let mut all = |signals: &[Signal]| signals.iter().map(|it| one(it.kind)).collect();
        Values {
            inputs: all(&signals.inputs),
            outputs: all(&signals.outputs),
            variables: all(&signals.variables),
            wait: one(Kind::Integer),
            lines: one(Kind::Integer),
            refused: one(Kind::Integer),
        }
    }

    /// The values before the first row.
    fn begin(&mut self, out: &mut dyn Write, state: &State) -> Result<()> {
        writeln!(out, "#0\n$dumpvars")?;
        for input in &self.inputs {
            input.unknown(out)?;
        }
        changes(out, &mut self.outputs, state.outputs())?;
        changes(out, &mut self.variables, state.variables())?;
        self.wait.change(out, state.place())?;
        self.lines.change(out, 0)?;
        self.refused.change(out, 0)?;
        writeln!(out, "$end")
    }

    fn beat(&mut self, out: &mut dyn Write, beat: &Beat) -> Result<()> {
        changes(out, &mut self.inputs, beat.taken().unwrap_or_default())?;
        let (lines, refused) = match &beat.result {
            Ok(performed) => {
                changes(out, &mut self.outputs, &performed.outputs)?;
                changes(out, &mut self.variables, &performed.variables)?;
                self.wait.change(out, i32::from(performed.wait))?;
                (performed.lines as i32, 0)
            }
            Err(refusal) => (0, refusal.number as i32),
        };
        self.lines.change(out, lines)?;
        self.refused.change(out, refused)
    }
}

/// As many as both have: a state has more slots than there are variables.
fn changes(out: &mut dyn Write, variables: &mut [Variable], values: &[i32]) -> Result<()> {
    let mut pairs = variables.iter_mut().zip(values);
    pairs.try_for_each(|(variable, value)| variable.change(out, *value))
}

impl Variable {
    /// Writes a value, unless it is the one that was written last. Missing digits at the left are
    /// read as 0, so a value below 0 has all 32.
    fn change(&mut self, out: &mut dyn Write, value: i32) -> Result<()> {
        if self.last.replace(value) == Some(value) {
            return Ok(());
        }
        match self.kind {
            Kind::Bit => writeln!(out, "{value}{}", self.code),
            Kind::Integer => writeln!(out, "b{value:b} {}", self.code),
        }
    }

    fn unknown(&self, out: &mut dyn Write) -> Result<()> {
        match self.kind {
            Kind::Bit => writeln!(out, "x{}", self.code),
            Kind::Integer => writeln!(out, "bx {}", self.code),
        }
    }
}

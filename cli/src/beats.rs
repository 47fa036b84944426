//! What each row of a file of rows comes to on an image, one beat after another.
//!
//! Rows are read as the trace program reads rows.txt (document 01, "The trace of tally"), but for
//! its limit on their bytes. A row that cannot be read is refused by 14; the rows behind a refused
//! one go on from the state before it.

use std::io::{BufRead, Result as Read};

use rabtishu::{Image, Refusal, State};

use crate::rows;

/// The refusal of a row that cannot be read.
const BAD_ROW: Refusal = Refusal {
    number: 14,
    place: 0,
};

/// A row and what it came to.
#[derive(Clone, Debug, PartialEq, Eq)]
pub struct Beat {
    /// The row's number, from 0.
    pub row: u64,
    /// The values in the row; none if it cannot be read.
    pub inputs: Option<Vec<i32>>,
    /// What the cycle did, or why the row was refused.
    pub result: Result<Performed, Refusal>,
}

/// A cycle that was performed.
#[derive(Clone, Debug, PartialEq, Eq)]
pub struct Performed {
    /// The line of the wait that it reached.
    pub wait: u16,
    /// How many lines it performed, the wait included.
    pub lines: u32,
    /// All outputs after it.
    pub outputs: Vec<i32>,
    /// All variables after it.
    pub variables: Vec<i32>,
}

impl Beat {
    /// The values that the inputs had: those of a row that the board took, even if an operator
    /// refused it later. A row refused by 14 was not taken.
    pub fn taken(&self) -> Option<&[i32]> {
        match &self.result {
            Err(refusal) if refusal.number == BAD_ROW.number => None,
            _ => self.inputs.as_deref(),
        }
    }
}

/// An image that is fed rows.
pub struct Runner<'a> {
    image: Image<'a>,
    state: State,
    row: u64,
}

impl<'a> Runner<'a> {
    /// Begins in a state.
    pub fn new(image: Image<'a>, state: State) -> Runner<'a> {
        Runner {
            image,
            state,
            row: 0,
        }
    }

    /// The state behind the last row.
    pub fn state(&self) -> &State {
        &self.state
    }

    /// Runs the next row, and says how many bytes it had.
    pub fn next(&mut self, source: &mut dyn BufRead) -> Read<Option<(Beat, u64)>> {
        let Some((row, bytes)) = rows::next(source)? else {
            return Ok(None);
        };
        let inputs = row.values().map(<[i32]>::to_vec);
        let result = match &inputs {
            Some(inputs) => self.perform(inputs),
            None => Err(BAD_ROW),
        };
        let beat = Beat {
            row: self.row,
            inputs,
            result,
        };
        self.row += 1;
        Ok(Some((beat, bytes)))
    }

    fn perform(&mut self, inputs: &[i32]) -> Result<Performed, Refusal> {
        let mut outputs = vec![0; self.image.outputs()];
        let lines = self.image.cycle(&mut self.state, inputs, &mut outputs)?;
        Ok(Performed {
            wait: self.state.wait().expect("a cycle ends at a wait"),
            lines,
            outputs,
            variables: self.state.variables()[..self.image.variables()].to_vec(),
        })
    }
}

/// The beats of rows that are all at hand.
pub fn beats<'a>(
    image: Image<'a>,
    state: State,
    rows: &'a [u8],
) -> impl Iterator<Item = Beat> + 'a {
    let (mut source, mut runner) = (rows, Runner::new(image, state));
    std::iter::from_fn(move || {
        let next = runner.next(&mut source).expect("bytes at hand can be read");
        next.map(|(beat, _)| beat)
    })
}

//! State records.

use crate::raw::Record;

/// The place of a state before its first cycle.
pub const BEGINNING: i32 = 512;

/// A state record: the wait that was reached and the values of outputs and variables.
///
/// A cycle advances it; a refused one leaves it as it was. It can be kept as 49 numbers, in a file
/// say, and taken up again by [`State::from_numbers`]; a record that is none of the image is
/// refused by the cycle (15), whatever its numbers are.
///
/// ```
/// # let text = include_bytes!("../../../examples/tally/process.vhd");
/// let bytes = rabtishu::compile(text)?;
/// let image = rabtishu::Image::open(&bytes)?;
/// let mut state = image.fresh();
/// assert_eq!(state.wait(), None);
/// image.cycle(&mut state, &[7], &mut [0])?;
/// assert_eq!(state.wait(), Some(2));
/// assert_eq!(state.variables()[0], 7);
/// # Ok::<(), rabtishu::Refusal>(())
/// ```
#[derive(Clone, Debug, PartialEq, Eq, Hash)]
pub struct State {
    numbers: Record,
}

impl State {
    /// A record out of its 49 numbers: the place, 16 output slots, 32 variable slots.
    pub const fn from_numbers(numbers: Record) -> State {
        State { numbers }
    }

    /// The 49 numbers.
    pub const fn numbers(&self) -> &Record {
        &self.numbers
    }

    /// The line of the wait that was reached, or [`BEGINNING`].
    pub const fn place(&self) -> i32 {
        self.numbers[0]
    }

    /// The line of the wait that was reached; none before the first cycle, nor where the place is
    /// no line of any image.
    pub fn wait(&self) -> Option<u16> {
        (0..BEGINNING)
            .contains(&self.place())
            .then_some(self.place() as u16)
    }

    /// The 16 output slots, in declared order; unused ones are 0.
    pub fn outputs(&self) -> &[i32] {
        &self.numbers[1..17]
    }

    /// The 32 variable slots, in declared order; unused ones are 0.
    pub fn variables(&self) -> &[i32] {
        &self.numbers[17..]
    }

    pub(crate) fn record(&mut self) -> &mut Record {
        &mut self.numbers
    }
}

/// [`State::from_numbers`].
impl From<Record> for State {
    fn from(numbers: Record) -> State {
        State { numbers }
    }
}

/// The 49 numbers, to be kept.
impl From<State> for Record {
    fn from(state: State) -> Record {
        state.numbers
    }
}

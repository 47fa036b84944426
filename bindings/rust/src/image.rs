//! Images that were opened.

use core::fmt;

use crate::raw;
use crate::refusal::Refusal;
use crate::state::State;

/// The most bytes that an image has; a compile never needs a longer buffer.
pub const LONGEST_IMAGE: usize = 65_535;

/// An image whose bytes were checked, and which nobody can change while it is borrowed.
///
/// ```
/// # let text = include_bytes!("../../../examples/tally/process.vhd");
/// let bytes = rabtishu::compile(text)?;
/// let image = rabtishu::Image::open(&bytes)?;
/// let mut state = image.fresh();
/// let mut total = [0];
/// for d in [7, 7, 1] {
///     image.cycle(&mut state, &[d], &mut total)?;
/// }
/// assert_eq!(total, [14]);
/// # Ok::<(), rabtishu::Refusal>(())
/// ```
#[derive(Clone, Copy, PartialEq, Eq, Hash)]
pub struct Image<'a> {
    bytes: &'a [u8],
}

/// What a row of [`Image::cycles`] came to, in the three numbers of a single call.
#[derive(Clone, Copy, Debug, Default, PartialEq, Eq, Hash)]
#[repr(transparent)]
pub struct Row(raw::Answer);

impl Row {
    /// The number of lines performed, or why the row was refused. A row that no call has written
    /// has performed none.
    pub const fn lines(&self) -> Result<u32, Refusal> {
        Refusal::told(self.0)
    }
}

impl<'a> Image<'a> {
    /// Checks the bytes, whatever they are. Refusals 11 to 13.
    ///
    /// ```
    /// assert_eq!(rabtishu::Image::open(&[]).unwrap_err().number, 11);
    /// ```
    pub fn open(bytes: &'a [u8]) -> Result<Image<'a>, Refusal> {
        let mut answer = [0; 3];
        raw::open(bytes, &mut answer);
        Refusal::told(answer).map(|_| Image { bytes })
    }

    /// All bytes of the image.
    pub const fn bytes(&self) -> &'a [u8] {
        self.bytes
    }

    /// The form of the image (docs/FORMAT.md).
    pub fn form(&self) -> u16 {
        u16::from_le_bytes(self.field(0))
    }

    /// The signature: counts, types, initial values (docs/FORMAT.md).
    pub fn signature(&self) -> &'a [u8] {
        self.section(0)
    }

    /// The lines, 12 bytes for each statement.
    pub fn lines(&self) -> &'a [u8] {
        self.section(1)
    }

    /// The code of all lines, end to end.
    pub fn code(&self) -> &'a [u8] {
        self.section(2)
    }

    /// How many data inputs there are; the clock is none.
    pub fn inputs(&self) -> usize {
        usize::from(self.signature()[0])
    }

    /// How many outputs there are.
    pub fn outputs(&self) -> usize {
        usize::from(self.signature()[1])
    }

    /// How many variables there are.
    pub fn variables(&self) -> usize {
        usize::from(self.signature()[2])
    }

    /// The state before the first cycle: the beginning, and the initial values.
    pub fn fresh(&self) -> State {
        let (mut numbers, mut answer) = ([0; 49], [0; 3]);
        raw::fresh(self.bytes, &mut numbers, &mut answer);
        debug_assert_eq!(answer, [0; 3], "an image that opened is not refused");
        State::from_numbers(numbers)
    }

    /// One cycle: the state advances, and `outputs` gets all outputs. Answers the number of lines
    /// performed, the wait that the cycle ends on included. Refusals 14 to 16 and 18; a refused
    /// cycle changes neither state nor outputs. The image is checked in every call: for many rows
    /// [`Image::cycles`] is faster.
    pub fn cycle(
        &self,
        state: &mut State,
        inputs: &[i32],
        outputs: &mut [i32],
    ) -> Result<u32, Refusal> {
        let mut answer = [0; 3];
        raw::cycle(self.bytes, state.record(), inputs, outputs, &mut answer);
        Refusal::told(answer)
    }

    /// Many cycles, one for each element of `rows`, on inputs and outputs that stand end to end;
    /// what is left is what as many single cycles leave. A row that is refused (14 to 16, 18) says
    /// so in its element, its part of the outputs stays as it was, and the next row goes on from
    /// the state before it. Refusal of the whole call: 17, a length that is not the due of
    /// `rows.len()`, and nothing is changed.
    ///
    /// ```
    /// # let text = include_bytes!("../../../examples/tally/process.vhd");
    /// use rabtishu::{Image, Row};
    /// let bytes = rabtishu::compile(text)?;
    /// let image = Image::open(&bytes)?;
    /// let (mut state, mut totals, mut rows) = (image.fresh(), [0; 5], [Row::default(); 5]);
    /// image.cycles(&mut state, &[7, 7, 1, -5, i32::MIN], &mut totals, &mut rows)?;
    /// assert_eq!(totals[..4], [0, 0, 14, 14]);
    /// assert_eq!(rows[2].lines(), Ok(4));
    /// assert_eq!(rows[4].lines().unwrap_err().number, 16);
    /// # Ok::<(), rabtishu::Refusal>(())
    /// ```
    pub fn cycles(
        &self,
        state: &mut State,
        inputs: &[i32],
        outputs: &mut [i32],
        rows: &mut [Row],
    ) -> Result<(), Refusal> {
        let (bytes, record, count) = (self.bytes, state.record(), rows.len());
        let (answers, mut answer) = (numbers(rows), [0; 3]);
        raw::cycles(bytes, record, count, inputs, outputs, answers, &mut answer);
        Refusal::told(answer).map(|_| ())
    }

    /// A section, by the pair of offset and length that the header has for it.
    fn section(&self, index: usize) -> &'a [u8] {
        let pair = 4 + 8 * index;
        let [start, length] = [pair, pair + 4].map(|at| u32::from_le_bytes(self.field(at)));
        &self.bytes[start as usize..][..length as usize]
    }

    /// The bytes of a number of the header, which every image that opens has.
    fn field<const N: usize>(&self, at: usize) -> [u8; N] {
        *self.bytes[at..].first_chunk().expect("the header")
    }
}

/// What an image is for, since its bytes tell a reader nothing.
impl fmt::Debug for Image<'_> {
    fn fmt(&self, f: &mut fmt::Formatter<'_>) -> fmt::Result {
        f.debug_struct("Image")
            .field("form", &self.form())
            .field("inputs", &self.inputs())
            .field("outputs", &self.outputs())
            .field("variables", &self.variables())
            .field("bytes", &self.bytes.len())
            .finish()
    }
}

/// The bytes again, for what takes any bytes, such as writing a file.
impl AsRef<[u8]> for Image<'_> {
    fn as_ref(&self) -> &[u8] {
        self.bytes
    }
}

/// [`Image::open`].
impl<'a> TryFrom<&'a [u8]> for Image<'a> {
    type Error = Refusal;

    fn try_from(bytes: &'a [u8]) -> Result<Image<'a>, Refusal> {
        Image::open(bytes)
    }
}

/// The answers of rows as the numbers that the C interface writes.
fn numbers(rows: &mut [Row]) -> &mut [u32] {
    let (first, length) = (rows.as_mut_ptr().cast::<u32>(), 3 * rows.len());
    // SAFETY: a `Row` is three numbers and nothing else (`repr(transparent)` over an array), so the
    // slice covers exactly the memory of `rows`, which is borrowed alone for as long; its length
    // in numbers cannot overflow, since the slice of rows is in memory.
    unsafe { core::slice::from_raw_parts_mut(first, length) }
}

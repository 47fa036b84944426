//! A call that was not performed.

use core::error::Error;
use core::fmt;

use crate::raw::Answer;

/// Why a call was not performed, and where. Whatever was lent to the call is as it was before.
///
/// docs/REFUSALS.md of the repository explains every number, with examples and what to do.
///
/// ```
/// let refusal = rabtishu::compile(b"entity 5").unwrap_err();
/// assert_eq!((refusal.number, refusal.place), (3, 7));
/// assert_eq!(refusal.to_string(), "no sentence (refusal 3 at byte 7)");
/// ```
#[derive(Clone, Copy, Debug, PartialEq, Eq, Hash)]
pub struct Refusal {
    /// 1 to 18; the table in include/rabtishu.h.
    pub number: u32,
    /// What the refusal is about: a byte of the text (1 to 9), the bytes needed (10), a line
    /// (13, 16, 18), an index into the row (14, where 0 may also be a wrong length); else 0.
    pub place: u32,
}

impl Refusal {
    /// The refusal in a few words, as the headings of docs/REFUSALS.md have it.
    pub const fn title(&self) -> &'static str {
        match self.number {
            1 => "text too long",
            2 => "no token",
            3 => "no sentence",
            4 => "limit passed",
            5 => "wrong name",
            6 => "wrong type",
            7 => "no value",
            8 => "wrong clock",
            9 => "wrong class",
            10 => "image buffer too short",
            11 => "sections",
            12 => "signature",
            13 => "lines or code",
            14 => "row",
            15 => "state",
            16 => "out of range",
            17 => "lengths",
            18 => "zero divisor",
            _ => "unknown refusal",
        }
    }

    /// A refusal, or the count of a call that was performed.
    pub(crate) const fn told(answer: Answer) -> Result<u32, Refusal> {
        match answer {
            [0, _, count] => Ok(count),
            [number, place, _] => Err(Refusal { number, place }),
        }
    }
}

impl fmt::Display for Refusal {
    fn fmt(&self, f: &mut fmt::Formatter<'_>) -> fmt::Result {
        let Refusal { number, place } = self;
        write!(f, "{} (refusal {number}", self.title())?;
        match (number, place) {
            (2..=9, _) => write!(f, " at byte {place})"),
            (10, _) => write!(f, ", {place} bytes are needed)"),
            (13 | 16 | 18, _) => write!(f, " at line {place})"),
            (14, 0) => write!(f, ": its length or its first value)"),
            (14, _) => write!(f, " at index {place})"),
            _ => write!(f, ")"),
        }
    }
}

impl Error for Refusal {}

//! Refusals ("Turned back") and the three numbers in which every call answers.

/// A refusal: "No" and "Place" of document 01's table.
#[derive(Clone, Copy, Debug, PartialEq, Eq)]
pub struct Refusal {
    pub number: u32,
    pub place: u32,
}

/// What a call gives, or its refusal.
pub type Outcome<T> = Result<T, Refusal>;

/// The refusal with this number at this place.
pub fn refusal(number: u32, place: usize) -> Refusal {
    Refusal {
        number,
        place: place as u32,
    }
}

/// Three numbers: refusal number or 0; its place or 0; a count (image bytes written, or lines
/// performed, or 0).
pub type Answer = [u32; 3];

/// The three numbers of an outcome that has a count.
pub fn answer(outcome: Outcome<u32>) -> Answer {
    match outcome {
        Ok(count) => [0, 0, count],
        Err(refusal) => [refusal.number, refusal.place, 0],
    }
}

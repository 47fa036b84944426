//! Texts: compiling them, running them without an image, the token at a place.

#[cfg(feature = "alloc")]
use crate::image::LONGEST_IMAGE;
use crate::raw;
use crate::refusal::Refusal;
use crate::state::State;

/// The most bytes that a text may have.
pub const LONGEST_TEXT: usize = 16_384;

/// A text to its image, in a buffer of the caller's. Answers how many bytes the image has; bytes
/// behind them are not written. Refusals 1 to 10; of 10 the place is the number of bytes needed,
/// and [`LONGEST_IMAGE`](crate::LONGEST_IMAGE) are always enough.
pub fn compile_into(text: &[u8], image: &mut [u8]) -> Result<usize, Refusal> {
    let mut answer = [0; 3];
    raw::compile(text, image, &mut answer);
    Refusal::told(answer).map(|length| length as usize)
}

/// A text to its image. Refusals 1 to 9.
///
/// ```
/// let text = include_bytes!("../../../examples/tally/process.vhd");
/// assert_eq!(rabtishu::compile(text)?.len(), 134);
/// # Ok::<(), rabtishu::Refusal>(())
/// ```
#[cfg(feature = "alloc")]
pub fn compile(text: &[u8]) -> Result<alloc::vec::Vec<u8>, Refusal> {
    let mut image = alloc::vec![0; LONGEST_IMAGE];
    let length = compile_into(text, &mut image)?;
    image.truncate(length);
    // Most images are far shorter than the longest.
    image.shrink_to_fit();
    Ok(image)
}

/// Checks a text without keeping its image. Refusals 1 to 9.
pub fn check(text: &[u8]) -> Result<(), Refusal> {
    direct_fresh(text).map(|_| ())
}

/// The state of a text before its first cycle, without an image. Refusals 1 to 9.
pub fn direct_fresh(text: &[u8]) -> Result<State, Refusal> {
    let (mut numbers, mut answer) = ([0; 49], [0; 3]);
    raw::direct_fresh(text, &mut numbers, &mut answer);
    Refusal::told(answer).map(|_| State::from_numbers(numbers))
}

/// One cycle from the text, without an image; the text is read in every call. Answers as
/// [`Image::cycle`](crate::Image::cycle) does. Refusals 1 to 9, 14 to 16 and 18.
///
/// ```
/// # let text = include_bytes!("../../../examples/tally/process.vhd");
/// let mut state = rabtishu::direct_fresh(text)?;
/// let mut total = [0];
/// assert_eq!(rabtishu::direct(text, &mut state, &[7], &mut total)?, 3);
/// # Ok::<(), rabtishu::Refusal>(())
/// ```
pub fn direct(
    text: &[u8],
    state: &mut State,
    inputs: &[i32],
    outputs: &mut [i32],
) -> Result<u32, Refusal> {
    let mut answer = [0; 3];
    raw::direct(text, state.record(), inputs, outputs, &mut answer);
    Refusal::told(answer)
}

/// The token that starts at a place of the text, or an empty part where none starts: of refusals
/// 1 to 9 the token that they tell.
///
/// ```
/// assert_eq!(rabtishu::token_at(b"entity 5", 0), b"entity");
/// assert_eq!(rabtishu::token_at(b"entity 5", 6), b"");
/// ```
pub fn token_at(text: &[u8], place: usize) -> &[u8] {
    let length = raw::token_at(text, place);
    text.get(place..place + length).unwrap_or_default()
}

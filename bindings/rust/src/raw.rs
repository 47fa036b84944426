//! The C interface with slices in the place of pointers and lengths: one function for each of
//! include/rabtishu.h, with the same answer of three numbers (refusal or 0, place, count).
//!
//! Nothing is checked before a call or changed behind it. For tests, and for callers who keep
//! answers as numbers; [`Image`](crate::Image) and [`compile_into`](crate::compile_into) are built
//! on it.

/// What the proved functions ask of memory holds for every call below: slices are initialised and
/// aligned, their pointers are good for their lengths, and what is lent to be written overlaps
/// nothing, since it is borrowed alone.
mod c {
    #[rustfmt::skip]
    extern "C" {
        pub fn rabtishu_compile(text: *const u8, n: usize, image: *mut u8, room: usize, answer: *mut u32);
        pub fn rabtishu_open(image: *const u8, n: usize, answer: *mut u32);
        pub fn rabtishu_fresh(image: *const u8, n: usize, state: *mut i32, answer: *mut u32);
        pub fn rabtishu_cycle(image: *const u8, n: usize, state: *mut i32, inputs: *const i32, ni: usize,
            outputs: *mut i32, no: usize, answer: *mut u32);
        pub fn rabtishu_cycles(image: *const u8, n: usize, state: *mut i32, count: usize, inputs: *const i32, ni: usize,
            outputs: *mut i32, no: usize, answers: *mut u32, na: usize, answer: *mut u32);
        pub fn rabtishu_direct_fresh(text: *const u8, n: usize, state: *mut i32, answer: *mut u32);
        pub fn rabtishu_direct(text: *const u8, n: usize, state: *mut i32, inputs: *const i32, ni: usize,
            outputs: *mut i32, no: usize, answer: *mut u32);
        pub fn rabtishu_token_at(text: *const u8, n: usize, place: usize) -> usize;
    }
}

/// A state record: the place, 16 output slots, 32 variable slots.
pub type Record = [i32; 49];

/// The refusal's number or 0, its place or 0, a count.
pub type Answer = [u32; 3];

/// `rabtishu_compile`: refusals 1 to 10; the count is that of image bytes.
pub fn compile(text: &[u8], image: &mut [u8], answer: &mut Answer) {
    let (from, n) = (text.as_ptr(), text.len());
    let (to, room) = (image.as_mut_ptr(), image.len());
    // SAFETY: see `c`.
    unsafe { c::rabtishu_compile(from, n, to, room, answer.as_mut_ptr()) }
}

/// `rabtishu_open`: refusals 11 to 13.
pub fn open(image: &[u8], answer: &mut Answer) {
    // SAFETY: see `c`.
    unsafe { c::rabtishu_open(image.as_ptr(), image.len(), answer.as_mut_ptr()) }
}

/// `rabtishu_fresh`: refusals 11 to 13.
pub fn fresh(image: &[u8], state: &mut Record, answer: &mut Answer) {
    let (from, n, at) = (image.as_ptr(), image.len(), state.as_mut_ptr());
    // SAFETY: see `c`.
    unsafe { c::rabtishu_fresh(from, n, at, answer.as_mut_ptr()) }
}

/// `rabtishu_cycle`: refusals 11 to 16 and 18; the count is that of lines performed.
pub fn cycle(
    image: &[u8],
    state: &mut Record,
    inputs: &[i32],
    outputs: &mut [i32],
    answer: &mut Answer,
) {
    let (from, n, at) = (image.as_ptr(), image.len(), state.as_mut_ptr());
    let (read, ni) = (inputs.as_ptr(), inputs.len());
    let (to, no, own) = (outputs.as_mut_ptr(), outputs.len(), answer.as_mut_ptr());
    // SAFETY: see `c`.
    unsafe { c::rabtishu_cycle(from, n, at, read, ni, to, no, own) }
}

/// `rabtishu_cycles`: refusals 11 to 13 and 17 of the call; three numbers for each row in `answers`.
pub fn cycles(
    image: &[u8],
    state: &mut Record,
    count: usize,
    inputs: &[i32],
    outputs: &mut [i32],
    answers: &mut [u32],
    answer: &mut Answer,
) {
    let (from, n, at) = (image.as_ptr(), image.len(), state.as_mut_ptr());
    let (read, ni) = (inputs.as_ptr(), inputs.len());
    let (to, no, own) = (outputs.as_mut_ptr(), outputs.len(), answer.as_mut_ptr());
    let (told, na) = (answers.as_mut_ptr(), answers.len());
    // SAFETY: see `c`; the count is only a number.
    unsafe { c::rabtishu_cycles(from, n, at, count, read, ni, to, no, told, na, own) }
}

/// `rabtishu_direct_fresh`: refusals 1 to 9.
pub fn direct_fresh(text: &[u8], state: &mut Record, answer: &mut Answer) {
    let (from, n, at) = (text.as_ptr(), text.len(), state.as_mut_ptr());
    // SAFETY: see `c`.
    unsafe { c::rabtishu_direct_fresh(from, n, at, answer.as_mut_ptr()) }
}

/// `rabtishu_direct`: refusals 1 to 9, 14 to 16 and 18; the count is that of lines performed.
pub fn direct(
    text: &[u8],
    state: &mut Record,
    inputs: &[i32],
    outputs: &mut [i32],
    answer: &mut Answer,
) {
    let (from, n, at) = (text.as_ptr(), text.len(), state.as_mut_ptr());
    let (read, ni) = (inputs.as_ptr(), inputs.len());
    let (to, no, own) = (outputs.as_mut_ptr(), outputs.len(), answer.as_mut_ptr());
    // SAFETY: see `c`.
    unsafe { c::rabtishu_direct(from, n, at, read, ni, to, no, own) }
}

/// `rabtishu_token_at`: the length of the token that starts at a place, or 0.
pub fn token_at(text: &[u8], place: usize) -> usize {
    // SAFETY: see `c`; the place is only a number.
    unsafe { c::rabtishu_token_at(text.as_ptr(), text.len(), place) }
}

//! Many rows in one call, from the fresh state: what the benchmark times, so that the border
//! between the languages is passed once and not for every row.

use crate::answer::Outcome;
use crate::state::State;
use crate::{direct, loader, table};

/// Image or text; rows one after another; values in a row, at least 1; output row. Answers the
/// lines performed in all, and leaves the output row as the last performed row left it.
pub type Loop = fn(&[u8], &[i32], usize, &mut [i32]) -> usize;

/// Three ways to run the rows.
#[derive(Clone, Copy)]
pub struct Loops {
    /// On an image that is checked once.
    pub opened: Loop,
    /// On an image that is checked for every row.
    pub checked: Loop,
    /// From a text, read again for every row.
    pub direct: Loop,
}

/// The implementation of this library.
pub const REFERENCE: Loops = Loops {
    opened: |image, inputs, width, row| {
        let Ok(opened) = loader::open(image) else {
            return 0;
        };
        total(table::fresh(image), inputs, width, |state, values| {
            table::cycle_opened(&opened, state, values, row, |_| {})
        })
    },
    checked: |image, inputs, width, row| {
        let cycle = |state: &mut State, values: &[i32]| table::cycle(image, state, values, row);
        total(table::fresh(image), inputs, width, cycle)
    },
    direct: |text, inputs, width, row| {
        let cycle = |state: &mut State, values: &[i32]| direct::direct(text, state, values, row);
        total(direct::direct_fresh(text), inputs, width, cycle)
    },
};

/// The lines of all rows from a fresh state; "A refused cycle answers 0 lines."
fn total(
    fresh: Outcome<State>,
    inputs: &[i32],
    width: usize,
    mut cycle: impl FnMut(&mut State, &[i32]) -> Outcome<u32>,
) -> usize {
    let Ok(mut state) = fresh else {
        return 0;
    };
    let rows = inputs.chunks_exact(width);
    rows.map(|values| cycle(&mut state, values).map_or(0, |lines| lines as usize))
        .sum()
}

/// The proved crates (crates/test_bench).
#[cfg(benched)]
pub const PROVED: Loops = Loops {
    opened: |image, inputs, width, row| run(rabtishu_bench_opened, image, inputs, width, row),
    checked: |image, inputs, width, row| run(rabtishu_bench_checked, image, inputs, width, row),
    direct: |text, inputs, width, row| run(rabtishu_bench_direct, text, inputs, width, row),
};

#[cfg(benched)]
type Run = unsafe extern "C" fn(
    *const u8,
    usize,
    *const i32,
    usize,
    usize,
    usize,
    *mut i32,
    usize,
) -> usize;

#[cfg(benched)]
extern "C" {
    fn rabtishu_bench_opened(
        image: *const u8,
        n: usize,
        inputs: *const i32,
        ni: usize,
        width: usize,
        count: usize,
        row: *mut i32,
        no: usize,
    ) -> usize;
    fn rabtishu_bench_checked(
        image: *const u8,
        n: usize,
        inputs: *const i32,
        ni: usize,
        width: usize,
        count: usize,
        row: *mut i32,
        no: usize,
    ) -> usize;
    fn rabtishu_bench_direct(
        text: *const u8,
        n: usize,
        inputs: *const i32,
        ni: usize,
        width: usize,
        count: usize,
        row: *mut i32,
        no: usize,
    ) -> usize;
}

#[cfg(benched)]
fn run(run: Run, bytes: &[u8], inputs: &[i32], width: usize, row: &mut [i32]) -> usize {
    let (n, ni, no) = (bytes.len(), inputs.len(), row.len());
    let (from, read, to) = (bytes.as_ptr(), inputs.as_ptr(), row.as_mut_ptr());
    // SAFETY: the pointers and lengths are those of slices that live until the call is over.
    unsafe { run(from, n, read, ni, width, ni / width, to, no) }
}

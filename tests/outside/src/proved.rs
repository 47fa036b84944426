//! The proved crates, through their C interface (include/rabtishu.h). Every buffer that is lent
//! stands between guards, and what may not be written is compared after the call.

use crate::answer::Answer;
use crate::board::Board;
use crate::state::State;

extern "C" {
    fn rabtishu_compile(text: *const u8, n: usize, image: *mut u8, room: usize, answer: *mut u32);
    fn rabtishu_open(image: *const u8, n: usize, answer: *mut u32);
    fn rabtishu_fresh(image: *const u8, n: usize, state: *mut i32, answer: *mut u32);
    fn rabtishu_cycle(
        image: *const u8,
        n: usize,
        state: *mut i32,
        inputs: *const i32,
        ni: usize,
        outputs: *mut i32,
        no: usize,
        answer: *mut u32,
    );
    fn rabtishu_cycles(
        image: *const u8,
        n: usize,
        state: *mut i32,
        count: usize,
        inputs: *const i32,
        ni: usize,
        outputs: *mut i32,
        no: usize,
        answers: *mut u32,
        na: usize,
        answer: *mut u32,
    );
    fn rabtishu_direct_fresh(text: *const u8, n: usize, state: *mut i32, answer: *mut u32);
    fn rabtishu_direct(
        text: *const u8,
        n: usize,
        state: *mut i32,
        inputs: *const i32,
        ni: usize,
        outputs: *mut i32,
        no: usize,
        answer: *mut u32,
    );
    fn rabtishu_token_at(text: *const u8, n: usize, place: usize) -> usize;
}

/// The proved crates as a board.
pub const PROVED: Board = Board {
    name: "proved",
    compile,
    open,
    fresh,
    cycle,
    cycles,
    direct_fresh,
    direct,
    token_at,
};

/// The same without guards and copies, to be timed.
pub const PLAIN: Board = Board {
    name: "plain",
    compile: |text, image| {
        let mut answer = [0; 3];
        let (n, room) = (text.len(), image.len());
        let (from, to) = (text.as_ptr(), image.as_mut_ptr());
        // SAFETY: the pointers and lengths are those of slices that live until the call is over.
        unsafe { rabtishu_compile(from, n, to, room, answer.as_mut_ptr()) };
        answer
    },
    open: |image| {
        let mut answer = [0; 3];
        // SAFETY: as in `compile`.
        unsafe { rabtishu_open(image.as_ptr(), image.len(), answer.as_mut_ptr()) };
        answer
    },
    cycle: |image, state, inputs, outputs| plainly(rabtishu_cycle, image, state, inputs, outputs),
    cycles: |image, state, count, inputs, outputs, answers| {
        let mut answer = [0; 3];
        let (n, ni, no, na) = (image.len(), inputs.len(), outputs.len(), answers.len());
        let (from, at, read) = (image.as_ptr(), state.as_mut_ptr(), inputs.as_ptr());
        let (to, told) = (outputs.as_mut_ptr(), answers.as_mut_ptr());
        let own = answer.as_mut_ptr();
        // SAFETY: as in `compile`; the count is only a number.
        unsafe { rabtishu_cycles(from, n, at, count, read, ni, to, no, told, na, own) };
        answer
    },
    direct: |text, state, inputs, outputs| plainly(rabtishu_direct, text, state, inputs, outputs),
    ..PROVED
};

/// Many rows in one call, with NULL in the place of every slice that is empty.
pub const NULLS: Board = Board {
    name: "NULL for what is empty",
    cycles: |image, state, count, inputs, outputs, answers| {
        let mut answer = [0; 3];
        let (n, ni, no, na) = (image.len(), inputs.len(), outputs.len(), answers.len());
        let (from, read) = (pointer(image), pointer(inputs));
        let (to, told) = (pointer_mut(outputs), pointer_mut(answers));
        let (at, own) = (state.as_mut_ptr(), answer.as_mut_ptr());
        // SAFETY: as in `PLAIN`; nothing is read or written through a pointer with length 0.
        unsafe { rabtishu_cycles(from, n, at, count, read, ni, to, no, told, na, own) };
        answer
    },
    ..PROVED
};

fn pointer<T>(lent: &[T]) -> *const T {
    match lent {
        [] => std::ptr::null(),
        _ => lent.as_ptr(),
    }
}

fn pointer_mut<T>(lent: &mut [T]) -> *mut T {
    match lent {
        [] => std::ptr::null_mut(),
        _ => lent.as_mut_ptr(),
    }
}

fn plainly(
    run: Run,
    bytes: &[u8],
    state: &mut State,
    inputs: &[i32],
    outputs: &mut [i32],
) -> Answer {
    let mut answer = [0; 3];
    let (n, ni, no) = (bytes.len(), inputs.len(), outputs.len());
    let (from, at) = (bytes.as_ptr(), state.as_mut_ptr());
    let (read, to) = (inputs.as_ptr(), outputs.as_mut_ptr());
    // SAFETY: the pointers and lengths are those of slices that live until the call is over.
    unsafe { run(from, n, at, read, ni, to, no, answer.as_mut_ptr()) };
    answer
}

/// How many elements stand before and behind what is lent.
const GUARD: usize = 8;

/// A copy of a buffer between guards.
struct Guarded<T> {
    elements: Vec<T>,
    guard: T,
}

impl<T: Copy + PartialEq + std::fmt::Debug> Guarded<T> {
    fn new(lent: &[T], guard: T) -> Guarded<T> {
        let mut elements = vec![guard; GUARD];
        elements.extend_from_slice(lent);
        elements.extend(vec![guard; GUARD]);
        Guarded { elements, guard }
    }

    fn len(&self) -> usize {
        self.elements.len() - 2 * GUARD
    }

    fn lent(&self) -> &[T] {
        &self.elements[GUARD..GUARD + self.len()]
    }

    fn pointer(&mut self) -> *mut T {
        let len = self.len();
        self.elements[GUARD..GUARD + len].as_mut_ptr()
    }

    /// What was only lent to be read is as it was; no guard was written.
    fn check_read(&self, before: &[T]) {
        assert_eq!(self.lent(), before, "an input was written");
        self.check_guards();
    }

    fn check_guards(&self) {
        let (head, tail) = (
            &self.elements[..GUARD],
            &self.elements[GUARD + self.len()..],
        );
        let guards = head.iter().chain(tail);
        assert!(guards.into_iter().all(|guard| *guard == self.guard));
    }

    /// What was written goes back to the caller.
    fn give_back(&self, lent: &mut [T]) {
        self.check_guards();
        lent.copy_from_slice(self.lent());
    }
}

const BYTE: u8 = 0xc3;
const WORD: i32 = 0x3c3c_3c3c;
const ANSWER: u32 = 0x7777_7777;

/// Runs a call with room for its three numbers between guards.
fn answered(call: impl FnOnce(*mut u32)) -> Answer {
    let mut numbers = Guarded::new(&[ANSWER; 3], ANSWER);
    call(numbers.pointer());
    let mut answer = [0; 3];
    numbers.give_back(&mut answer);
    answer
}

fn compile(text: &[u8], image: &mut [u8]) -> Answer {
    let mut source = Guarded::new(text, BYTE);
    let mut buffer = Guarded::new(image, BYTE);
    let (n, room) = (source.len(), buffer.len());
    let (from, to) = (source.pointer(), buffer.pointer());
    // SAFETY: the pointers and lengths are those of buffers that live until the call is over.
    let answer = answered(|answer| unsafe { rabtishu_compile(from, n, to, room, answer) });
    source.check_read(text);
    buffer.give_back(image);
    answer
}

fn open(image: &[u8]) -> Answer {
    let mut bytes = Guarded::new(image, BYTE);
    let (n, from) = (bytes.len(), bytes.pointer());
    // SAFETY: as in `compile`.
    let answer = answered(|answer| unsafe { rabtishu_open(from, n, answer) });
    bytes.check_read(image);
    answer
}

type Start = unsafe extern "C" fn(*const u8, usize, *mut i32, *mut u32);

fn started(start: Start, bytes: &[u8], state: &mut State) -> Answer {
    let mut source = Guarded::new(bytes, BYTE);
    let mut record = Guarded::new(state.as_slice(), WORD);
    let (n, from, to) = (source.len(), source.pointer(), record.pointer());
    // SAFETY: as in `compile`; the record has 49 numbers.
    let answer = answered(|answer| unsafe { start(from, n, to, answer) });
    source.check_read(bytes);
    record.give_back(state);
    answer
}

fn fresh(image: &[u8], state: &mut State) -> Answer {
    started(rabtishu_fresh, image, state)
}

fn direct_fresh(text: &[u8], state: &mut State) -> Answer {
    started(rabtishu_direct_fresh, text, state)
}

type Run =
    unsafe extern "C" fn(*const u8, usize, *mut i32, *const i32, usize, *mut i32, usize, *mut u32);

fn ran(run: Run, bytes: &[u8], state: &mut State, inputs: &[i32], outputs: &mut [i32]) -> Answer {
    let mut source = Guarded::new(bytes, BYTE);
    let mut record = Guarded::new(state.as_slice(), WORD);
    let mut given = Guarded::new(inputs, WORD);
    let mut row = Guarded::new(outputs, WORD);
    let (n, ni, no) = (source.len(), given.len(), row.len());
    let (from, at, read, to) = (
        source.pointer(),
        record.pointer(),
        given.pointer(),
        row.pointer(),
    );
    // SAFETY: as in `compile`; the record has 49 numbers.
    let answer = answered(|answer| unsafe { run(from, n, at, read, ni, to, no, answer) });
    source.check_read(bytes);
    given.check_read(inputs);
    record.give_back(state);
    row.give_back(outputs);
    answer
}

fn cycle(image: &[u8], state: &mut State, inputs: &[i32], outputs: &mut [i32]) -> Answer {
    ran(rabtishu_cycle, image, state, inputs, outputs)
}

fn cycles(
    image: &[u8],
    state: &mut State,
    count: usize,
    inputs: &[i32],
    outputs: &mut [i32],
    answers: &mut [u32],
) -> Answer {
    let mut source = Guarded::new(image, BYTE);
    let mut record = Guarded::new(state.as_slice(), WORD);
    let mut given = Guarded::new(inputs, WORD);
    let mut rows = Guarded::new(outputs, WORD);
    let mut numbers = Guarded::new(answers, ANSWER);
    let (n, ni, no, na) = (source.len(), given.len(), rows.len(), numbers.len());
    let (from, at, read) = (source.pointer(), record.pointer(), given.pointer());
    let (to, told) = (rows.pointer(), numbers.pointer());
    // SAFETY: as in `ran`; the count is only a number.
    let answer = answered(|answer| unsafe {
        rabtishu_cycles(from, n, at, count, read, ni, to, no, told, na, answer)
    });
    source.check_read(image);
    given.check_read(inputs);
    record.give_back(state);
    rows.give_back(outputs);
    numbers.give_back(answers);
    answer
}

fn direct(text: &[u8], state: &mut State, inputs: &[i32], outputs: &mut [i32]) -> Answer {
    ran(rabtishu_direct, text, state, inputs, outputs)
}

fn token_at(text: &[u8], place: usize) -> usize {
    let mut source = Guarded::new(text, BYTE);
    let (n, from) = (source.len(), source.pointer());
    // SAFETY: as in `compile`.
    let length = unsafe { rabtishu_token_at(from, n, place) };
    source.check_read(text);
    length
}

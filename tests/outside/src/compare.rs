//! Two boards side by side, and the two runs of one board side by side. Everything that a call
//! writes is compared with what it held before: refused calls alter nothing.

use crate::answer::Answer;
use crate::board::Board;
use crate::design::Design;
use crate::direct;
use crate::encoder::WAIT;
use crate::generate::random::{rounds, Random};
use crate::generate::{images, limits, mutants, rows, states, texts};
use crate::loader::{open, Image, IMAGE};
use crate::state::{State, OUTPUTS};
use crate::table;
use crate::tree::Type;

/// What the buffers hold before a call.
const BYTE: u8 = 0x5a;
const WORD: i32 = 0x5a5a_5a5a;

/// What rows and states of an image or a text are like.
pub(crate) struct Shape {
    pub(crate) inputs: Vec<Type>,
    pub(crate) outputs: Vec<Type>,
    variables: Vec<Type>,
    waits: Vec<usize>,
    lines: usize,
}

impl Shape {
    pub(crate) fn of(image: &Image) -> Shape {
        let is_wait = |line: &usize| image.line(*line).kind == WAIT;
        Shape {
            inputs: image.inputs().collect(),
            outputs: image.outputs().map(|slot| slot.kind).collect(),
            variables: image.variables().map(|slot| slot.kind).collect(),
            waits: (0..image.count()).filter(is_wait).collect(),
            lines: image.count(),
        }
    }

    /// For images that do not open: one input, one output.
    pub(crate) fn unknown() -> Shape {
        Shape {
            inputs: vec![Type::Integer],
            outputs: vec![Type::Integer],
            variables: Vec::new(),
            waits: vec![0],
            lines: 512,
        }
    }

    pub(crate) fn state(&self, random: &mut Random) -> State {
        let state = states::good(&self.outputs, &self.variables, &self.waits, random);
        if random.chance(30) {
            return states::damaged(&state, random);
        }
        state
    }
}

/// A call of cycle or direct: its answer, and what it left in state and output row.
#[derive(Debug, PartialEq, Eq)]
struct Called {
    answer: Answer,
    state: State,
    outputs: Vec<i32>,
}

type Cycle = fn(&[u8], &mut State, &[i32], &mut [i32]) -> Answer;

fn call(cycle: Cycle, bytes: &[u8], state: &State, inputs: &[i32], room: usize) -> Called {
    let mut called = Called {
        answer: [0; 3],
        state: *state,
        outputs: vec![WORD; room],
    };
    called.answer = cycle(bytes, &mut called.state, inputs, &mut called.outputs);
    called
}

/// What holds of every call: a refused one alters nothing and answers 0 lines; a performed one
/// hands out the state's outputs and has performed 1 to as many lines as there are.
fn check_call(called: &Called, before: &State, lines: usize) {
    let [number, place, count] = called.answer;
    if number != 0 {
        assert_eq!(count, 0, "a refused cycle answers 0 lines");
        assert_eq!(&called.state, before, "a refused cycle keeps the state");
        assert!(called.outputs.iter().all(|value| *value == WORD));
        return;
    }
    assert_eq!(place, 0);
    assert!((1..=lines).contains(&(count as usize)), "{count} lines");
    let slots = &called.state[OUTPUTS..OUTPUTS + called.outputs.len()];
    assert_eq!(called.outputs, slots, "the row has the outputs");
}

/// The image of an accepted text; panics if the text is refused.
pub fn compiled(board: &Board, text: &[u8]) -> Vec<u8> {
    let mut buffer = vec![BYTE; IMAGE];
    let answer = (board.compile)(text, &mut buffer);
    let shown = String::from_utf8_lossy(text);
    assert_eq!(answer[..2], [0, 0], "a text that must be accepted: {shown}");
    let (image, rest) = buffer.split_at(answer[2] as usize);
    assert!(rest.iter().all(|byte| *byte == BYTE), "only its own bytes");
    image.to_vec()
}

/// Demand 3 on one board: from the fresh states on, call by call, the table's cycle does what the
/// direct run does. Every few calls both go on from another state, good or damaged. Answers how
/// many calls were performed, and refused by 14, 15, 16 and 18.
pub fn table_is_direct(
    board: &Board,
    text: &[u8],
    calls: usize,
    random: &mut Random,
) -> [usize; 5] {
    let mut counts = [0; 5];
    let image = compiled(board, text);
    let shown = || String::from_utf8_lossy(text).to_string();
    assert_eq!((board.open)(&image), [0, 0, 0], "a compiled image opens");
    let opened = open(&image).expect("a compiled image opens");
    let shape = Shape::of(&opened);
    let mut state = [WORD; 49];
    let mut direct = [WORD; 49];
    assert_eq!((board.fresh)(&image, &mut state), [0, 0, 0]);
    assert_eq!((board.direct_fresh)(text, &mut direct), [0, 0, 0]);
    assert_eq!(state, direct, "the fresh state of {}", shown());
    for number in 0..calls {
        let from = match number {
            0 => state,
            _ if random.chance(12) => shape.state(random),
            _ => state,
        };
        let inputs = rows::any(&shape.inputs, random);
        let room = rows::room(shape.outputs.len(), random);
        let by_table = call(board.cycle, &image, &from, &inputs, room);
        let by_text = call(board.direct, text, &from, &inputs, room);
        assert_eq!(by_table, by_text, "call {number}, {inputs:?}: {}", shown());
        check_call(&by_table, &from, shape.lines);
        counts[match by_table.answer[0] {
            0 => 0,
            18 => 4,
            number => number as usize - 13,
        }] += 1;
        if by_table.answer[0] != 15 {
            state = by_table.state;
        }
    }
    counts
}

/// The way itself, on the reference: the table's lines are the equations' statements, none of them
/// twice. Answers the length of the longest way.
pub fn ways_are_equal(design: &Design, image: &[u8], calls: usize, random: &mut Random) -> usize {
    let mut longest = 0;
    let image = open(image).expect("a compiled image opens");
    let shape = Shape::of(&image);
    let mut state = direct::fresh(design);
    for _ in 0..calls {
        let inputs = rows::good(&shape.inputs, random);
        let mut outputs = vec![WORD; shape.outputs.len()];
        let mut after = state;
        let mut lines = Vec::new();
        let visit = |line| lines.push(line);
        let count = table::cycle_opened(&image, &mut after, &inputs, &mut outputs, visit);
        let way = direct::cycle(design, &mut state, &inputs, &mut outputs);
        assert_eq!(
            count,
            way.as_ref().map(|way| way.len() as u32).map_err(|r| *r)
        );
        assert_eq!(state, after);
        if let Ok(mut way) = way {
            assert_eq!(way, lines);
            way.sort_unstable();
            way.dedup();
            assert_eq!(way.len(), lines.len(), "a line twice on a way");
            longest = longest.max(lines.len());
        }
    }
    longest
}

/// Two boards on one text: compile into several buffers, tokens, direct runs.
pub fn same_on_text(one: &Board, other: &Board, text: &[u8], random: &mut Random) {
    let names = format!("{} and {}", one.name, other.name);
    let shown = || format!("{names}: {}", String::from_utf8_lossy(text));
    let mut image = vec![BYTE; IMAGE];
    let answer = (one.compile)(text, &mut image);
    let needed = answer[2] as usize;
    for room in [IMAGE, needed, needed.saturating_sub(1), random.below(64)] {
        let mut first = vec![BYTE; room];
        let mut second = vec![BYTE; room];
        let answer = (one.compile)(text, &mut first);
        assert_eq!(answer, (other.compile)(text, &mut second), "{}", shown());
        assert_eq!(first, second, "image of {}", shown());
        let written = if answer[0] == 0 { needed } else { 0 };
        assert!(first[written..].iter().all(|byte| *byte == BYTE));
    }
    for _ in 0..4 {
        let place = random.below(text.len() + 3);
        let length = (one.token_at)(text, place);
        assert_eq!(length, (other.token_at)(text, place), "{}", shown());
    }
    let place = answer[1] as usize;
    assert_eq!((one.token_at)(text, place), (other.token_at)(text, place));
    let mut first = [WORD; 49];
    let mut second = [WORD; 49];
    let fresh = (one.direct_fresh)(text, &mut first);
    assert_eq!(
        fresh,
        (other.direct_fresh)(text, &mut second),
        "{}",
        shown()
    );
    assert_eq!(first, second, "fresh state of {}", shown());
    let opened = open(&image[..needed]);
    let shape = opened.as_ref().map_or_else(|_| Shape::unknown(), Shape::of);
    for number in 0..6 {
        let state = if number < 2 {
            first
        } else {
            shape.state(random)
        };
        let inputs = rows::any(&shape.inputs, random);
        let room = rows::room(shape.outputs.len(), random);
        let by_one = call(one.direct, text, &state, &inputs, room);
        let by_other = call(other.direct, text, &state, &inputs, room);
        assert_eq!(by_one, by_other, "{}", shown());
        check_call(&by_one, &state, shape.lines);
    }
}

/// Two boards on one image: open, fresh, cycles.
pub fn same_on_image(one: &Board, other: &Board, image: &[u8], random: &mut Random) {
    let answer = (one.open)(image);
    assert_eq!(answer, (other.open)(image), "open of {image:?}");
    let mut first = [WORD; 49];
    let mut second = [WORD; 49];
    let fresh = (one.fresh)(image, &mut first);
    assert_eq!(fresh, answer, "fresh refuses as open does");
    assert_eq!(fresh, (other.fresh)(image, &mut second));
    assert_eq!(first, second, "fresh state of {image:?}");
    let opened = open(image);
    let shape = opened.as_ref().map_or_else(|_| Shape::unknown(), Shape::of);
    let mut state = first;
    for number in 0..8 {
        if number > 4 {
            state = shape.state(random);
        }
        let inputs = rows::any(&shape.inputs, random);
        let room = rows::room(shape.outputs.len(), random);
        let by_one = call(one.cycle, image, &state, &inputs, room);
        let by_other = call(other.cycle, image, &state, &inputs, room);
        assert_eq!(by_one, by_other, "{image:?}");
        check_call(&by_one, &state, shape.lines);
        if answer[0] != 0 {
            assert_eq!(by_one.answer, answer, "a cycle refuses as open does");
        }
        state = by_one.state;
    }
}

/// Two boards on all kinds of random inputs, and table against direct run on the second: what a
/// further implementation has to pass beside the frozen cases and `batches::everything`.
pub fn everything(one: &Board, other: &Board, seed: u64) {
    for round in 0..rounds(300) {
        let mut random = Random::round(seed, round);
        let text = texts::accepted(&mut random);
        same_on_text(one, other, &text, &mut random);
        table_is_direct(other, &text, 12, &mut random);
        let image = compiled(one, &text);
        same_on_image(one, other, &image, &mut random);
        let image = images::damaged(&image, &mut random);
        same_on_image(one, other, &image, &mut random);
        let image = images::good(&mut random);
        same_on_image(one, other, &image, &mut random);
        let image = images::damaged(&image, &mut random);
        same_on_image(one, other, &image, &mut random);
        for _ in 0..4 {
            let text = mutants::mutant(&mut random);
            same_on_text(one, other, &text, &mut random);
        }
        let text = mutants::noise(&mut random);
        same_on_text(one, other, &text, &mut random);
    }
    let mut random = Random::new(seed);
    for length in [65_534, 65_535, 65_536] {
        same_on_image(one, other, &images::of_length(length), &mut random);
    }
    for case in limits::limit_texts() {
        same_on_text(one, other, &case.text, &mut random);
        if case.refusal.is_none() {
            table_is_direct(other, &case.text, 12, &mut random);
        }
    }
}

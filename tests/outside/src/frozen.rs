//! The frozen cases of `data`, in the form that its README describes, and what a board must answer
//! to them.

use crate::answer::{refusal, Answer, Refusal};
use crate::batches::{self, Batch, Left};
use crate::board::Board;
use crate::state::{State, OUTPUTS, VARIABLES};

/// One row of a text's run: the inputs, and the state with the line count or the refusal.
pub struct Step {
    pub inputs: Vec<i32>,
    pub outcome: Result<(State, u32), Refusal>,
}

/// A text, the length of the buffer lent to compile, and what comes of it.
pub struct TextCase {
    pub label: String,
    pub text: Vec<u8>,
    pub room: usize,
    pub image: Result<Vec<u8>, Refusal>,
    /// The token at the place, for refusals 1 to 9.
    pub token: Vec<u8>,
    pub rows: Vec<u8>,
    pub trace: String,
    pub steps: Vec<Step>,
}

/// An image, a cycle on it, and what comes of both.
pub struct ImageCase {
    pub label: String,
    pub image: Vec<u8>,
    /// Start and end of signature, lines and code.
    pub opened: Result<Vec<usize>, Refusal>,
    pub state: State,
    pub inputs: Vec<i32>,
    pub room: usize,
    pub outcome: Result<(State, u32), Refusal>,
    pub outputs: Vec<i32>,
}

/// Many rows in one call, and what the call leaves.
pub struct BatchCase {
    pub label: String,
    pub batch: Batch,
    pub outcome: Result<Written, Refusal>,
}

/// What a call for many rows leaves where it is taken.
pub struct Written {
    pub state: State,
    /// Nothing where a number stays the caller's.
    pub outputs: Vec<Option<i32>>,
    pub answers: Vec<u32>,
}

/// The cases of `data/texts.txt`.
pub fn texts() -> Vec<TextCase> {
    let cases = blocks(include_str!("../data/texts.txt"));
    cases.iter().map(|block| text_case(block)).collect()
}

/// The cases of `data/images.txt`.
pub fn images() -> Vec<ImageCase> {
    let cases = blocks(include_str!("../data/images.txt"));
    cases.iter().map(|block| image_case(block)).collect()
}

/// The cases of `data/request_texts.txt`: apart from `texts`, whose cases the program test_vectors has.
pub fn request_texts() -> Vec<TextCase> {
    let cases = blocks(include_str!("../data/request_texts.txt"));
    cases.iter().map(|block| text_case(block)).collect()
}

/// The cases of `data/request_images.txt`.
pub fn request_images() -> Vec<ImageCase> {
    let cases = blocks(include_str!("../data/request_images.txt"));
    cases.iter().map(|block| image_case(block)).collect()
}

/// The cases of `data/batches.txt`.
pub fn batches() -> Vec<BatchCase> {
    let cases = blocks(include_str!("../data/batches.txt"));
    cases.iter().map(|block| batch_case(block)).collect()
}

/// Cases are parted by empty lines; a line is a keyword and its value.
type Block<'a> = Vec<(&'a str, &'a str)>;

fn blocks(data: &str) -> Vec<Block<'_>> {
    data.trim_end()
        .split("\n\n")
        .map(|block| block.lines().map(keyword).collect())
        .collect()
}

fn keyword(line: &str) -> (&str, &str) {
    line.split_once(' ').unwrap_or((line, ""))
}

/// The value of a keyword that stands at most once.
fn value<'a>(block: &Block<'a>, key: &str) -> Option<&'a str> {
    let found = block.iter().find(|(keyword, _)| *keyword == key);
    found.map(|(_, value)| *value)
}

fn text_case(block: &Block) -> TextCase {
    let part = |key| value(block, key).unwrap_or("");
    let steps = block.iter().filter(|(key, _)| *key == "step");
    TextCase {
        label: part("case").to_string(),
        text: bytes(part("text")),
        room: number(part("room")),
        image: match value(block, "refused") {
            Some(refused) => Err(refused_as(refused)),
            None => Ok(hexadecimal(part("image"))),
        },
        token: bytes(part("token")),
        rows: bytes(part("rows")),
        trace: String::from_utf8(bytes(part("trace"))).expect("a trace is ASCII"),
        steps: steps.map(|(_, step)| self::step(step)).collect(),
    }
}

fn step(step: &str) -> Step {
    let (inputs, outcome) = step.split_once(':').expect("a step has a row");
    Step {
        inputs: numbers(inputs),
        outcome: self::outcome(outcome),
    }
}

fn image_case(block: &Block) -> ImageCase {
    let part = |key| value(block, key).unwrap_or("");
    ImageCase {
        label: part("case").to_string(),
        image: hexadecimal(part("image")),
        opened: match value(block, "refused") {
            Some(refused) => Err(refused_as(refused)),
            None => Ok(part("sections").split(' ').map(number).collect()),
        },
        state: state(part("state")),
        inputs: numbers(part("row")),
        room: number(part("room")),
        outcome: outcome(part("cycle")),
        outputs: numbers(part("outputs")),
    }
}

fn batch_case(block: &Block) -> BatchCase {
    let part = |key| value(block, key).unwrap_or("");
    let (outputs, answers) = part("rooms").split_once(' ').expect("two lengths");
    BatchCase {
        label: part("case").to_string(),
        batch: Batch {
            image: hexadecimal(part("image")),
            state: state(part("state")),
            count: number(part("count")),
            inputs: numbers(part("inputs")),
            outputs: number(outputs),
            answers: number(answers),
        },
        outcome: match value(block, "refused") {
            Some(refused) => Err(refused_as(refused)),
            None => Ok(Written {
                state: state(part("after")),
                outputs: part("outputs").split_whitespace().map(written).collect(),
                answers: numbers(part("answers")).iter().map(|n| *n as u32).collect(),
            }),
        },
    }
}

/// A number that a call writes; `_` is one that stays the caller's.
fn written(text: &str) -> Option<i32> {
    (text != "_").then(|| text.parse().expect("a number"))
}

/// `refused number place`, or `place lines : outputs : variables`.
fn outcome(text: &str) -> Result<(State, u32), Refusal> {
    let text = text.trim();
    if let Some(refused) = text.strip_prefix("refused ") {
        return Err(refused_as(refused));
    }
    let (place, slots) = text.split_once(':').expect("an outcome has slots");
    let (place, lines) = place.trim().split_once(' ').expect("a place and lines");
    Ok((state(&format!("{place} : {slots}")), number(lines) as u32))
}

/// `place : outputs : variables`, the last slots left out if they are 0.
fn state(text: &str) -> State {
    let parts: Vec<Vec<i32>> = text.split(':').map(numbers).collect();
    let mut state = [0; 49];
    state[0] = parts[0][0];
    for (start, values) in [(OUTPUTS, &parts[1]), (VARIABLES, &parts[2])] {
        state[start..start + values.len()].copy_from_slice(values);
    }
    state
}

fn refused_as(text: &str) -> Refusal {
    let (number, place) = text.split_once(' ').expect("a number and a place");
    refusal(self::number(number) as u32, self::number(place))
}

fn number(text: &str) -> usize {
    text.parse().expect("a number")
}

fn numbers(text: &str) -> Vec<i32> {
    let parts = text.split_whitespace();
    parts.map(|part| part.parse().expect("a number")).collect()
}

/// Bytes as text: `\n`, `\t`, `\r`, `\\`, `\x` and two hexadecimal digits; `\[N]` repeats what
/// follows N times.
fn bytes(text: &str) -> Vec<u8> {
    let mut bytes = Vec::new();
    let mut rest = text;
    while !rest.is_empty() {
        let mut times = 1;
        if let Some(run) = rest.strip_prefix("\\[") {
            let (count, after) = run.split_once(']').expect("a run has an end");
            times = number(count);
            rest = after;
        }
        let (byte, length) = match rest.as_bytes() {
            [b'\\', b'n', ..] => (b'\n', 2),
            [b'\\', b't', ..] => (b'\t', 2),
            [b'\\', b'r', ..] => (b'\r', 2),
            [b'\\', b'x', ..] => (hexadecimal(&rest[2..4])[0], 4),
            [b'\\', ..] => (b'\\', 2),
            [byte, ..] => (*byte, 1),
            [] => break,
        };
        bytes.extend(std::iter::repeat_n(byte, times));
        rest = &rest[length..];
    }
    bytes
}

/// Bytes in hexadecimal; `[N]` repeats the next byte N times.
fn hexadecimal(text: &str) -> Vec<u8> {
    let mut bytes = Vec::new();
    let mut rest = text;
    while !rest.is_empty() {
        let mut times = 1;
        if let Some(run) = rest.strip_prefix('[') {
            let (count, after) = run.split_once(']').expect("a run has an end");
            times = number(count);
            rest = after;
        }
        let byte = u8::from_str_radix(&rest[..2], 16).expect("a byte");
        bytes.extend(std::iter::repeat_n(byte, times));
        rest = &rest[2..];
    }
    bytes
}

fn refused(refusal: Refusal) -> Answer {
    [refusal.number, refusal.place, 0]
}

/// What the buffers hold before a call.
const BYTE: u8 = 0xa5;
const WORD: i32 = -23_131;

/// Holds a board against a text; panics where it differs.
pub fn check_text(board: &Board, case: &TextCase) {
    let TextCase { label, text, .. } = case;
    let mut buffer = vec![BYTE; case.room];
    let answer = (board.compile)(text, &mut buffer);
    let image = match &case.image {
        Err(refusal) => {
            assert_eq!(answer, refused(*refusal), "compile of {label}");
            assert!(buffer.iter().all(|byte| *byte == BYTE), "buffer of {label}");
            if refusal.number <= 9 {
                check_refused_text(board, case, *refusal);
            }
            return;
        }
        Ok(image) => image,
    };
    assert_eq!(answer, [0, 0, image.len() as u32], "compile of {label}");
    let (written, rest) = buffer.split_at(image.len());
    assert_eq!(written, image, "image of {label}");
    assert!(rest.iter().all(|byte| *byte == BYTE), "buffer of {label}");
    assert_eq!((board.open)(image), [0, 0, 0], "open of {label}");
    check_steps(board, case, image);
}

fn check_refused_text(board: &Board, case: &TextCase, refusal: Refusal) {
    let TextCase { label, text, .. } = case;
    let length = (board.token_at)(text, refusal.place as usize);
    assert_eq!(length, case.token.len(), "token of {label}");
    let mut state = [WORD; 49];
    let answer = (board.direct_fresh)(text, &mut state);
    assert_eq!(answer, refused(refusal), "fresh state of {label}");
    let mut outputs = [WORD; 2];
    let answer = (board.direct)(text, &mut state, &[], &mut outputs);
    assert_eq!(answer, refused(refusal), "direct run of {label}");
    assert_eq!((state, outputs), ([WORD; 49], [WORD; 2]), "{label}");
}

fn check_steps(board: &Board, case: &TextCase, image: &[u8]) {
    let TextCase { label, text, .. } = case;
    let mut by_table = [WORD; 49];
    let mut by_text = [WORD; 49];
    assert_eq!((board.fresh)(image, &mut by_table), [0, 0, 0], "{label}");
    let answer = (board.direct_fresh)(text, &mut by_text);
    assert_eq!(answer, [0, 0, 0], "{label}");
    assert_eq!(by_table, by_text, "fresh state of {label}");
    let count = usize::from(image[29]);
    for (number, step) in case.steps.iter().enumerate() {
        let before = by_table;
        let mut outputs = vec![WORD; count];
        let mut direct = vec![WORD; count];
        let answer = (board.cycle)(image, &mut by_table, &step.inputs, &mut outputs);
        let same = (board.direct)(text, &mut by_text, &step.inputs, &mut direct);
        let (state, row, expected) = match step.outcome {
            Err(refusal) => (before, vec![WORD; count], refused(refusal)),
            Ok((state, lines)) => {
                let row = state[OUTPUTS..OUTPUTS + count].to_vec();
                (state, row, [0, 0, lines])
            }
        };
        assert_eq!(answer, expected, "row {number} of {label}");
        assert_eq!(same, expected, "row {number} of {label}, directly");
        assert_eq!(by_table, state, "row {number} of {label}");
        assert_eq!(by_text, state, "row {number} of {label}, directly");
        assert_eq!(outputs, row, "row {number} of {label}");
        assert_eq!(direct, row, "row {number} of {label}, directly");
    }
}

/// Holds a board against an image and a cycle on it; panics where it differs.
pub fn check_image(board: &Board, case: &ImageCase) {
    let ImageCase { label, image, .. } = case;
    let opened = case.opened.as_ref().map(|_| ()).map_err(|r| *r);
    let expected = opened.map_or_else(refused, |()| [0, 0, 0]);
    assert_eq!((board.open)(image), expected, "open of {label}");
    let mut state = [WORD; 49];
    assert_eq!((board.fresh)(image, &mut state), expected, "{label}");
    assert_eq!(opened.is_err(), state == [WORD; 49], "fresh of {label}");
    let mut state = case.state;
    let mut outputs = vec![WORD; case.room];
    let answer = (board.cycle)(image, &mut state, &case.inputs, &mut outputs);
    match case.outcome {
        Err(refusal) => {
            assert_eq!(answer, refused(refusal), "cycle of {label}");
            assert_eq!(state, case.state, "state of {label}");
            assert_eq!(outputs, vec![WORD; case.room], "outputs of {label}");
        }
        Ok((after, lines)) => {
            assert_eq!(answer, [0, 0, lines], "cycle of {label}");
            assert_eq!(state, after, "state of {label}");
            assert_eq!(outputs, case.outputs, "outputs of {label}");
        }
    }
}

/// Holds a board against many rows in one call; panics where it differs.
pub fn check_batch(board: &Board, case: &BatchCase) {
    let BatchCase { label, batch, .. } = case;
    let expected = match &case.outcome {
        Err(refusal) => Left {
            answer: refused(*refusal),
            ..batch.lent()
        },
        Ok(written) => Left {
            answer: [0, 0, 0],
            state: written.state,
            outputs: written
                .outputs
                .iter()
                .map(|n| n.unwrap_or(batches::WORD))
                .collect(),
            answers: written.answers.clone(),
        },
    };
    assert_eq!(batches::run(board, batch), expected, "{label}");
}

//! A board held to the operators of change request 2: each on all pairs of edges by IEEE 1076's own
//! sentences, and expressions of them beside this implementation.

use crate::batches::{check, Batch};
use crate::board::{Board, REFERENCE};
use crate::compare::compiled;
use crate::generate::arithmetic::{expression_text, operator_text, pairs, row, Tree, OPERATORS};
use crate::generate::random::Random;
use crate::state::State;

/// What the output row holds before a call.
const WORD: i32 = 0x6b6b_6b6b;

/// Every operator on all pairs of edges, by the table, by the direct run and in one call. Answers how
/// many rows were performed, and refused by 16 and 18.
pub fn edges(board: &Board) -> [usize; 3] {
    let mut counts = [0; 3];
    for operator in OPERATORS {
        let text = operator_text(operator);
        let image = compiled(board, &text);
        let mut state = [0; 49];
        assert_eq!((board.fresh)(&image, &mut state), [0; 3]);
        let first = state;
        let mut rows = Vec::new();
        for pair in pairs() {
            let inputs = [pair[0], pair[1], 0];
            let label = format!("{}: {} {operator} {}", board.name, pair[0], pair[1]);
            let answer = both(board, &text, &image, &mut state, &inputs, &label);
            counts[judged(operator, [pair[0], pair[1]], answer, &state, &label)] += 1;
            rows.extend(inputs);
        }
        let left = check(board, &Batch::due(&image, &first, pairs().len(), rows));
        assert_eq!(left.state, state, "{}: {operator} in one call", board.name);
    }
    counts
}

/// A row by the table and by the direct run, from one state, which goes on.
fn both(
    board: &Board,
    text: &[u8],
    image: &[u8],
    state: &mut State,
    inputs: &[i32],
    label: &str,
) -> [u32; 3] {
    let before = *state;
    let mut by_text = before;
    let (mut outputs, mut direct) = ([WORD; 2], [WORD; 2]);
    let answer = (board.cycle)(image, state, inputs, &mut outputs);
    let same = (board.direct)(text, &mut by_text, inputs, &mut direct);
    assert_eq!(answer, same, "{label}, by table and by text");
    assert_eq!(*state, by_text, "{label}, state by table and by text");
    assert_eq!(outputs, direct, "{label}, outputs by table and by text");
    let expected = match answer[0] {
        0 => [state[1], state[2]],
        _ => [WORD; 2],
    };
    assert_eq!(outputs, expected, "{label}, outputs");
    assert!(answer[0] == 0 || *state == before, "{label}, a refused row");
    answer
}

/// Whether the answer on a pair is what the sentences ask for. Answers 0, 1 and 2 for a performed
/// row, for 16 and for 18.
fn judged(operator: &str, [x, y]: [i32; 2], answer: [u32; 3], state: &State, label: &str) -> usize {
    let (a, b) = (i128::from(x), i128::from(y));
    let outside = match operator {
        "*" => i32::try_from(a * b).is_err(),
        "/" => (x, y) == (i32::MIN, -1),
        _ => false,
    };
    if operator != "*" && y == 0 {
        assert_eq!(answer, [18, 1, 0], "{label}");
        return 2;
    }
    if outside {
        assert_eq!(answer, [16, 1, 0], "{label}");
        return 1;
    }
    assert_eq!(answer, [0, 0, 3], "{label}");
    assert_eq!(state[..2], [2, x], "{label}");
    let result = i128::from(state[2]);
    assert!(is_result(operator, a, b, result), "{label} is {result}");
    0
}

/// IEEE 1076, 7.2.6: A = (A / B) * B + (A rem B), where A rem B has the sign of A and is nearer to 0
/// than B; A mod B has the sign of B, is nearer to 0 than B, and A = B * N + (A mod B) for some N.
fn is_result(operator: &str, a: i128, b: i128, result: i128) -> bool {
    let near = |rest: i128| rest.abs() < b.abs();
    let signed = |rest: i128, by: i128| rest == 0 || rest.signum() == by.signum();
    let by_some_multiple = (a - result).checked_rem(b) == Some(0);
    match operator {
        "*" => result == a * b,
        "/" => near(a - result * b) && signed(a - result * b, a),
        "mod" => by_some_multiple && near(result) && signed(result, b),
        _ => by_some_multiple && near(result) && signed(result, a),
    }
}

/// Random expressions of the operators: written with the fewest parentheses they have the image that
/// they have with all, and that of this implementation; and their rows end as in it. Answers how many
/// rows were performed, and refused by 16 and 18.
pub fn expressions(board: &Board, rounds: usize, seed: u64) -> [usize; 3] {
    let mut counts = [0; 3];
    for round in 0..rounds {
        let mut random = Random::round(seed, round);
        let trees = [0, 1].map(|_| Tree::random(random.between(1, 3), &mut random));
        let [first, second] = trees.each_ref().map(Tree::least);
        let text = expression_text(&first, &second);
        let full = expression_text(&trees[0].full(), &trees[1].full());
        let image = compiled(board, &text);
        assert_eq!(image, compiled(board, &full), "{first}; {second}");
        assert_eq!(image, compiled(&REFERENCE, &text), "{first}; {second}");
        let mut state = [0; 49];
        assert_eq!((board.fresh)(&image, &mut state), [0; 3]);
        let mut due = state;
        for _ in 0..12 {
            let inputs = row(&mut random);
            let label = format!("{}: {first}; {second} on {inputs:?}", board.name);
            let answer = both(board, &text, &image, &mut state, &inputs, &label);
            let model = (REFERENCE.direct)(&text, &mut due, &inputs, &mut [0; 2]);
            assert_eq!((answer, state), (model, due), "{label}");
            counts[match answer[0] {
                0 => 0,
                16 => 1,
                _ => 2,
            }] += 1;
        }
    }
    counts
}

//! Many rows in one call equal the same rows given singly: the row lists of all cases and random
//! ones, from fresh, other and wrong states, for every board at hand.

use reference::batches::{check, everything, fresh, widths, Batch, NUMBER, WORD};
use reference::board::{boards, REFERENCE};
use reference::compare::compiled;
use reference::frozen::{batches, check_batch, request_texts, texts};
use reference::generate::random::{rounds, seed, Random};
use reference::generate::{batches as random_batches, rows, vectors};
use reference::loader::open;
use reference::vectors::cases;

const TALLY: &[u8] = include_bytes!("../../../examples/tally/process.vhd");
const GCD: &[u8] = include_bytes!("../../../examples/gcd/process.vhd");

#[test]
fn frozen_batches() {
    for board in boards() {
        for case in batches() {
            check_batch(&board, &case);
            check(&board, &case.batch);
        }
    }
}

/// "tally's six rows": document 01's trace, the refused row with its part of the outputs as lent.
#[test]
fn the_trace_of_tally() {
    let image = compiled(&REFERENCE, TALLY);
    let rows = vec![7, 7, 1, -5, i32::MIN, 20];
    let batch = Batch::due(&image, &fresh(&image), 6, rows);
    for board in boards() {
        let left = check(&board, &batch);
        assert_eq!(left.answer, [0, 0, 0]);
        assert_eq!(left.outputs, [0, 0, 14, 14, WORD, 14]);
        let answers = [0, 0, 3, 0, 0, 3, 0, 0, 4, 0, 0, 3, 16, 1, 0, 0, 0, 3];
        assert_eq!(left.answers, answers);
        assert_eq!((left.state[0], left.state[1], left.state[17]), (2, 14, 15));
    }
}

/// Rows of right lengths from the fresh state; then from random states, of which some are wrong,
/// and from places that no image has.
fn from_all_states(image: &[u8], list: &[Vec<i32>], random: &mut Random) -> usize {
    let [width, _] = widths(image);
    let right: Vec<&Vec<i32>> = list.iter().filter(|row| row.len() == width).collect();
    let inputs = right.iter().flat_map(|row| row.iter().copied()).collect();
    let batch = Batch::due(image, &fresh(image), right.len(), inputs);
    let mut wrong = batch.state;
    wrong[0] = 70_000;
    let others = [
        random_batches::state(image, random),
        random_batches::state(image, random),
        wrong,
    ];
    for board in boards() {
        check(&board, &batch);
        for state in &others {
            check(&board, &batch.from(state));
        }
    }
    right.len()
}

#[test]
fn every_row_list_of_the_vectors() {
    let mut random = Random::new(seed());
    let (mut lists, mut sum) = (0, 0);
    for (_, bytes) in vectors::files() {
        for case in cases(&bytes) {
            let mut image = vec![0; 65_535];
            let answer = (REFERENCE.compile)(&case.text, &mut image);
            if answer[0] != 0 {
                continue;
            }
            image.truncate(answer[2] as usize);
            let list: Vec<Vec<i32>> = case.rows.into_iter().map(|row| row.inputs).collect();
            sum += from_all_states(&image, &list, &mut random);
            lists += 1;
        }
    }
    println!("{lists} row lists, {sum} rows");
    assert!(lists > 100 && sum > 1000);
}

#[test]
fn every_row_list_of_the_frozen_texts() {
    let mut random = Random::new(seed());
    for case in texts().into_iter().chain(request_texts()) {
        let Ok(image) = case.image else { continue };
        let list: Vec<Vec<i32>> = case.steps.into_iter().map(|step| step.inputs).collect();
        from_all_states(&image, &list, &mut random);
    }
}

#[test]
fn random_batches() {
    let seed = seed();
    for board in boards() {
        let counts = everything(&board, rounds(1500), seed);
        println!("taken, then refused by 11, 12, 13, 17: {counts:?}");
        assert!(counts.iter().all(|count| *count > 0) || rounds(100) < 100);
    }
}

/// A state of 513 or 70,000 is no place: every row is refused by 15, and the record stays.
#[test]
fn a_wrong_place_stays_the_callers() {
    let image = compiled(&REFERENCE, TALLY);
    for place in [513, 70_000, 1, -1, 65_536 + 512, i32::MIN, i32::MAX] {
        let mut state = fresh(&image);
        state[0] = place;
        for board in boards() {
            let left = check(&board, &Batch::due(&image, &state, 3, vec![1, 2, 3]));
            assert_eq!((left.answer, left.state), ([0, 0, 0], state));
            assert_eq!(left.answers, [15, 0, 0, 15, 0, 0, 15, 0, 0]);
            assert_eq!(left.outputs, [WORD; 3]);
        }
    }
}

/// The third of five rows has 2 for a std_logic: 14 at its index in the row, the others performed;
/// from a wrong state, that row meets 14 and the others 15.
#[test]
fn a_value_that_no_std_logic_has() {
    let text = b"entity e is port ( clk : in std_logic ; a , b : in integer ; c : in std_logic ; \
                 q : out integer := 5 ; r : out std_logic := '0' ) ; end e ; architecture a of e is \
                 begin process variable s : integer := 0 ; begin s := s + a - b ; q <= s ; r <= c ; \
                 wait until clk = '1' ; end process ; end a ;";
    let image = compiled(&REFERENCE, text);
    let rows = vec![1, 0, 1, 2, 0, 0, 3, 0, 2, 4, 0, 1, 5, 1, 0];
    let batch = Batch::due(&image, &fresh(&image), 5, rows);
    let mut wrong = batch.state;
    wrong[2] = 2;
    for board in boards() {
        let left = check(&board, &batch);
        let answers = [0, 0, 4, 0, 0, 4, 14, 2, 0, 0, 0, 4, 0, 0, 4];
        assert_eq!(left.answers, answers);
        assert_eq!(left.outputs, [1, 1, 3, 0, WORD, WORD, 7, 1, 11, 0]);
        let left = check(&board, &batch.from(&wrong));
        let answers = [15, 0, 0, 15, 0, 0, 14, 2, 0, 15, 0, 0, 15, 0, 0];
        assert_eq!((left.state, left.outputs), (wrong, vec![WORD; 10]));
        assert_eq!(left.answers, answers);
    }
}

/// A refused image refuses the call before any length is judged, also for no rows.
#[test]
fn a_refused_image() {
    let image = compiled(&REFERENCE, TALLY);
    let mut type_2 = image.clone();
    type_2[31] = 2;
    let mut reach_1 = image.clone();
    reach_1[42 + 2 * 12 + 10] = 1;
    let cut = image[..133].to_vec();
    let refused = [
        (cut, [11, 0, 0]),
        (Vec::new(), [11, 0, 0]),
        (type_2, [12, 0, 0]),
        (reach_1, [13, 1, 0]),
    ];
    for (bytes, answer) in refused {
        for lengths in [
            [0, 0, 0, 0],
            [2, 2, 2, 6],
            [2, 1, 1, 1],
            [usize::MAX, 0, 0, 0],
        ] {
            let [count, inputs, outputs, answers] = lengths;
            let batch = Batch {
                image: bytes.clone(),
                state: fresh(&image),
                count,
                inputs: vec![1; inputs],
                outputs,
                answers,
            };
            for board in boards() {
                let left = check(&board, &batch);
                assert_eq!(left.answer, answer);
                assert!(left.answers.iter().all(|number| *number == NUMBER));
            }
        }
    }
}

#[test]
fn a_hundred_thousand_rows() {
    const COUNT: usize = 100_000;
    let mut random = Random::new(seed());
    let mut tally = rows::small(COUNT, &mut random);
    for row in tally.iter_mut().step_by(97) {
        *row = random.integer();
    }
    let gcd = rows::gcd(COUNT, &mut random);
    for (text, inputs) in [(TALLY, tally), (GCD, gcd)] {
        let image = compiled(&REFERENCE, text);
        open(&image).expect("a compiled image opens");
        let batch = Batch::due(&image, &fresh(&image), COUNT, inputs);
        for board in boards() {
            let left = check(&board, &batch);
            let performed = left.answers.chunks(3).filter(|told| told[0] == 0).count();
            println!("{}: {performed} rows performed", board.name);
            assert!(performed > COUNT / 2);
        }
    }
}

//! Boards that must be shut out: each is the reference with one fault, and the comparisons must
//! find it.

use reference::answer::Answer;
use reference::board::{Board, REFERENCE};
use reference::compare::{everything, same_on_image, same_on_text, table_is_direct};
use reference::frozen::{check_text, texts as frozen_texts};
use reference::generate::random::{Random, SEED};
use reference::generate::{images, mutants, texts};
use reference::state::{State, OUTPUTS};

/// The runs of one board, side by side, on some random texts.
fn runs(board: Board) {
    for round in 0..100 {
        let mut random = Random::round(SEED, round);
        let text = texts::accepted(&mut random);
        table_is_direct(&board, &text, 12, &mut random);
    }
}

/// The board beside the reference, on some random texts.
fn on_texts(board: Board) {
    for round in 0..400 {
        let mut random = Random::round(SEED, round);
        let text = mutants::mutant(&mut random);
        same_on_text(&REFERENCE, &board, &text, &mut random);
    }
}

/// The board beside the reference, on some random images.
fn on_images(board: Board) {
    for round in 0..400 {
        let mut random = Random::round(SEED, round);
        let good = images::good(&mut random);
        let image = match random.chance(50) {
            true => images::damaged(&good, &mut random),
            false => good,
        };
        same_on_image(&REFERENCE, &board, &image, &mut random);
    }
}

#[test]
fn the_reference_passes() {
    runs(REFERENCE);
    on_texts(REFERENCE);
    on_images(REFERENCE);
    everything(&REFERENCE, &REFERENCE, SEED);
}

fn late(image: &[u8], state: &mut State, inputs: &[i32], outputs: &mut [i32]) -> Answer {
    let before = *state;
    let answer = (REFERENCE.cycle)(image, state, inputs, outputs);
    if answer[0] == 0 {
        outputs.copy_from_slice(&before[OUTPUTS..OUTPUTS + outputs.len()]);
    }
    answer
}

#[test]
#[should_panic]
fn outputs_one_beat_late() {
    runs(Board {
        cycle: late,
        ..REFERENCE
    });
}

fn still(image: &[u8], state: &mut State, inputs: &[i32], outputs: &mut [i32]) -> Answer {
    (REFERENCE.cycle)(image, &mut state.clone(), inputs, outputs)
}

#[test]
#[should_panic]
fn a_cycle_that_moves_nothing() {
    runs(Board {
        cycle: still,
        ..REFERENCE
    });
}

#[test]
#[should_panic]
fn a_direct_run_that_moves_nothing() {
    runs(Board {
        direct: |text, state, inputs, outputs| {
            (REFERENCE.direct)(text, &mut state.clone(), inputs, outputs)
        },
        ..REFERENCE
    });
}

fn counted(image: &[u8], state: &mut State, inputs: &[i32], outputs: &mut [i32]) -> Answer {
    let mut answer = (REFERENCE.cycle)(image, state, inputs, outputs);
    answer[2] = answer[2].min(3);
    answer
}

#[test]
#[should_panic]
fn an_invented_line_count() {
    runs(Board {
        cycle: counted,
        ..REFERENCE
    });
}

fn repeated(image: &[u8], state: &mut State, inputs: &[i32], outputs: &mut [i32]) -> Answer {
    let first = state[0] == 512;
    let answer = (REFERENCE.cycle)(image, &mut state.clone(), inputs, outputs);
    if first {
        return (REFERENCE.cycle)(image, state, inputs, outputs);
    }
    answer
}

#[test]
#[should_panic]
fn the_first_cycle_and_then_its_row_again() {
    runs(Board {
        cycle: repeated,
        ..REFERENCE
    });
}

fn early(image: &[u8], state: &mut State, inputs: &[i32], outputs: &mut [i32]) -> Answer {
    if inputs.contains(&i32::MAX) {
        return [16, 0, 0];
    }
    (REFERENCE.cycle)(image, state, inputs, outputs)
}

#[test]
#[should_panic]
fn sixteen_before_evaluating() {
    runs(Board {
        cycle: early,
        ..REFERENCE
    });
}

fn stored(image: &[u8], state: &mut State, inputs: &[i32], outputs: &mut [i32]) -> Answer {
    let answer = (REFERENCE.cycle)(image, state, inputs, outputs);
    if answer[0] == 16 {
        state[0] = 512;
    }
    answer
}

#[test]
#[should_panic]
fn a_refused_row_that_alters_the_state() {
    runs(Board {
        cycle: stored,
        ..REFERENCE
    });
}

fn fixed(_: &[u8], buffer: &mut [u8]) -> Answer {
    let text = b"entity e is port ( c : in std_logic ); end e; architecture a of e is begin \
                 process begin wait until c = '1'; end process; end a;";
    (REFERENCE.compile)(text, buffer)
}

#[test]
#[should_panic]
fn one_image_for_all_texts() {
    runs(Board {
        compile: fixed,
        ..REFERENCE
    });
}

#[test]
#[should_panic]
fn every_text_turned_back() {
    runs(Board {
        compile: |_, _| [3, 0, 0],
        ..REFERENCE
    });
}

fn filled(text: &[u8], buffer: &mut [u8]) -> Answer {
    buffer.fill(0);
    (REFERENCE.compile)(text, buffer)
}

#[test]
#[should_panic]
fn bytes_past_the_image() {
    on_texts(Board {
        compile: filled,
        ..REFERENCE
    });
}

#[test]
#[should_panic]
fn another_place() {
    on_texts(Board {
        compile: |text, buffer| {
            let [number, place, count] = (REFERENCE.compile)(text, buffer);
            [number, place + u32::from(number == 8), count]
        },
        ..REFERENCE
    });
}

#[test]
#[should_panic]
fn longer_tokens() {
    on_texts(Board {
        token_at: |text, place| (REFERENCE.token_at)(text, place).max(1),
        ..REFERENCE
    });
}

#[test]
#[should_panic]
fn an_opener_that_takes_all() {
    on_images(Board {
        open: |_| [0, 0, 0],
        ..REFERENCE
    });
}

#[test]
#[should_panic]
fn frozen_texts_find_a_fault() {
    let board = Board {
        cycle: counted,
        ..REFERENCE
    };
    for case in frozen_texts() {
        check_text(&board, &case);
    }
}

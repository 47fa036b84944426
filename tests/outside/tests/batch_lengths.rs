//! Refusal 17: "an input, output or answer length that is not the count's due", for every board at
//! hand: lengths off by one, counts that no buffer can meet, and counts whose dues are the lengths
//! only where a product is cut to 32 or 64 bits.

use reference::batches::{check, fresh, Batch, NUMBER, WORD};
use reference::board::{boards, REFERENCE};
use reference::compare::compiled;
use reference::generate::batches::wrapped;

/// The image of a text with so many data inputs and outputs. Its outputs tell rows and inputs
/// apart: each is an input and the number of the cycle.
fn image_of(inputs: usize, outputs: usize) -> Vec<u8> {
    let mut ports = String::new();
    let mut body = "s := s + 1 ; ".to_string();
    for at in 0..inputs {
        ports += &format!("; p{at} : in integer ");
    }
    for at in 0..outputs {
        ports += &format!("; q{at} : out integer := {at} ");
        body += &match inputs {
            0 => format!("q{at} <= s + {at} ; "),
            _ => format!("q{at} <= s + p{} ; ", at % inputs),
        };
    }
    let text = format!(
        "entity e is port ( clk : in std_logic {ports} ) ; end e ; architecture a of e is begin \
         process variable s : integer := 0 ; begin {body} wait until clk = '1' ; end process ; \
         end a ;"
    );
    compiled(&REFERENCE, text.as_bytes())
}

/// Every combination that has an empty row, the widest, and some between.
const WIDTHS: [[usize; 2]; 12] = [
    [0, 0],
    [0, 1],
    [1, 0],
    [1, 1],
    [2, 3],
    [3, 0],
    [0, 3],
    [3, 3],
    [6, 15],
    [16, 0],
    [0, 16],
    [16, 16],
];

/// A batch of these lengths, which holds numbers that tell its rows apart.
fn batch(image: &[u8], count: usize, lengths: [usize; 3]) -> Batch {
    let [inputs, outputs, answers] = lengths;
    Batch {
        image: image.to_vec(),
        state: fresh(image),
        count,
        inputs: (0..inputs as i32).map(|value| 100 * value).collect(),
        outputs,
        answers,
    }
}

/// The call is refused by 17 and writes nothing.
fn refused(image: &[u8], count: usize, lengths: [usize; 3]) {
    let batch = batch(image, count, lengths);
    for board in boards() {
        let left = check(&board, &batch);
        assert_eq!(left.answer, [17, 0, 0], "{count} rows, {lengths:?}");
        assert_eq!(left.state, batch.state);
        assert!(left.outputs.iter().all(|value| *value == WORD));
        assert!(left.answers.iter().all(|number| *number == NUMBER));
    }
}

#[test]
fn due_lengths_are_taken() {
    for [inputs, outputs] in WIDTHS {
        let image = image_of(inputs, outputs);
        for count in [0, 1, 2, 3, 7, 100] {
            let batch = batch(&image, count, [count * inputs, count * outputs, 3 * count]);
            for board in boards() {
                let left = check(&board, &batch);
                assert_eq!(left.answer, [0, 0, 0]);
                assert!(left.answers.chunks(3).all(|told| told[..2] == [0, 0]));
                // The variable counts the cycles.
                assert_eq!(left.state[17], count as i32);
                assert_eq!(left.state == batch.state, count == 0);
            }
        }
    }
}

#[test]
fn lengths_off_by_one() {
    for [inputs, outputs] in WIDTHS {
        let image = image_of(inputs, outputs);
        for count in [0, 1, 2, 3, 7] {
            let due = [count * inputs, count * outputs, 3 * count];
            for which in 0..3 {
                let mut more = due;
                more[which] += 1;
                refused(&image, count, more);
                let mut less = due;
                if less[which] > 0 {
                    less[which] -= 1;
                    refused(&image, count, less);
                }
            }
            refused(&image, count + 1, due);
            refused(&image, count.wrapping_sub(1), due);
        }
    }
}

/// The lengths of other counts, one of the three at a time; lengths exchanged; one row's only.
#[test]
fn lengths_of_another_count() {
    for [inputs, outputs] in WIDTHS {
        let image = image_of(inputs, outputs);
        for (count, other) in [(4, 2), (2, 4), (3, 0), (0, 3), (3, 1)] {
            let due = [count * inputs, count * outputs, 3 * count];
            let others = [other * inputs, other * outputs, 3 * other];
            for which in 0..3 {
                let mut lengths = due;
                lengths[which] = others[which];
                if lengths != due {
                    refused(&image, count, lengths);
                }
                let mut lengths = others;
                lengths[which] = due[which];
                if lengths != due {
                    refused(&image, count, lengths);
                }
            }
            if inputs != outputs && count > 0 {
                refused(&image, count, [due[1], due[0], due[2]]);
            }
            refused(&image, count, [due[0], due[1], count + 1]);
        }
    }
}

/// Counts whose due no slice can have, with lengths that some cut product gives.
#[test]
fn counts_that_no_buffer_meets() {
    for [inputs, outputs] in WIDTHS {
        let image = image_of(inputs, outputs);
        let large = [60, 61, 62, 63].map(|bit| 1usize << bit);
        for count in large
            .into_iter()
            .chain([usize::MAX, usize::MAX - 1, 1 << 32])
        {
            let cut = [inputs, outputs, 3].map(|width| count.wrapping_mul(width));
            let low = [inputs, outputs, 3].map(|width| (count as u32).wrapping_mul(width as u32));
            for lengths in [cut, low.map(|length| length as usize)] {
                // What would not fit in memory is lent empty.
                refused(
                    &image,
                    count,
                    lengths.map(|length| match length {
                        0..=1000 => length,
                        _ => 0,
                    }),
                );
            }
            refused(&image, count, [0, 0, 0]);
            refused(&image, count, [0, 0, 3]);
        }
    }
}

/// A count with one more bit above the lowest 32: its dues cut to 32 bits are those without the bit.
#[test]
fn counts_that_are_due_modulo_two_to_the_32() {
    for [inputs, outputs] in WIDTHS {
        let image = image_of(inputs, outputs);
        for count in [0, 1, 2, 5] {
            for bit in [32, 33, 40, 62, 63] {
                let due = [count * inputs, count * outputs, 3 * count];
                refused(&image, count | 1 << bit, due);
            }
        }
    }
}

/// A count whose three dues are short only if products are cut to 32 or 64 bits: widths that 3
/// divides, with a number of answers that it does not.
#[test]
fn counts_whose_products_wrap() {
    let mut tried = 0;
    for [inputs, outputs] in WIDTHS {
        let image = image_of(inputs, outputs);
        for bits in [32, 64] {
            for answers in [1, 2, 4, 100] {
                let Some((count, [ni, no])) = wrapped([inputs, outputs], bits, answers) else {
                    continue;
                };
                refused(&image, count, [ni, no, answers]);
                tried += 1;
            }
        }
    }
    assert!(tried >= 40, "{tried} counts");
    // The smallest of them, worked out by hand: 3 times 6148914691236517206 is 2^64 + 2.
    let image = image_of(3, 3);
    refused(&image, 6_148_914_691_236_517_206, [2, 2, 2]);
    refused(&image, 2_863_311_531, [1, 1, 1]);
}

//! Change request 2, "Times and division for headways", for every board at hand: all pairs of edges
//! by IEEE 1076's sentences, random expressions, every byte in the place of an operator of an image,
//! and the order of 16 and 18.

use reference::arithmetic::{edges, expressions};
use reference::board::{boards, REFERENCE};
use reference::compare::{compiled, same_on_image};
use reference::division::{modulus, quotient, remainder};
use reference::generate::arithmetic::{pairs, EDGES, OPERATORS};
use reference::generate::random::{rounds, seed, Random};
use reference::loader::open;
use reference::trace::{direct_trace, trace};

/// 17 by 17 pairs by 4 operators, each by the table, by the direct run and in one call.
#[test]
fn all_pairs_of_edges() {
    for board in boards() {
        let counts = edges(&board);
        println!("{}: performed, 16, 18: {counts:?}", board.name);
        assert_eq!(counts.iter().sum::<usize>(), 17 * 17 * 4);
        // A zero divisor beside every left operand of three operators; the quotient outside integer
        // is one.
        let products = |x: i32| EDGES.map(|y| i64::from(x) * i64::from(y));
        let all = EDGES.into_iter().flat_map(products);
        let outside = all.filter(|p| i32::try_from(*p).is_err()).count();
        assert_eq!(counts[1..], [outside + 1, 17 * 3]);
    }
}

#[test]
fn random_expressions() {
    let seed = seed();
    for board in boards() {
        let counts = expressions(&board, rounds(2000), seed);
        println!("{}: performed, 16, 18: {counts:?}", board.name);
        assert!(counts.iter().all(|count| *count > 1000) || rounds(100) < 100);
    }
}

/// This implementation's own division, beyond 32 bits: the sentences decide.
#[test]
fn quotients_and_remainders() {
    for pair in pairs() {
        for factor in [1, 65_537, i64::from(i32::MAX)] {
            let (a, b) = (i64::from(pair[0]) * factor, i64::from(pair[1]));
            if b == 0 {
                continue;
            }
            let (q, r, m) = (quotient(a, b), remainder(a, b), modulus(a, b));
            let label = format!("{a} by {b}: {q} {r} {m}");
            assert_eq!(a, q * b + r, "{label}");
            assert!(r.abs() < b.abs() && r.signum() * a.signum() >= 0, "{label}");
            assert!(m.abs() < b.abs() && m.signum() * b.signum() >= 0, "{label}");
            assert_eq!((a - m) % b, 0, "{label}");
        }
    }
    assert_eq!(
        [modulus(-7, 3), modulus(7, -3), remainder(-7, 3)],
        [2, -2, -1]
    );
}

/// The places of the operators in an image's code, by their offsets in the image.
fn operators(image: &[u8]) -> Vec<usize> {
    let opened = open(image).expect("a compiled image");
    let start = image.len() - opened.code.len();
    let mut places = Vec::new();
    let mut at = 0;
    while at < opened.code.len() {
        match opened.code[at] {
            1 => at += 5,
            2..16 => at += 2,
            _ => {
                places.push(start + at);
                at += 1;
            }
        }
    }
    places
}

const TALLY: &[u8] = include_bytes!("../../../examples/tally/process.vhd");
const DIVIDES: &[u8] = b"entity e is port ( clk : in std_logic; x, y : in integer; q : out integer \
    := 0 ); end e; architecture a of e is begin process variable s : integer := 1; begin s := x * y; \
    q <= s / x; wait until clk = '1'; q <= s mod y; s := x rem y; if s / y > 3 then q <= s; \
    end if; wait until clk = '1'; end process; end a;";

/// All 256 bytes in the place of each operator: two integers to an integer are 18, 19 and 29 to 32,
/// two integers to a boolean 20 to 25, and nothing else opens.
#[test]
fn every_byte_in_the_place_of_an_operator() {
    let mut random = Random::new(seed());
    for (text, count) in [(TALLY, 2), (DIVIDES, 6)] {
        let good = compiled(&REFERENCE, text);
        let places = operators(&good);
        assert_eq!(places.len(), count);
        for place in places {
            let sums = matches!(good[place], 18 | 19 | 29..=32);
            for byte in 0..=255 {
                let mut image = good.clone();
                image[place] = byte;
                let opens = match sums {
                    true => matches!(byte, 18 | 19 | 29..=32),
                    false => (20..=25).contains(&byte),
                };
                for board in boards() {
                    let answer = (board.open)(&image);
                    assert_eq!(answer[0] == 0, opens, "{byte} at {place}: {answer:?}");
                    assert!(opens || answer[0] == 13, "{byte} at {place}: {answer:?}");
                    same_on_image(&REFERENCE, &board, &image, &mut random);
                }
            }
        }
    }
}

/// `*`, `/`, `mod` and `rem` in tally's image, where `+` was: the rows of the edges.
#[test]
fn an_operator_put_into_tally() {
    let good = compiled(&REFERENCE, TALLY);
    let place = *operators(&good).last().expect("tally adds");
    assert_eq!(good[place], 18);
    for (code, operator) in (29..).zip(OPERATORS) {
        let mut image = good.clone();
        image[place] = code;
        let text = String::from_utf8_lossy(TALLY).replace("s + d", &format!("s {operator} d"));
        assert_eq!(compiled(&REFERENCE, text.as_bytes()), image);
        for board in boards() {
            let mut state = [0; 49];
            assert_eq!((board.fresh)(&image, &mut state), [0; 3]);
            for pair in pairs() {
                let mut before = state;
                before[17] = pair[0];
                let (mut by_table, mut by_text) = (before, before);
                let (mut first, mut second) = ([0], [0]);
                let row = &pair[1..];
                let answer = (board.cycle)(&image, &mut by_table, row, &mut first);
                let due = (REFERENCE.direct)(text.as_bytes(), &mut by_text, row, &mut second);
                assert_eq!(
                    (answer, by_table, first),
                    (due, by_text, second),
                    "{pair:?}"
                );
            }
        }
    }
}

/// "a refused row prints its number, `refused`, the refusal": 18 in the trace, and the row behind it
/// goes on from the state before it.
#[test]
fn a_zero_divisor_in_the_trace() {
    let rows = b"6 3\n1 0\n5 0\n0 -1\n";
    let printed = trace(DIVIDES, rows);
    assert_eq!(
        printed,
        "cycle wait lines q\n0 2 3 3\n1 refused 18\n2 refused 18\n3 7 4 0\n"
    );
    assert_eq!(direct_trace(DIVIDES, rows), printed);
}

/// 16 and 18 "go by whichever operator is reached first", with the statement as place, for the table,
/// the direct run and many rows in one call.
#[test]
fn whichever_is_reached_first() {
    let cases = [
        ("(x + 1) / y", [16, 18]),
        ("y / y + (x + 1)", [18, 18]),
        ("(x + 1) + y / y", [16, 18]),
        ("x * x * (1 mod y)", [16, 18]),
        ("x * (x * (1 rem y))", [18, 18]),
        ("-(1 / y) - (x + 1)", [18, 18]),
        ("1 / (y * (x + 1))", [16, 18]),
    ];
    for (expression, expected) in cases {
        let text = format!(
            "entity e is port ( clk : in std_logic; x, y : in integer; q : out integer := 4 ); end \
             e; architecture a of e is begin process begin null; null; q <= {expression}; wait until \
             clk = '1'; end process; end a;"
        );
        let image = compiled(&REFERENCE, text.as_bytes());
        let mut fresh = [0; 49];
        assert_eq!((REFERENCE.fresh)(&image, &mut fresh), [0; 3]);
        for board in boards() {
            for (x, number) in [i32::MAX, 1].into_iter().zip(expected) {
                let row = [x, 0];
                let (mut state, mut other, mut outputs) = (fresh, fresh, [9]);
                let by_table = (board.cycle)(&image, &mut state, &row, &mut outputs);
                let by_text = (board.direct)(text.as_bytes(), &mut other, &row, &mut outputs);
                let mut told = [7; 3];
                let cycles = board.cycles;
                let call = cycles(&image, &mut state, 1, &row, &mut outputs, &mut told);
                assert_eq!(
                    [by_table, by_text, told],
                    [[number, 2, 0]; 3],
                    "{expression}"
                );
                assert_eq!((call, state, other, outputs), ([0; 3], fresh, fresh, [9]));
            }
        }
    }
}

//! The opener: what opens is an encoding, byte for byte, and what is refused is refused at its
//! place.

use reference::board::REFERENCE;
use reference::compare::{compiled, same_on_image};
use reference::encoder::{assemble, line_bytes, Line, BRANCH, OUTPUT, VARIABLE};
use reference::generate::random::{rounds, seed, Random};
use reference::generate::{images, rows, texts};
use reference::loader::{open, Image};
use reference::table;

/// The image of the table that an opened image holds: offsets, reaches and sections made anew.
fn encoded(image: &Image) -> Vec<u8> {
    let line = |number: usize| {
        let line = image.line(number);
        let code = image.code_of(&line).expect("an opened image has the code");
        // "Unused fields are 0."
        let assigns = line.kind == OUTPUT || line.kind == VARIABLE;
        let branches = line.kind == BRANCH;
        Line {
            kind: line.kind,
            target: if assigns { line.target } else { 0 },
            code: if assigns || branches {
                code.to_vec()
            } else {
                Vec::new()
            },
            next: line.next,
            other: if branches { line.other } else { 0 },
        }
    };
    let lines: Vec<Line> = (0..image.count()).map(line).collect();
    let code: Vec<u8> = lines.iter().flat_map(|line| line.code.clone()).collect();
    assemble(image.signature, &line_bytes(&lines), &code)
}

#[test]
fn what_opens_is_an_encoding() {
    let seed = seed();
    let mut opened = 0;
    for round in 0..rounds(6000) {
        let mut random = Random::round(seed, round);
        let good = match random.chance(30) {
            true => compiled(&REFERENCE, &texts::accepted(&mut random)),
            false => images::good(&mut random),
        };
        assert_eq!(encoded(&open(&good).expect("the image is good")), good);
        let damaged = images::damaged(&good, &mut random);
        if let Ok(image) = open(&damaged) {
            opened += 1;
            assert_eq!(encoded(&image), damaged);
        }
    }
    println!("{opened} damaged images opened");
}

#[test]
fn the_longest_image() {
    let longest = images::of_length(65_535);
    assert_eq!(longest.len(), 65_535);
    assert_eq!((REFERENCE.open)(&longest), [0, 0, 0]);
    let mut state = [0; 49];
    state[0] = 512;
    let answer = (REFERENCE.cycle)(&longest, &mut state, &[], &mut []);
    assert_eq!(answer, [0, 0, 512]);
    let longer = images::of_length(65_536);
    assert_eq!(longer.len(), 65_536);
    assert_eq!((REFERENCE.open)(&longer), [11, 0, 0]);
}

const TALLY: &[u8] = b"entity tally is port ( clk : in std_logic; d : in integer; total : out \
    integer := 0 ); end tally; architecture a of tally is begin process variable s : integer := 0; \
    begin while s < 10 loop s := s + d; wait until clk = '1'; end loop; total <= s; s := 0; wait \
    until clk = '1'; end process; end a;";

/// Every byte of tally's image set to every value: the header gets 11, a type or count 12, a line
/// 13 there, or at the line that leads to it if its reach is changed.
#[test]
fn every_byte_of_tally() {
    let tally = compiled(&REFERENCE, TALLY);
    assert_eq!(tally.len(), 134);
    // The lines that lead to each line other than from a wait.
    let leading: [&[u32]; 6] = [&[], &[0], &[1], &[0], &[3], &[4]];
    for at in 0..tally.len() {
        for byte in 0..=255 {
            let mut image = tally.clone();
            image[at] = byte;
            let answer = (REFERENCE.open)(&image);
            if byte == tally[at] {
                assert_eq!(answer, [0, 0, 0]);
                continue;
            }
            let expected = |numbers: &[u32]| {
                assert!(
                    numbers.contains(&answer[0]),
                    "byte {at} = {byte}: {answer:?}"
                );
            };
            match at {
                0..28 => expected(&[11]),
                // Counts; then the input's type, the output's and the variable's.
                28..31 => expected(&[12]),
                31 | 32 | 37 if byte > 1 => expected(&[12]),
                31 | 32 | 37 => expected(&[13]),
                // Initial values of integers may be anything.
                33..42 => expected(&[0]),
                42..114 => {
                    let line = (at - 42) as u32 / 12;
                    let reach = (at - 42) % 12 >= 10;
                    let lowest = leading[line as usize].iter().min();
                    let lower = lowest.filter(|lead| reach && **lead < line);
                    expected(&[0, 13]);
                    // A shorter run may still be good code: then the next line's offset is not
                    // where it ended.
                    let shorter = (at - 42) % 12 == 4 && byte < tally[at];
                    let next = if shorter { line + 1 } else { line };
                    if answer[0] == 13 && answer[1] != next {
                        assert_eq!(answer[1], *lower.unwrap_or(&line), "byte {at} = {byte}");
                    }
                }
                _ => expected(&[0, 13]),
            }
            if let Ok(opened) = open(&image) {
                assert_eq!(encoded(&opened), image);
            }
        }
    }
}

#[test]
fn bytes_behind_the_image() {
    let mut image = compiled(&REFERENCE, TALLY);
    image.push(0);
    assert_eq!((REFERENCE.open)(&image), [11, 0, 0]);
    image.truncate(133);
    assert_eq!((REFERENCE.open)(&image), [11, 0, 0]);
}

/// One to 512 whole lines.
#[test]
fn the_lines_section() {
    let line = [0, 0, 0, 0, 0, 0, 0, 0, 0, 0, 0, 0];
    for (count, expected) in [
        (0, [11, 0, 0]),
        (1, [0, 0, 0]),
        (512, [0, 0, 0]),
        (513, [11, 0, 0]),
    ] {
        let image = assemble(&[0, 0, 0], &line.repeat(count), &[]);
        assert_eq!((REFERENCE.open)(&image), expected, "{count} lines");
        same_on_image(&REFERENCE, &REFERENCE, &image, &mut Random::new(1));
    }
    let image = assemble(&[0, 0, 0], &[0; 13], &[]);
    assert_eq!((REFERENCE.open)(&image), [11, 0, 0]);
}

/// A std_logic variable that gets a literal, then a wait: "std_logic (0, 1)" in code and signature.
#[test]
fn std_logic_values() {
    let image = |initial: u8, literal: u8| {
        let lines = [
            [2, 0, 0, 0, 2, 0, 1, 0, 0, 0, 1, 0],
            [0, 0, 2, 0, 0, 0, 0, 0, 0, 0, 0, 0],
        ];
        assemble(
            &[0, 0, 1, 0, initial, 0, 0, 0],
            &lines.concat(),
            &[2, literal],
        )
    };
    for value in 0..=255 {
        let good = value < 2;
        let opened = (REFERENCE.open)(&image(value, 1));
        assert_eq!(opened, if good { [0, 0, 0] } else { [12, 0, 0] });
        let opened = (REFERENCE.open)(&image(1, value));
        assert_eq!(opened, if good { [0, 0, 0] } else { [13, 0, 0] });
    }
}

/// On any image that opens: a cycle follows the lines, counts each, has none twice, and takes at
/// most one more than the reach of the first.
#[test]
fn cycles_follow_the_lines() {
    let seed = seed();
    for round in 0..rounds(3000) {
        let mut random = Random::round(seed, round);
        let bytes = images::good(&mut random);
        let image = open(&bytes).expect("the image is good");
        let kinds: Vec<_> = image.inputs().collect();
        let mut state = table::fresh(&bytes).expect("the image is good");
        for _ in 0..8 {
            let first = match state[0] {
                512 => 0,
                wait => usize::from(image.line(wait as usize).next),
            };
            let inputs = rows::good(&kinds, &mut random);
            let mut outputs = vec![0; image.outputs().len()];
            let mut way = Vec::new();
            let visit = |line| way.push(line);
            let count = table::cycle_opened(&image, &mut state, &inputs, &mut outputs, visit);
            let Ok(count) = count else { continue };
            assert_eq!(count as usize, way.len());
            assert_eq!(
                (way.first(), way.last()),
                (Some(&first), Some(&(state[0] as usize)))
            );
            assert!(way.len() <= usize::from(image.line(first).reach) + 1);
            for pair in way.windows(2) {
                let line = image.line(pair[0]);
                let next = pair[1] == usize::from(line.next);
                let other = line.kind == BRANCH && pair[1] == usize::from(line.other);
                assert!(next || other);
            }
            way.sort_unstable();
            way.dedup();
            assert_eq!(count as usize, way.len(), "a line twice");
        }
    }
}

//! Input rows and output rows, good and odd.

use super::random::Random;
use crate::tree::Type;

/// A row with a value of its type for each input.
pub fn good(kinds: &[Type], random: &mut Random) -> Vec<i32> {
    let value = |kind: &Type| match kind {
        Type::StdLogic => random.below(2) as i32,
        Type::Integer => random.integer(),
    };
    kinds.iter().map(value).collect()
}

/// A row, one in six of them odd: too short, too long, or with a value that no std_logic has.
pub fn any(kinds: &[Type], random: &mut Random) -> Vec<i32> {
    let mut row = good(kinds, random);
    match random.below(24) {
        0 => drop(row.pop()),
        1 => row.push(random.integer()),
        2 => row = (0..random.below(20)).map(|_| random.integer()).collect(),
        3 if !row.is_empty() => {
            let at = random.below(row.len());
            row[at] = *random.pick(&[2, -1, i32::MIN, i32::MAX, 256, 3]);
        }
        _ => {}
    }
    row
}

/// The length of an output row, one in twenty of them wrong.
pub fn room(outputs: usize, random: &mut Random) -> usize {
    match random.below(40) {
        0 => outputs + 1,
        1 => random.below(20),
        _ => outputs,
    }
}

/// Rows of one small number, end to end: sums that pass 10 after some rows, for tally.
pub fn small(count: usize, random: &mut Random) -> Vec<i32> {
    (0..count)
        .map(|_| random.between(0, 15) as i32 - 3)
        .collect()
}

/// Rows for headway, end to end, none of them refused: half of them with a train, at any second of
/// the day.
pub fn headways(count: usize, random: &mut Random) -> Vec<i32> {
    let row = |_| {
        let passed = random.below(2) as i32;
        let now = random.below(86_400) as i32;
        [
            passed,
            now,
            random.between(4, 30) as i32,
            random.below(60) as i32,
        ]
    };
    (0..count).flat_map(row).collect()
}

/// Rows for GCD, end to end: multiples of two neighbours of the Fibonacci numbers, on which its
/// differences come to 0 after some waits; now and then no start.
pub fn gcd(count: usize, random: &mut Random) -> Vec<i32> {
    const NEIGHBOURS: [(i32, i32); 6] = [(2, 1), (3, 2), (5, 3), (8, 5), (13, 8), (21, 13)];
    let row = |_| {
        let (a, b) = *random.pick(&NEIGHBOURS);
        let factor = random.between(1, 1000) as i32;
        let start = i32::from(random.chance(60));
        match random.chance(50) {
            true => [a * factor, b * factor, start],
            false => [b * factor, a * factor, start],
        }
    };
    (0..count).flat_map(row).collect()
}

//! A small random generator: the same seed gives the same inputs everywhere.

use std::env;

/// The seed if none is asked for.
pub const SEED: u64 = 1076;

/// The state of the generator (splitmix64).
#[derive(Clone, Debug)]
pub struct Random {
    state: u64,
}

/// The seed of this run, which is printed: `OUTSIDE_SEED`, or the fixed default.
pub fn seed() -> u64 {
    let asked = env::var("OUTSIDE_SEED").ok();
    let seed = asked.and_then(|seed| seed.parse().ok()).unwrap_or(SEED);
    println!("seed {seed} (OUTSIDE_SEED sets another)");
    seed
}

/// How many rounds a test runs: `OUTSIDE_ROUNDS` in percent of what the test asks for.
pub fn rounds(count: usize) -> usize {
    let asked = env::var("OUTSIDE_ROUNDS").ok();
    let percent = asked.and_then(|percent| percent.parse().ok());
    count * percent.unwrap_or(100) / 100
}

impl Random {
    pub fn new(seed: u64) -> Random {
        Random { state: seed }
    }

    /// A generator of its own for the round with this number.
    pub fn round(seed: u64, round: usize) -> Random {
        let mut random = Random::new(seed ^ (round as u64).wrapping_mul(0xd134_2543_de82_ef95));
        random.word();
        random
    }

    pub fn word(&mut self) -> u64 {
        self.state = self.state.wrapping_add(0x9e37_79b9_7f4a_7c15);
        let mut mixed = self.state;
        mixed = (mixed ^ (mixed >> 30)).wrapping_mul(0xbf58_476d_1ce4_e5b9);
        mixed = (mixed ^ (mixed >> 27)).wrapping_mul(0x94d0_49bb_1331_11eb);
        mixed ^ (mixed >> 31)
    }

    /// A number from 0 to `bound - 1`; 0 for bound 0.
    pub fn below(&mut self, bound: usize) -> usize {
        (self.word() % bound.max(1) as u64) as usize
    }

    /// A number from `low` to `high`.
    pub fn between(&mut self, low: usize, high: usize) -> usize {
        low + self.below(high + 1 - low)
    }

    /// True `percent` times in a hundred.
    pub fn chance(&mut self, percent: usize) -> bool {
        self.below(100) < percent
    }

    /// One of these.
    pub fn pick<'a, T>(&mut self, choices: &'a [T]) -> &'a T {
        &choices[self.below(choices.len())]
    }

    pub fn byte(&mut self) -> u8 {
        self.word() as u8
    }

    /// A 32-bit integer: mostly small, sometimes at a bound, sometimes anything.
    pub fn integer(&mut self) -> i32 {
        const BOUNDS: [i32; 10] = [
            i32::MIN,
            i32::MIN + 1,
            i32::MAX,
            i32::MAX - 1,
            1 << 30,
            -1,
            // Roots of the bounds, whose products are at them.
            46_340,
            46_341,
            65_536,
            -32_768,
        ];
        match self.below(10) {
            0 => *self.pick(&BOUNDS),
            1 => self.word() as i32,
            2 => self.below(2000) as i32 - 1000,
            _ => self.below(16) as i32 - 3,
        }
    }
}

//! The tally of examples/, changes of it that are refused, and a process of bits.

// Every test file is a program of its own and uses what it needs.
#![allow(dead_code)]

use rabtishu::Refusal;

pub const TALLY: &[u8] = include_bytes!("../../../../examples/tally/process.vhd");

/// Two bits in, one out.
pub const BITS: &[u8] =
    b"entity bits is port (clk, a, b : in std_logic; q : out std_logic := '0'); end bits;
    architecture r of bits is begin process begin q <= a and b; wait until clk = '1'; end process; end r;";

pub const fn refusal(number: u32, place: u32) -> Refusal {
    Refusal { number, place }
}

/// Where a part of tally stands.
fn place_of(part: &str) -> usize {
    let found = TALLY
        .windows(part.len())
        .position(|bytes| bytes == part.as_bytes());
    found.expect("tally has the part")
}

/// Tally with one part in the place of another.
pub fn changed(old: &str, new: &str) -> Vec<u8> {
    let place = place_of(old);
    let (before, behind) = (&TALLY[..place], &TALLY[place + old.len()..]);
    [before, new.as_bytes(), behind].concat()
}

/// A text that is refused, how, and the token that it is about.
pub struct Refused {
    pub text: Vec<u8>,
    pub refusal: Refusal,
    pub token: &'static str,
}

/// Tally with a part changed: refused by a number, so many bytes behind the part's beginning.
fn refused(number: u32, [old, new]: [&str; 2], behind: usize, token: &'static str) -> Refused {
    Refused {
        text: changed(old, new),
        refusal: refusal(number, (place_of(old) + behind) as u32),
        token,
    }
}

/// A text for each of the refusals 1 to 9, in their order.
pub fn refused_texts() -> Vec<Refused> {
    let long = Refused {
        text: vec![b' '; rabtishu::LONGEST_TEXT + 1],
        refusal: refusal(1, 0),
        token: "",
    };
    let endless = "while s < 10 loop\n    s := s + d;\n    wait until clk = '1';";
    let without_wait = "while s < 10 loop\n    s := s + d;\n    null;";
    vec![
        long,
        refused(2, ["s + d", "s % d"], 2, ""),
        refused(3, ["s + d;", "s + d"], 10, "wait"),
        refused(4, ["10 loop", "2147483648 loop"], 0, "2147483648"),
        refused(5, ["s + d", "s + e"], 4, "e"),
        refused(6, ["s + d", "s + '1'"], 2, "+"),
        refused(7, ["s : integer := 0;", "s : integer;"], 0, "s"),
        refused(8, ["wait until clk", "wait until d"], 11, "d"),
        refused(9, [endless, without_wait], 0, "while"),
    ]
}

/// The image of a text that is accepted.
pub fn image_of(text: &[u8]) -> Vec<u8> {
    rabtishu::compile(text).expect("the text is accepted")
}

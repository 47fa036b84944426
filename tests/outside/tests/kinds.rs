//! Change request 3, "The byte kinds as a table": the kind of every byte as texts show it, every byte
//! in every place beside this implementation, and tables with one wrong entry.

use reference::board::{boards, Board, REFERENCE};
use reference::kinds::{frozen, shown, Kind, KINDS};
use reference::lexer::SIGNS;

const TALLY: &[u8] = include_bytes!("../../../examples/tally/process.vhd");

#[test]
fn every_byte_shows_its_kind() {
    let kinds = frozen();
    assert_eq!(kinds.len(), 256);
    for board in boards() {
        for byte in 0..=255 {
            let kind = shown(&board.token_at, byte);
            assert_eq!(kind, kinds[usize::from(byte)], "{}: {byte}", board.name);
        }
    }
}

/// The board answers to the text, and hands out at each of the places, what this implementation does.
fn same(board: &Board, text: &[u8], places: std::ops::RangeInclusive<usize>) {
    let (mut image, mut other) = ([0x5a; 256], [0x5a; 256]);
    let answer = (board.compile)(text, &mut image);
    let expected = (REFERENCE.compile)(text, &mut other);
    assert_eq!(answer, expected, "{}: {text:?}", board.name);
    assert_eq!(image, other, "{}: {text:?}", board.name);
    for place in places {
        let length = (board.token_at)(text, place);
        let expected = (REFERENCE.token_at)(text, place);
        assert_eq!(length, expected, "{}: {text:?} at {place}", board.name);
    }
}

/// All texts of one and of two bytes.
fn short() -> impl Iterator<Item = Vec<u8>> {
    let pairs = (0..=255).flat_map(|first| (0..=255).map(move |second| vec![first, second]));
    (0..=255).map(|byte| vec![byte]).chain(pairs)
}

#[test]
fn short_texts_are_answered_alike() {
    for board in boards() {
        for text in short() {
            same(&board, &text, 0..=2);
        }
    }
}

/// A byte inside a word, a number, a literal, between marks, in a comment, behind one, and behind a
/// blank.
const AROUND: [(&str, &str); 9] = [
    ("a", "b"),
    ("a_", "b"),
    ("1", "2"),
    ("'", "'"),
    ("(", ")"),
    ("--", "\na"),
    ("-", "-"),
    ("--\n", "a"),
    (" ", " "),
];

#[test]
fn every_byte_in_every_surrounding() {
    for board in boards() {
        for (before, after) in AROUND {
            for byte in 0..=255 {
                let text = [before.as_bytes(), &[byte], after.as_bytes()].concat();
                same(&board, &text, 0..=text.len());
            }
        }
    }
}

/// The text of tally with each of its bytes replaced by every other.
#[test]
fn every_byte_in_every_place_of_tally() {
    for board in boards() {
        let mut text = TALLY.to_vec();
        for at in 0..text.len() {
            for byte in 0..=255 {
                text[at] = byte;
                same(&board, &text, at..=at);
            }
            text[at] = TALLY[at];
        }
    }
}

/// The length of the token that starts at a place, by a table of kinds.
fn token_by(table: &[Kind], text: &[u8], place: usize) -> usize {
    let mut at = 0;
    while at <= place && at < text.len() {
        match piece_by(table, &text[at..]) {
            (_, 0) => return 0,
            (true, length) if at == place => return length,
            (_, length) => at += length,
        }
    }
    0
}

/// Whether a token begins a text that is not empty, and its length or that of the gap; 0 for neither.
fn piece_by(table: &[Kind], text: &[u8]) -> (bool, usize) {
    let kind = |byte: &u8| table[usize::from(*byte)];
    let run = |such: &dyn Fn(&u8) -> bool| text.iter().take_while(|byte| such(byte)).count();
    let sign = || {
        let signs = SIGNS.iter().map(|(sign, _)| sign.as_bytes());
        let longest = signs.filter(|sign| text.starts_with(sign)).map(<[u8]>::len);
        (true, longest.max().unwrap_or(0))
    };
    match kind(&text[0]) {
        Kind::Letter => {
            let word = [Kind::Letter, Kind::Digit, Kind::Underscore];
            let length = run(&|byte| word.contains(&kind(byte)));
            let low = |byte: &u8| kind(byte) == Kind::Underscore;
            let doubled = text[..length]
                .windows(2)
                .any(|pair| low(&pair[0]) && low(&pair[1]));
            match doubled || low(&text[length - 1]) {
                true => (true, 0),
                false => (true, length),
            }
        }
        Kind::Digit => (true, run(&|byte| kind(byte) == Kind::Digit)),
        Kind::Blank => (false, 1),
        Kind::Mark if text.starts_with(b"--") => (false, run(&|byte| *byte != b'\n')),
        Kind::Mark | Kind::Quote => sign(),
        Kind::Underscore | Kind::None => (true, 0),
    }
}

/// A table is told from the right one by the kinds that texts show, or by a text of two bytes with the
/// byte.
fn found(table: &[Kind], kinds: &[Kind], byte: u8) -> bool {
    let token_at = |text: &[u8], place: usize| token_by(table, text, place);
    if shown(&token_at, byte) != kinds[usize::from(byte)] {
        return true;
    }
    let mut others = (0..=255).flat_map(|other| [[byte, other], [other, byte]]);
    others.any(|text| (0..2).any(|at| token_at(&text, at) != (REFERENCE.token_at)(&text, at)))
}

/// No text tells these apart: quotes and marks are both looked up among the signs, and no sign begins
/// with a byte of no kind. Only the comment, `--`, asks for a mark.
fn alike(byte: u8, right: Kind, wrong: Kind) -> bool {
    let signs = [Kind::Quote, Kind::Mark];
    (signs.contains(&right) || right == Kind::None) && signs.contains(&wrong) && byte != b'-'
}

#[test]
fn tables_with_one_wrong_entry() {
    let kinds = frozen();
    for text in short() {
        for at in 0..2 {
            let expected = (REFERENCE.token_at)(&text, at);
            assert_eq!(token_by(&kinds, &text, at), expected, "{text:?} at {at}");
        }
    }
    let mut unseen = 0;
    for byte in 0..=255 {
        for (_, wrong) in KINDS {
            let right = kinds[usize::from(byte)];
            if wrong == right {
                continue;
            }
            let mut table = kinds.clone();
            table[usize::from(byte)] = wrong;
            let alike = alike(byte, right, wrong);
            assert_eq!(found(&table, &kinds, byte), !alike, "{byte} {wrong:?}");
            unseen += usize::from(alike);
        }
    }
    // 176 bytes of no kind as a quote or a mark, eleven marks as a quote, the quote as a mark.
    assert_eq!(unseen, 2 * 176 + 11 + 1);
}

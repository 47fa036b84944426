//! The kinds of bytes (change request 3), as the tokens of texts show them: no public function tells a
//! byte's kind.

/// "letter, digit, underscore, blank, quote, mark, none".
#[derive(Clone, Copy, Debug, PartialEq, Eq)]
pub enum Kind {
    Letter,
    Digit,
    Underscore,
    Blank,
    Quote,
    Mark,
    None,
}

/// All kinds by their names in `data/kinds.txt`.
pub const KINDS: [(&str, Kind); 7] = [
    ("letter", Kind::Letter),
    ("digit", Kind::Digit),
    ("underscore", Kind::Underscore),
    ("blank", Kind::Blank),
    ("quote", Kind::Quote),
    ("mark", Kind::Mark),
    ("none", Kind::None),
];

/// The kind of each byte, by `data/kinds.txt`.
pub fn frozen() -> Vec<Kind> {
    let lines = include_str!("../data/kinds.txt").lines().enumerate();
    let kind = |(byte, line): (usize, &str)| {
        let (number, name) = line.split_once(' ').expect("a byte and its kind");
        assert_eq!(number.parse(), Ok(byte), "the bytes stand in order");
        let known = KINDS.iter().find(|(known, _)| *known == name);
        known.expect("one of the seven kinds").1
    };
    lines.map(kind).collect()
}

/// The kind of a byte by what a reader of tokens makes of short texts with it; the reader tells the
/// length of the token that starts at a place of a text, or 0.
pub fn shown(token_at: &dyn Fn(&[u8], usize) -> usize, byte: u8) -> Kind {
    let begins = token_at(&[byte], 0) == 1;
    let in_word = token_at(&[b'a', byte, b'a'], 0) == 3;
    let in_number = token_at(&[b'1', byte], 0) == 2;
    let around_a_bit = token_at(&[byte, b'0', byte], 0) == 3;
    let before_a_word = token_at(&[byte, b'a'], 1) == 1;
    match (begins, in_word) {
        (true, true) if in_number => Kind::Digit,
        (true, true) => Kind::Letter,
        (false, true) => Kind::Underscore,
        (true, false) => Kind::Mark,
        (false, false) if around_a_bit => Kind::Quote,
        (false, false) if before_a_word => Kind::Blank,
        (false, false) => Kind::None,
    }
}

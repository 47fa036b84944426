//! Tokens (document 01, "Text"), refusal 2, and the token that starts at a place.

/// What a token is: a name, a literal, a reserved word or a mark.
#[derive(Clone, Copy, Debug, PartialEq, Eq)]
pub enum Kind {
    Name,
    Number,
    Zero,
    One,
    // Reserved words.
    And,
    Architecture,
    Begin,
    Else,
    End,
    Entity,
    If,
    In,
    Integer,
    Is,
    Loop,
    Mod,
    Not,
    Null,
    Of,
    Or,
    Out,
    Port,
    Process,
    Rem,
    StdLogic,
    Then,
    Until,
    Variable,
    Wait,
    While,
    Xor,
    // Marks.
    Open,
    Close,
    Semicolon,
    Comma,
    Colon,
    Becomes,
    LessEqual,
    Equal,
    Unequal,
    Less,
    Greater,
    GreaterEqual,
    Plus,
    Minus,
    Times,
    Divide,
}

/// "Reserved are the words shown below, the operator words and both type names"; operator words are
/// also `mod` and `rem` (change request 2).
pub const RESERVED: [(&str, Kind); 27] = [
    ("and", Kind::And),
    ("architecture", Kind::Architecture),
    ("begin", Kind::Begin),
    ("else", Kind::Else),
    ("end", Kind::End),
    ("entity", Kind::Entity),
    ("if", Kind::If),
    ("in", Kind::In),
    ("integer", Kind::Integer),
    ("is", Kind::Is),
    ("loop", Kind::Loop),
    ("mod", Kind::Mod),
    ("not", Kind::Not),
    ("null", Kind::Null),
    ("of", Kind::Of),
    ("or", Kind::Or),
    ("out", Kind::Out),
    ("port", Kind::Port),
    ("process", Kind::Process),
    ("rem", Kind::Rem),
    ("std_logic", Kind::StdLogic),
    ("then", Kind::Then),
    ("until", Kind::Until),
    ("variable", Kind::Variable),
    ("wait", Kind::Wait),
    ("while", Kind::While),
    ("xor", Kind::Xor),
];

/// The tokens made of signs, "the longest taken first": `/=` before `/`.
pub const SIGNS: [(&str, Kind); 18] = [
    ("'0'", Kind::Zero),
    ("'1'", Kind::One),
    (":=", Kind::Becomes),
    ("<=", Kind::LessEqual),
    ("/=", Kind::Unequal),
    (">=", Kind::GreaterEqual),
    ("(", Kind::Open),
    (")", Kind::Close),
    (";", Kind::Semicolon),
    (",", Kind::Comma),
    (":", Kind::Colon),
    ("=", Kind::Equal),
    ("<", Kind::Less),
    (">", Kind::Greater),
    ("+", Kind::Plus),
    ("-", Kind::Minus),
    ("*", Kind::Times),
    ("/", Kind::Divide),
];

/// A token: its kind and the bytes `start..end` of the text.
#[derive(Clone, Copy, Debug, PartialEq, Eq)]
pub struct Token {
    pub kind: Kind,
    pub start: usize,
    pub end: usize,
}

impl Token {
    /// The token's bytes.
    pub fn bytes<'a>(&self, text: &'a [u8]) -> &'a [u8] {
        &text[self.start..self.end]
    }

    /// "Reserved words are compared without regard to case, and so are names."
    pub fn same_name(&self, other: &Token, text: &[u8]) -> bool {
        self.bytes(text).eq_ignore_ascii_case(other.bytes(text))
    }
}

/// What stands in a text from a place on.
#[derive(Clone, Copy, Debug, PartialEq, Eq)]
pub enum Next {
    /// Blanks and comments, then this token.
    Token(Token),
    /// Blanks and comments up to the text's end.
    End,
    /// Blanks and comments, then a "byte that begins no token" or a "malformed word", here.
    Nothing(usize),
}

/// The next token at or after `from`, a place between tokens.
pub fn next(text: &[u8], from: usize) -> Next {
    let start = skip(text, from);
    let Some(&first) = text.get(start) else {
        return Next::End;
    };
    if first.is_ascii_alphabetic() {
        return word(text, start);
    }
    if first.is_ascii_digit() {
        let end = run(text, start, |byte| byte.is_ascii_digit());
        let kind = Kind::Number;
        return Next::Token(Token { kind, start, end });
    }
    for (sign, kind) in SIGNS {
        if text[start..].starts_with(sign.as_bytes()) {
            let end = start + sign.len();
            return Next::Token(Token { kind, start, end });
        }
    }
    Next::Nothing(start)
}

/// "A word is the longest run of letters, digits and underscores from a letter; no doubled or last
/// underscore."
fn word(text: &[u8], start: usize) -> Next {
    let end = run(text, start, |byte| {
        byte.is_ascii_alphanumeric() || byte == b'_'
    });
    let bytes = &text[start..end];
    if bytes.ends_with(b"_") || bytes.windows(2).any(|pair| pair == b"__") {
        return Next::Nothing(start);
    }
    let kind = RESERVED
        .iter()
        .find(|(reserved, _)| bytes.eq_ignore_ascii_case(reserved.as_bytes()))
        .map_or(Kind::Name, |(_, kind)| *kind);
    Next::Token(Token { kind, start, end })
}

/// "Blanks are space, tab, LF, CR; `--` opens a comment up to LF."
fn skip(text: &[u8], from: usize) -> usize {
    let mut at = from;
    loop {
        at = run(text, at, |byte| {
            matches!(byte, b' ' | b'\t' | b'\n' | b'\r')
        });
        if !text[at..].starts_with(b"--") {
            return at;
        }
        at = run(text, at, |byte| byte != b'\n');
    }
}

/// The end of the longest run of such bytes from `start`.
fn run(text: &[u8], start: usize, such: impl Fn(u8) -> bool) -> usize {
    text[start..]
        .iter()
        .position(|&byte| !such(byte))
        .map_or(text.len(), |length| start + length)
}

/// All tokens of a text, or the place of refusal 2: "its first byte".
pub fn tokens(text: &[u8]) -> Result<Vec<Token>, usize> {
    let mut tokens = Vec::new();
    let mut at = 0;
    loop {
        match next(text, at) {
            Next::Token(token) => {
                tokens.push(token);
                at = token.end;
            }
            Next::End => return Ok(tokens),
            Next::Nothing(place) => return Err(place),
        }
    }
}

/// "the token that starts at the place is handed out as that part of the text, or an empty part
/// where none starts; a malformed word is no token." The tokens are those of the text read from
/// its beginning; where it stops being tokens, none starts any more.
pub fn token_at(text: &[u8], place: usize) -> &[u8] {
    let mut at = 0;
    while let Next::Token(token) = next(text, at) {
        if token.start == place {
            return token.bytes(text);
        }
        if token.start > place {
            break;
        }
        at = token.end;
    }
    &[]
}

//! The tokens of a text, one after another, as the proved function hands them out.

use rabtishu::token_at;

/// A token and the place where it starts.
#[derive(Clone, Copy, Debug, PartialEq, Eq)]
pub struct Token<'a> {
    /// Byte offset in the text.
    pub place: usize,
    /// The token's own bytes.
    pub bytes: &'a [u8],
}

impl Token<'_> {
    /// Whether this is a reserved word or a mark; words are compared without regard to case.
    pub fn is(&self, word: &str) -> bool {
        self.bytes.eq_ignore_ascii_case(word.as_bytes())
    }

    /// Whether this is one of some words or marks.
    pub fn is_one_of(&self, words: &[&str]) -> bool {
        words.iter().any(|word| self.is(word))
    }

    /// The place behind the token.
    pub fn end(&self) -> usize {
        self.place + self.bytes.len()
    }

    /// The token as it stands in the text; tokens are ASCII.
    pub fn shown(&self) -> String {
        String::from_utf8_lossy(self.bytes).into_owned()
    }

    /// The token in lower case, as names are compared.
    pub fn folded(&self) -> String {
        self.shown().to_ascii_lowercase()
    }
}

/// All tokens of a text up to its end or to the first byte that begins none (refusal 2).
///
/// `token_at` reads from the text's beginning. Asked for the token at the beginning of what is left,
/// it reads that token alone, so that the walk takes time by the text's length.
pub fn tokens(text: &[u8]) -> impl Iterator<Item = Token<'_>> {
    let mut end = 0;
    std::iter::from_fn(move || {
        let place = skip_blanks(text, end);
        let bytes = token_at(&text[place..], 0);
        end = place + bytes.len();
        (!bytes.is_empty()).then_some(Token { place, bytes })
    })
}

/// The first place from `place` on that is neither a blank nor in a comment.
fn skip_blanks(text: &[u8], mut place: usize) -> usize {
    loop {
        let rest = &text[place..];
        if rest.starts_with(b"--") {
            let length = rest.iter().position(|&byte| byte == b'\n');
            place += length.unwrap_or(rest.len());
        } else if matches!(rest.first(), Some(b' ' | b'\t' | b'\n' | b'\r')) {
            place += 1;
        } else {
            return place;
        }
    }
}

//! The limits (refusal 4), counted token by token while the grammar is read: "token that passes
//! it". The grammar asks first, since 3 comes first at one token.

use crate::answer::{refusal, Outcome};
use crate::lexer::Token;

/// "At most 16,384 bytes."
pub const TEXT: usize = 16_384;
/// "Limits: name 32 bytes, 17 `in` ports, 16 `out`, 32 variables, 512 statements, statement depth
/// 16 (process body is 1), 64 literals, names and operators in an expression, 16 open parentheses,
/// literal 2147483647."
pub const NAME: usize = 32;
pub const INPUTS: usize = 17;
pub const OUTPUTS: usize = 16;
pub const VARIABLES: usize = 32;
pub const STATEMENTS: usize = 512;
pub const DEPTH: usize = 16;
pub const ITEMS: usize = 64;
pub const PARENTHESES: usize = 16;
pub const LITERAL: i32 = i32::MAX;

/// The counts so far.
#[derive(Default)]
pub struct Limits {
    inputs: usize,
    outputs: usize,
    variables: usize,
    statements: usize,
    items: usize,
    parentheses: usize,
}

/// 4 at the token if the count is above its limit.
fn within(count: usize, limit: usize, token: Token) -> Outcome<()> {
    if count > limit {
        return Err(refusal(4, token.start));
    }
    Ok(())
}

impl Limits {
    /// A name, wherever it stands.
    pub fn name(&self, name: Token) -> Outcome<()> {
        within(name.end - name.start, NAME, name)
    }

    /// A number, wherever it stands; leading zeros are free.
    pub fn literal(&self, number: Token, text: &[u8]) -> Outcome<i32> {
        let value = number.bytes(text).iter().fold(0i64, |value, digit| {
            let next = value * 10 + i64::from(digit - b'0');
            next.min(i64::from(LITERAL) + 1)
        });
        i32::try_from(value).map_err(|_| refusal(4, number.start))
    }

    /// A group of `in` ports: only at the mode word is it decided that its names are inputs.
    pub fn inputs(&mut self, names: usize, mode: Token) -> Outcome<()> {
        self.inputs += names;
        within(self.inputs, INPUTS, mode)
    }

    /// A group of `out` ports, passed at the mode word too.
    pub fn outputs(&mut self, names: usize, mode: Token) -> Outcome<()> {
        self.outputs += names;
        within(self.outputs, OUTPUTS, mode)
    }

    /// One more variable.
    pub fn variable(&mut self, name: Token) -> Outcome<()> {
        self.variables += 1;
        within(self.variables, VARIABLES, name)
    }

    /// One more statement, with its first token.
    pub fn statement(&mut self, depth: usize, first: Token) -> Outcome<()> {
        self.statements += 1;
        within(depth, DEPTH, first)?;
        within(self.statements, STATEMENTS, first)
    }

    /// The beginning of an expression.
    pub fn expression(&mut self) {
        self.items = 0;
        self.parentheses = 0;
    }

    /// One more literal, name or operator of the expression.
    pub fn item(&mut self, token: Token) -> Outcome<()> {
        self.items += 1;
        within(self.items, ITEMS, token)
    }

    /// One more open parenthesis.
    pub fn open(&mut self, token: Token) -> Outcome<()> {
        self.parentheses += 1;
        within(self.parentheses, PARENTHESES, token)
    }

    /// A parenthesis closed.
    pub fn close(&mut self) {
        self.parentheses -= 1;
    }
}

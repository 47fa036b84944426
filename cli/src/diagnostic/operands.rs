//! Where the operands of an operator begin and end.

use crate::tokens::Token;

/// How tightly an operator binds: chains least, `not` most.
pub fn level(token: &Token) -> Option<u8> {
    const LEVELS: [&[&str]; 5] = [
        &["and", "or", "xor"],
        &["=", "/=", "<", "<=", ">", ">="],
        &["+", "-"],
        &["*", "/", "mod", "rem"],
        &["not"],
    ];
    let found = LEVELS
        .iter()
        .position(|operators| token.is_one_of(operators));
    found.map(|index| index as u8)
}

/// Whether a token is the first of a statement.
pub fn starts_statement(tokens: &[Token], index: usize) -> bool {
    let behind = ["begin", ";", "then", "else", "loop"];
    index > 0 && tokens[index - 1].is_one_of(&behind) && !tokens[index].is_one_of(&["end", "else"])
}

/// The expression that a token of a statement is in: the first token and the one behind it.
pub fn expression(tokens: &[Token], index: usize) -> Option<(usize, usize)> {
    let statement = (0..=index).rev().find(|&i| starts_statement(tokens, i))?;
    let headed = tokens[statement].is_one_of(&["if", "while"]);
    let first = statement + if headed { 1 } else { 2 };
    let ends = |token: &Token| token.is_one_of(&[";", "then", "loop"]);
    let length = tokens.get(first..)?.iter().position(ends)?;
    Some((first, first + length))
}

/// The left operand of the operator at an index: empty for a sign and for `not`.
pub fn left<'a, 'b>(
    tokens: &'b [Token<'a>],
    (first, _): (usize, usize),
    index: usize,
) -> &'b [Token<'a>] {
    let own = level(&tokens[index]).unwrap_or(0);
    let mut depth = 0;
    let mut start = index;
    while start > first {
        let token = &tokens[start - 1];
        match (token.is(")"), token.is("("), depth) {
            (true, ..) => depth += 1,
            (_, true, 0) => break,
            (_, true, _) => depth -= 1,
            _ if depth == 0 && level(token).is_some_and(|other| other < own) => break,
            _ => (),
        }
        start -= 1;
    }
    &tokens[start..index]
}

/// The right operand of the operator at an index.
pub fn right<'a, 'b>(
    tokens: &'b [Token<'a>],
    (_, end): (usize, usize),
    index: usize,
) -> &'b [Token<'a>] {
    let own = level(&tokens[index]).unwrap_or(0);
    let mut depth = 0;
    let mut stop = index + 1;
    while stop < end {
        let token = &tokens[stop];
        match (token.is("("), token.is(")"), depth) {
            (true, ..) => depth += 1,
            (_, true, 0) => break,
            (_, true, _) => depth -= 1,
            _ if depth == 0 && level(token).is_some_and(|other| other <= own) => break,
            _ => (),
        }
        stop += 1;
    }
    &tokens[index + 1..stop]
}

/// Whether an expression is a chain of `and`, `or` or `xor` outside parentheses.
pub fn is_chain(tokens: &[Token]) -> bool {
    let mut depth = 0;
    tokens.iter().any(|token| {
        depth += i32::from(token.is("(")) - i32::from(token.is(")"));
        depth == 0 && level(token) == Some(0)
    })
}

#[cfg(test)]
mod tests {
    use super::{expression, left, right};
    use crate::tokens::{tokens, Token};

    /// The operands of the operator that stands at `@`, which is taken away first.
    fn operands(statement: &str) -> (String, String) {
        let place = "begin ".len() + statement.find('@').expect("a mark");
        let text = format!("begin {}", statement.replace('@', ""));
        let tokens: Vec<Token> = tokens(text.as_bytes()).collect();
        let index = tokens
            .iter()
            .position(|token| token.place == place)
            .expect("an operator");
        let bounds = expression(&tokens, index).expect("an expression");
        let words = |part: &[Token]| match (part.first(), part.last()) {
            (Some(first), Some(last)) => text[first.place..last.end()].to_string(),
            _ => String::new(),
        };
        (
            words(left(&tokens, bounds, index)),
            words(right(&tokens, bounds, index)),
        )
    }

    fn are(statement: &str, one: &str, other: &str) {
        assert_eq!(
            operands(statement),
            (one.to_string(), other.to_string()),
            "{statement}"
        );
    }

    #[test]
    fn by_precedence() {
        are("v := a @+ b * c;", "a", "b * c");
        are("v := a - b @+ c;", "a - b", "c");
        are("v := a @- b + c;", "a", "b");
        are("v := a * b @mod c + d;", "a * b", "c");
        are("v := @- a * b + c;", "", "a * b");
        are("v := - a * b @+ c;", "- a * b", "c");
        are("v := - a @* b + c;", "a", "b");
        are(
            "if a = b @and c < d and e then null; end if;",
            "a = b",
            "c < d",
        );
        are(
            "if a = b and c < d @and e then null; end if;",
            "a = b and c < d",
            "e",
        );
        are("if not a @= b then null; end if;", "not a", "b");
        are("if @not a = b then null; end if;", "", "a");
        are("while a @<= b + 1 or c loop null; end loop;", "a", "b + 1");
        are("o <= a @<= b;", "a", "b");
    }

    #[test]
    fn by_parentheses() {
        are("v := (a + b) @* (c - d);", "(a + b)", "(c - d)");
        are("v := ((a @+ b) * c);", "a", "b");
        are("v := a * (b @= c) + d;", "b", "c");
        are("o <= (a and (b @or c)) xor d;", "b", "c");
        are("o <= (a and (b or c)) @xor d;", "(a and (b or c))", "d");
    }
}

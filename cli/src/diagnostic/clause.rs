//! Which of a refusal's sentences it was, in words: the neighbours of the token tell where it
//! stands, and the proved compiler tells what names and expressions are.

use crate::diagnostic::operands::{expression, is_chain, left, level, right, starts_statement};
use crate::diagnostic::question::{Declarations, Role, Type};
use crate::tokens::Token;

/// A refused text by its tokens, and the token that is told.
pub struct Told<'a> {
    /// The text.
    pub text: &'a [u8],
    /// Its tokens.
    pub tokens: &'a [Token<'a>],
    /// The index of the token that is told.
    pub index: usize,
}

/// A token in a sentence, cut where it is long.
pub fn quoted(bytes: &[u8]) -> String {
    const LONGEST: usize = 40;
    let shown: String = String::from_utf8_lossy(bytes)
        .chars()
        .take(LONGEST)
        .collect();
    let cut = if bytes.len() > LONGEST { ".." } else { "" };
    format!("`{shown}{cut}`")
}

impl<'a> Told<'a> {
    fn token(&self) -> &Token<'a> {
        &self.tokens[self.index]
    }

    fn name(&self) -> String {
        quoted(self.token().bytes)
    }

    /// The token so many places before.
    fn before(&self, steps: usize) -> Option<&Token<'a>> {
        self.tokens.get(self.index.checked_sub(steps)?)
    }

    fn follows(&self, words: &[&str]) -> bool {
        self.before(1).is_some_and(|token| token.is_one_of(words))
    }

    fn declarations(&self) -> Option<Declarations<'a>> {
        Declarations::of(self.text, self.tokens)
    }

    /// Whether the token stands before the statements.
    fn is_declared_here(&self) -> bool {
        let before = &self.tokens[..self.index];
        let process = before.iter().position(|token| token.is("process"));
        process.is_none_or(|process| !before[process..].iter().any(|token| token.is("begin")))
    }

    /// Which limit was passed (4).
    pub fn limit(&self) -> String {
        let token = self.token();
        let digits = token.bytes.iter().all(u8::is_ascii_digit);
        if digits
            && token
                .shown()
                .parse::<u64>()
                .map_or(true, |n| n > i32::MAX as u64)
        {
            return format!("{} is above 2147483647, the largest number", self.name());
        }
        if token.bytes.len() > 32 {
            return format!(
                "this name has {} bytes; a name has at most 32",
                token.bytes.len()
            );
        }
        match token.folded().as_str() {
            "in" => "more than 17 `in` ports with this group".to_string(),
            "out" => "more than 16 `out` ports with this group".to_string(),
            "(" => "more than 16 parentheses are open here".to_string(),
            _ if self.is_declared_here() => {
                format!("{} is the 33rd variable; 32 are allowed", self.name())
            }
            _ if starts_statement(self.tokens, self.index) => self.statement_limit(),
            _ => "more than 64 literals, names and operators in this expression".to_string(),
        }
    }

    fn statement_limit(&self) -> String {
        let body = self.tokens[..self.index]
            .iter()
            .rposition(|token| token.is("begin"));
        let first = body.unwrap_or(0) + 1;
        let before = (first..self.index).filter(|&i| starts_statement(self.tokens, i));
        match before.count() {
            512.. => "this is the 513th statement; 512 are allowed".to_string(),
            _ => "this statement stands at depth 17; 16 are allowed, the process body being 1"
                .to_string(),
        }
    }

    /// What is wrong with a name (5).
    pub fn name_clause(&self) -> String {
        let name = self.name();
        if self.follows(&["end"]) {
            return format!("the name after `end` is {name}, which ends something else");
        }
        if self.follows(&["of"]) {
            return format!("the name after `of` is {name}, but the entity has another name");
        }
        if self.is_declared_here() {
            return format!("{name} is declared twice; ports and variables share one set of names");
        }
        let asked = self.declarations();
        let word = self.token().bytes;
        match asked.as_ref().and_then(|asked| asked.declares(word)) {
            Some(false) => format!("{name} is not declared{}", self.alike()),
            Some(true) => self.wrong_kind(asked.and_then(|asked| asked.role(word))),
            None => format!("{name} is unknown or of the wrong kind here"),
        }
    }

    fn wrong_kind(&self, role: Option<Role>) -> String {
        let name = self.name();
        let what = role.map_or("something else", Role::words);
        let next = self.tokens.get(self.index + 1);
        match next {
            Some(next) if starts_statement(self.tokens, self.index) && next.is("<=") => {
                format!("`<=` assigns outputs, and {name} is {what}")
            }
            Some(next) if starts_statement(self.tokens, self.index) && next.is(":=") => {
                format!("`:=` assigns variables, and {name} is {what}")
            }
            _ => format!("{name} is {what}, and outputs cannot be read"),
        }
    }

    /// A declared name that differs in little.
    fn alike(&self) -> String {
        let name = self.token().folded();
        let declared = self.declared();
        let near = declared.iter().map(|other| (distance(&name, other), other));
        match near.min() {
            Some((difference, other)) if 3 * difference <= name.len().max(other.len()) => {
                format!("; a name like it is `{other}`")
            }
            _ => String::new(),
        }
    }

    /// All declared names: words before a `,` or `:` up to the statements.
    fn declared(&self) -> Vec<String> {
        let process = self
            .tokens
            .iter()
            .position(|token| token.is("process"))
            .unwrap_or(0);
        let begin = self.tokens[process..]
            .iter()
            .position(|token| token.is("begin"));
        let head = &self.tokens[..process + begin.unwrap_or(0)];
        let named = head
            .windows(2)
            .filter(|pair| pair[1].is_one_of(&[",", ":"]));
        named.map(|pair| pair[0].folded()).collect()
    }

    /// What is wrong with a type (6).
    pub fn type_clause(&self) -> String {
        let token = self.token();
        if self.is_declared_here() {
            return self.initial_value();
        }
        if starts_statement(self.tokens, self.index) {
            return match token.is_one_of(&["if", "while"]) {
                true => self.condition(),
                false => self.target(),
            };
        }
        self.operator()
    }

    fn initial_value(&self) -> String {
        let value = match self.token().is("-") {
            true => self.part(&self.tokens[self.index..self.index + 2]),
            false => self.name(),
        };
        match self.before(2) {
            Some(kind) if kind.is("integer") => {
                format!("{value} is no initial value of an integer; it has a number")
            }
            Some(kind) if kind.is("std_logic") => {
                format!("{value} is no initial value of a std_logic; it has `'0'` or `'1'`")
            }
            _ => format!("{value} is no initial value of its type"),
        }
    }

    /// The type of some tokens that are an expression.
    fn type_of(&self, tokens: &[Token]) -> Option<Type> {
        let (first, last) = (tokens.first()?, tokens.last()?);
        let expression = &self.text[first.place..last.end()];
        self.declarations()?.type_of(expression, is_chain(tokens))
    }

    fn expression(&self) -> Option<&'a [Token<'a>]> {
        let (first, end) = expression(self.tokens, self.index)?;
        self.tokens.get(first..end)
    }

    fn condition(&self) -> String {
        let found = self.expression().and_then(|tokens| self.type_of(tokens));
        let what = found.map_or(String::new(), |found| {
            format!(", and this one is {}", found.words())
        });
        format!("the condition of {} is a boolean{what}", self.name())
    }

    fn target(&self) -> String {
        let name = self.name();
        let mark = self
            .tokens
            .get(self.index + 1)
            .map_or(&b":="[..], |token| token.bytes);
        let asked = self.declarations();
        let own = asked.and_then(|asked| asked.type_of_target(self.token().bytes, mark));
        let given = self.expression().and_then(|tokens| self.type_of(tokens));
        match (own, given) {
            (Some(own), Some(given)) => {
                format!(
                    "{name} is {}, and what it is assigned is {}",
                    own.words(),
                    given.words()
                )
            }
            _ => format!("{name} is assigned a value of another type"),
        }
    }

    fn operator(&self) -> String {
        let bounds = expression(self.tokens, self.index).unwrap_or((self.index, self.index));
        let (before, behind) = (
            left(self.tokens, bounds, self.index),
            right(self.tokens, bounds, self.index),
        );
        let takes = self.takes(before.is_empty());
        let one = before.is_empty();
        let sides = [("the left operand", before), ("the right operand", behind)];
        let told: Vec<String> = sides
            .iter()
            .filter_map(|(side, tokens)| Some((side, tokens, self.type_of(tokens)?)))
            .map(|(side, tokens, found)| {
                let side = if one { "the operand" } else { side };
                format!("{side} {} is {}", self.part(tokens), found.words())
            })
            .collect();
        match told.is_empty() {
            true => format!("{} takes {takes}", self.name()),
            false => format!("{} takes {takes}; {}", self.name(), told.join(", ")),
        }
    }

    /// What an operator takes.
    fn takes(&self, one: bool) -> &'static str {
        match (level(self.token()), one) {
            (Some(0), _) => "two booleans or two std_logics",
            (Some(4), _) => "a boolean or a std_logic",
            (Some(2), true) => "an integer as a sign",
            (Some(1), _) if self.token().is_one_of(&["=", "/="]) => {
                "two integers or two std_logics"
            }
            _ => "two integers",
        }
    }

    fn part(&self, tokens: &[Token]) -> String {
        match (tokens.first(), tokens.last()) {
            (Some(first), Some(last)) => quoted(&self.text[first.place..last.end()]),
            _ => String::new(),
        }
    }

    /// What is wrong with the clock (8).
    pub fn clock_clause(&self) -> String {
        let name = self.name();
        let waits = |token: &&Token| token.is("until");
        let earlier = self.tokens[..self.index].iter().filter(waits).count();
        let first = self.tokens.iter().position(|token| token.is("until"));
        let clock = first.and_then(|until| self.tokens.get(until + 1));
        match (self.follows(&["until"]), clock) {
            (true, Some(clock)) if earlier > 1 => {
                format!(
                    "this wait names {name}, the first one {}",
                    quoted(clock.bytes)
                )
            }
            (true, _) => {
                format!("the first wait names the clock, and {name} is no std_logic input")
            }
            (false, _) => format!("{name} is the clock, which only waits may name"),
        }
    }

    /// What can be passed without a wait (9).
    pub fn class_clause(&self) -> String {
        match self.token().is("while") {
            true => "the body of this `while` can be gone through without a `wait`".to_string(),
            false => "the process can be gone through without a `wait`".to_string(),
        }
    }

    /// Which group has no value (7).
    pub fn value_clause(&self) -> String {
        let what = if self.follows(&["variable"]) {
            "variables"
        } else {
            "outputs"
        };
        format!(
            "the group of {} has no initial value, which {what} need",
            self.name()
        )
    }
}

/// In how many letters two words differ: letters put in, left out or exchanged.
fn distance(one: &str, other: &str) -> usize {
    let other: Vec<char> = other.chars().collect();
    let mut row: Vec<usize> = (0..=other.len()).collect();
    for (i, a) in one.chars().enumerate() {
        let mut corner = row[0];
        row[0] = i + 1;
        for (j, &b) in other.iter().enumerate() {
            let changed = corner + usize::from(a != b);
            corner = row[j + 1];
            row[j + 1] = changed.min(corner + 1).min(row[j] + 1);
        }
    }
    row[other.len()]
}

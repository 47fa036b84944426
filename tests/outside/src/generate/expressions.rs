//! Random expressions of a type, level by level as the grammar has them.

use super::random::Random;
use super::spelling::Tokens;
use crate::limits::{ITEMS, PARENTHESES};

/// What an expression is to give.
#[derive(Clone, Copy, PartialEq, Eq, Debug)]
pub enum Give {
    Integer,
    StdLogic,
    Boolean,
}

/// Makes expressions over names that may be read.
pub struct Expressions<'a> {
    pub integers: &'a [String],
    pub std_logics: &'a [String],
}

impl Expressions<'_> {
    /// An expression within the limits; the larger the size, the longer it tends to be.
    pub fn expression(&self, give: Give, size: usize, random: &mut Random) -> Tokens {
        let mut size = size;
        loop {
            let mut tokens = Vec::new();
            self.logical(give, size, &mut tokens, random);
            if within(&tokens) {
                return tokens;
            }
            size -= 1;
        }
    }

    fn logical(&self, give: Give, size: usize, tokens: &mut Tokens, random: &mut Random) {
        if give == Give::Integer || size == 0 || random.chance(60) {
            return self.relation(give, size, tokens, random);
        }
        let operator = *random.pick(&["and", "or", "xor"]);
        self.relation(give, size - 1, tokens, random);
        for _ in 0..random.between(1, 3) {
            tokens.push(operator.to_string());
            self.relation(give, size - 1, tokens, random);
        }
    }

    fn relation(&self, give: Give, size: usize, tokens: &mut Tokens, random: &mut Random) {
        if give != Give::Boolean || size > 0 && random.chance(20) {
            return self.simple(give, size, tokens, random);
        }
        let (operand, operators): (Give, &[&str]) = if random.chance(60) {
            (Give::Integer, &["=", "/=", "<", "<=", ">", ">="])
        } else {
            (Give::StdLogic, &["=", "/="])
        };
        let size = size.saturating_sub(1);
        self.simple(operand, size, tokens, random);
        tokens.push(random.pick(operators).to_string());
        self.simple(operand, size, tokens, random);
    }

    fn simple(&self, give: Give, size: usize, tokens: &mut Tokens, random: &mut Random) {
        if give != Give::Integer {
            return self.factor(give, size, tokens, random);
        }
        if random.chance(15) {
            tokens.push("-".to_string());
        }
        self.term(size, tokens, random);
        if size == 0 {
            return;
        }
        for _ in 0..random.below(3) {
            tokens.push(random.pick(&["+", "-"]).to_string());
            self.term(size - 1, tokens, random);
        }
    }

    /// A factor, and often one or two behind `*`, `/`, `mod` and `rem`.
    fn term(&self, size: usize, tokens: &mut Tokens, random: &mut Random) {
        self.factor(Give::Integer, size, tokens, random);
        let more = match random.below(10) {
            0..=1 => 1,
            2 if size > 0 => 2,
            _ => 0,
        };
        for _ in 0..more {
            let operator = *random.pick(&["*", "/", "mod", "rem"]);
            tokens.push(operator.to_string());
            // Other divisors than names are seldom 0: a text with many of them would do nothing.
            match operator != "*" && random.chance(40) {
                true if random.chance(8) => tokens.push("0".to_string()),
                true => tokens.push(random.between(1, 9).to_string()),
                false => self.factor(Give::Integer, size.saturating_sub(1), tokens, random),
            }
        }
    }

    fn factor(&self, give: Give, size: usize, tokens: &mut Tokens, random: &mut Random) {
        if give != Give::Integer && random.chance(25) {
            tokens.push("not".to_string());
        }
        // The only primary that is a boolean is an expression in parentheses.
        if give == Give::Boolean || size > 0 && random.chance(25) {
            tokens.push("(".to_string());
            self.logical(give, size.saturating_sub(1), tokens, random);
            tokens.push(")".to_string());
            return;
        }
        tokens.push(self.leaf(give, random));
    }

    fn leaf(&self, give: Give, random: &mut Random) -> String {
        let names = match give {
            Give::Integer => self.integers,
            _ => self.std_logics,
        };
        if !names.is_empty() && random.chance(65) {
            return random.pick(names).clone();
        }
        match give {
            Give::Integer => number(random),
            _ => random.pick(&["'0'", "'1'"]).to_string(),
        }
    }
}

/// A number literal, sometimes with leading zeros.
pub fn number(random: &mut Random) -> String {
    let value = random.integer().max(0);
    if random.chance(5) {
        return format!("{value:05}");
    }
    value.to_string()
}

/// Whether an expression keeps the limits.
fn within(tokens: &[String]) -> bool {
    let mut items = 0;
    let mut open = 0;
    let mut deepest = 0;
    for token in tokens {
        match token.as_str() {
            "(" => {
                open += 1;
                deepest = deepest.max(open);
            }
            ")" => open -= 1,
            _ => items += 1,
        }
    }
    items <= ITEMS && deepest <= PARENTHESES
}

//! Questions to the proved compiler about the names and expressions of a text: its declarations
//! with other statements behind them.

use rabtishu::{check, Refusal};

use crate::tokens::Token;

/// What an expression can be.
#[derive(Clone, Copy, Debug, PartialEq, Eq)]
pub enum Type {
    /// `std_logic`.
    Bit,
    /// `integer`.
    Integer,
    /// What conditions are.
    Boolean,
}

impl Type {
    /// The type in a sentence.
    pub fn words(self) -> &'static str {
        match self {
            Type::Bit => "std_logic",
            Type::Integer => "integer",
            Type::Boolean => "boolean",
        }
    }
}

/// What a name can be declared as.
#[derive(Clone, Copy, Debug, PartialEq, Eq)]
pub enum Role {
    /// An `in` port.
    Input,
    /// An `out` port.
    Output,
    /// A variable.
    Variable,
}

impl Role {
    /// The role in a sentence.
    pub fn words(self) -> &'static str {
        match self {
            Role::Input => "an input",
            Role::Output => "an output",
            Role::Variable => "a variable",
        }
    }
}

/// The text up to its statements, and the name that ends it.
pub struct Declarations<'a> {
    before: &'a [u8],
    architecture: &'a [u8],
}

impl<'a> Declarations<'a> {
    /// The declarations of a text that the grammar allows.
    pub fn of(text: &'a [u8], tokens: &[Token<'a>]) -> Option<Declarations<'a>> {
        let named = tokens.iter().position(|token| token.is("architecture"))?;
        let process = tokens.iter().position(|token| token.is("process"))?;
        let begin = tokens[process..].iter().find(|token| token.is("begin"))?;
        let architecture = tokens.get(named + 1)?.bytes;
        Some(Declarations {
            before: &text[..begin.end()],
            architecture,
        })
    }

    /// Where statements that are asked about begin.
    fn start(&self) -> usize {
        self.before.len() + 1
    }

    /// The refusal of these declarations with other statements.
    fn ask(&self, statements: &[&[u8]]) -> Result<(), Refusal> {
        let statements = statements.concat();
        let end = b" end process ; end ";
        check(
            &[
                self.before,
                b"\n",
                &statements,
                end,
                self.architecture,
                b" ;",
            ]
            .concat(),
        )
    }

    /// Whether statements are refused by a number at a place, counted from their beginning.
    fn refused(&self, statements: &[&[u8]], number: u32, offset: usize) -> Option<bool> {
        let place = (self.start() + offset) as u32;
        match self.ask(statements) {
            // The question itself does not fit.
            Err(Refusal {
                number: 1 | 3 | 4, ..
            }) => None,
            told => Some(told == Err(Refusal { number, place })),
        }
    }

    /// Whether a name is declared: a wait's name can meet 5 only by being unknown.
    pub fn declares(&self, name: &[u8]) -> Option<bool> {
        let unknown = self.refused(&[b"wait until ", name, b" = '1' ;"], 5, 11)?;
        Some(!unknown)
    }

    /// What a declared name is: only variables take `:=`, only outputs `<=`.
    pub fn role(&self, name: &[u8]) -> Option<Role> {
        let no_variable = self.refused(&[name, b" := 0 ;"], 5, 0)?;
        let no_output = self.refused(&[name, b" <= 0 ;"], 5, 0)?;
        Some(match (no_variable, no_output) {
            (false, _) => Role::Variable,
            (_, false) => Role::Output,
            _ => Role::Input,
        })
    }

    /// The type of an output or variable, which an assignment of 0 tells.
    pub fn type_of_target(&self, name: &[u8], mark: &[u8]) -> Option<Type> {
        let no_integer = self.refused(&[name, b" ", mark, b" 0 ;"], 6, 0)?;
        Some(if no_integer { Type::Bit } else { Type::Integer })
    }

    /// The type of an expression whose operators all have the operands that they take: it is a
    /// condition, or it can be compared with 0, or it is a std_logic.
    pub fn type_of(&self, expression: &[u8], chain: bool) -> Option<Type> {
        let no_condition = self.refused(&[b"if ", expression, b" then null ; end if ;"], 6, 0)?;
        if !no_condition {
            return Some(Type::Boolean);
        }
        // A chain of `and`, `or`, `xor` is no operand without parentheses.
        let [open, close]: [&[u8]; 2] = if chain { [b"( ", b" )"] } else { [b"", b""] };
        let before = [b"if ", open, expression, close, b" "].concat();
        let compared = self.refused(&[&before, b"= 0 then null ; end if ;"], 6, before.len())?;
        Some(if compared { Type::Bit } else { Type::Integer })
    }
}

//! The tree of a text: what the grammar reads, before names, types and classes are judged.

use crate::lexer::Token;

/// "Types: `std_logic` (0, 1) and `integer`".
#[derive(Clone, Copy, Debug, PartialEq, Eq)]
pub enum Type {
    StdLogic,
    Integer,
}

impl Type {
    /// "(-2147483648 to 2147483647)" is every `i32`.
    pub fn holds(self, value: i32) -> bool {
        self == Type::Integer || value == 0 || value == 1
    }

    /// "a type byte per input (0 std_logic, 1 integer)".
    pub fn byte(self) -> u8 {
        match self {
            Type::StdLogic => 0,
            Type::Integer => 1,
        }
    }

    /// The type with this byte.
    pub fn from_byte(byte: u8) -> Option<Type> {
        match byte {
            0 => Some(Type::StdLogic),
            1 => Some(Type::Integer),
            _ => None,
        }
    }
}

/// What a declared name is.
#[derive(Clone, Copy, Debug, PartialEq, Eq)]
pub enum Role {
    Input,
    Output,
    Variable,
}

/// "A number may have `-`"; `first` is the value's first token.
#[derive(Clone, Copy, Debug)]
pub struct Initial {
    pub first: Token,
    pub kind: Type,
    pub value: i32,
}

/// A port group or a variable group.
#[derive(Clone, Debug)]
pub struct Group {
    pub names: Vec<Token>,
    pub role: Role,
    pub kind: Type,
    pub initial: Option<Initial>,
}

#[derive(Clone, Copy, Debug, PartialEq, Eq)]
pub enum Unary {
    Sign,
    Not,
}

#[derive(Clone, Copy, Debug, PartialEq, Eq)]
pub enum Binary {
    Plus,
    Minus,
    Times,
    Divide,
    Mod,
    Rem,
    Equal,
    Unequal,
    Less,
    LessEqual,
    Greater,
    GreaterEqual,
    And,
    Or,
    Xor,
}

/// An expression; `at` is the operator's token. Parentheses only group.
#[derive(Clone, Debug)]
pub enum Expression {
    Integer(i32),
    StdLogic(i32),
    Name(Token),
    Unary {
        operator: Unary,
        at: Token,
        operand: Box<Expression>,
    },
    Binary {
        operator: Binary,
        at: Token,
        left: Box<Expression>,
        right: Box<Expression>,
    },
}

impl Expression {
    /// Every name read in the expression.
    pub fn names(&self) -> Vec<Token> {
        match self {
            Expression::Integer(_) | Expression::StdLogic(_) => Vec::new(),
            Expression::Name(name) => vec![*name],
            Expression::Unary { operand, .. } => operand.names(),
            Expression::Binary { left, right, .. } => [left.names(), right.names()].concat(),
        }
    }
}

/// A statement with its first token. Its number is its rank in text order.
#[derive(Clone, Debug)]
pub struct Statement {
    pub first: Token,
    pub form: Form,
}

/// "statements: `o <= e ;` `v := e ;` `null ;` `wait until clk = '1' ;`
/// `if e then S else S end if ;` (else optional) `while e loop S end loop ;`".
#[derive(Clone, Debug)]
pub enum Form {
    SignalAssignment(Expression),
    VariableAssignment(Expression),
    Null,
    Wait {
        clock: Token,
    },
    If {
        condition: Expression,
        then: Vec<Statement>,
        otherwise: Option<Vec<Statement>>,
    },
    While {
        condition: Expression,
        body: Vec<Statement>,
    },
}

/// A whole text: "`entity E is port ( GROUPS ) ; end E ;` then `architecture A of E is begin
/// process VARS begin STATEMENTS end process ; end A ;`".
#[derive(Clone, Debug)]
pub struct Tree {
    pub entity: Token,
    pub ports: Vec<Group>,
    pub end_entity: Token,
    pub architecture: Token,
    pub of: Token,
    pub process: Token,
    pub variables: Vec<Group>,
    pub body: Vec<Statement>,
    pub end_architecture: Token,
}

impl Tree {
    /// All groups in text order.
    pub fn groups(&self) -> impl Iterator<Item = &Group> {
        self.ports.iter().chain(&self.variables)
    }

    /// All statements in text order, so that the k-th is statement number k.
    pub fn statements(&self) -> Vec<&Statement> {
        let mut list = Vec::new();
        gather(&self.body, &mut list);
        list
    }
}

fn gather<'a>(statements: &'a [Statement], list: &mut Vec<&'a Statement>) {
    for statement in statements {
        list.push(statement);
        match &statement.form {
            Form::If {
                then, otherwise, ..
            } => {
                gather(then, list);
                gather(otherwise.as_deref().unwrap_or(&[]), list);
            }
            Form::While { body, .. } => gather(body, list),
            _ => {}
        }
    }
}

impl Statement {
    /// The expression of the statement, if it has one.
    pub fn expression(&self) -> Option<&Expression> {
        match &self.form {
            Form::SignalAssignment(value) | Form::VariableAssignment(value) => Some(value),
            Form::If { condition, .. } | Form::While { condition, .. } => Some(condition),
            Form::Null | Form::Wait { .. } => None,
        }
    }
}

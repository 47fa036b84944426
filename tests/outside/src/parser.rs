//! The grammar (refusal 3) by recursive descent, with the limits (refusal 4) asked at each token
//! that the grammar has let pass. Every choice is made by the next token alone, so the first token
//! that fits no choice is the "first token that cannot continue".

use crate::answer::{refusal, Outcome, Refusal};
use crate::lexer::{Kind, Token};
use crate::limits::Limits;
use crate::tree::{Binary, Expression, Form, Group, Initial, Role, Statement, Tree, Type, Unary};

/// The tree of the tokens of a text, or 3 or 4.
pub fn parse(text: &[u8], tokens: &[Token]) -> Outcome<Tree> {
    let mut parser = Parser {
        text,
        tokens,
        at: 0,
        limits: Limits::default(),
    };
    let tree = parser.tree()?;
    match parser.peek() {
        None => Ok(tree),
        Some(_) => Err(parser.no_sentence()),
    }
}

struct Parser<'a> {
    text: &'a [u8],
    tokens: &'a [Token],
    at: usize,
    limits: Limits,
}

impl Parser<'_> {
    fn peek(&self) -> Option<Kind> {
        self.tokens.get(self.at).map(|token| token.kind)
    }

    /// 3 at "first token that cannot continue, or text length".
    fn no_sentence(&self) -> Refusal {
        let token = self.tokens.get(self.at);
        refusal(3, token.map_or(self.text.len(), |token| token.start))
    }

    /// The next token, if it is of this kind.
    fn take(&mut self, kind: Kind) -> Outcome<Token> {
        if self.peek() != Some(kind) {
            return Err(self.no_sentence());
        }
        self.at += 1;
        Ok(self.tokens[self.at - 1])
    }

    /// The next token if it is of this kind, else nothing is taken.
    fn perhaps(&mut self, kind: Kind) -> Option<Token> {
        self.take(kind).ok()
    }

    fn name(&mut self) -> Outcome<Token> {
        let name = self.take(Kind::Name)?;
        self.limits.name(name)?;
        Ok(name)
    }

    fn tree(&mut self) -> Outcome<Tree> {
        self.take(Kind::Entity)?;
        let entity = self.name()?;
        self.take(Kind::Is)?;
        self.take(Kind::Port)?;
        self.take(Kind::Open)?;
        let ports = self.ports()?;
        self.take(Kind::Close)?;
        self.take(Kind::Semicolon)?;
        self.take(Kind::End)?;
        let end_entity = self.name()?;
        self.take(Kind::Semicolon)?;
        self.take(Kind::Architecture)?;
        let architecture = self.name()?;
        self.take(Kind::Of)?;
        let of = self.name()?;
        self.take(Kind::Is)?;
        self.take(Kind::Begin)?;
        let process = self.take(Kind::Process)?;
        let variables = self.variables()?;
        self.take(Kind::Begin)?;
        let body = self.statements(1)?;
        self.take(Kind::End)?;
        self.take(Kind::Process)?;
        self.take(Kind::Semicolon)?;
        self.take(Kind::End)?;
        let end_architecture = self.name()?;
        self.take(Kind::Semicolon)?;
        Ok(Tree {
            entity,
            ports,
            end_entity,
            architecture,
            of,
            process,
            variables,
            body,
            end_architecture,
        })
    }

    /// "a port group is names with commas, `:`, `in` or `out`, a type, perhaps `:=` and an initial
    /// value; groups are parted by `;`."
    fn ports(&mut self) -> Outcome<Vec<Group>> {
        let mut groups = vec![self.port_group()?];
        while self.perhaps(Kind::Semicolon).is_some() {
            groups.push(self.port_group()?);
        }
        Ok(groups)
    }

    fn port_group(&mut self) -> Outcome<Group> {
        let mut names = vec![self.name()?];
        while self.perhaps(Kind::Comma).is_some() {
            names.push(self.name()?);
        }
        self.take(Kind::Colon)?;
        let role = if let Some(mode) = self.perhaps(Kind::In) {
            self.limits.inputs(names.len(), mode)?;
            Role::Input
        } else {
            let mode = self.take(Kind::Out)?;
            self.limits.outputs(names.len(), mode)?;
            Role::Output
        };
        let kind = self.type_name()?;
        let initial = self.initial()?;
        Ok(Group {
            names,
            role,
            kind,
            initial,
        })
    }

    /// "A variable group is `variable`, names, `:`, type, perhaps `:=` value, `;`."
    fn variables(&mut self) -> Outcome<Vec<Group>> {
        let mut groups = Vec::new();
        while self.perhaps(Kind::Variable).is_some() {
            let mut names = vec![self.variable_name()?];
            while self.perhaps(Kind::Comma).is_some() {
                names.push(self.variable_name()?);
            }
            self.take(Kind::Colon)?;
            let kind = self.type_name()?;
            let initial = self.initial()?;
            self.take(Kind::Semicolon)?;
            groups.push(Group {
                names,
                role: Role::Variable,
                kind,
                initial,
            });
        }
        Ok(groups)
    }

    fn variable_name(&mut self) -> Outcome<Token> {
        let name = self.name()?;
        self.limits.variable(name)?;
        Ok(name)
    }

    fn type_name(&mut self) -> Outcome<Type> {
        if self.perhaps(Kind::StdLogic).is_some() {
            return Ok(Type::StdLogic);
        }
        self.take(Kind::Integer)?;
        Ok(Type::Integer)
    }

    /// "An initial value is a literal; a number may have `-`."
    fn initial(&mut self) -> Outcome<Option<Initial>> {
        if self.perhaps(Kind::Becomes).is_none() {
            return Ok(None);
        }
        for (kind, value) in [(Kind::Zero, 0), (Kind::One, 1)] {
            if let Some(first) = self.perhaps(kind) {
                let kind = Type::StdLogic;
                return Ok(Some(Initial { first, kind, value }));
            }
        }
        let minus = self.perhaps(Kind::Minus);
        let number = self.take(Kind::Number)?;
        let size = self.limits.literal(number, self.text)?;
        Ok(Some(Initial {
            first: minus.unwrap_or(number),
            kind: Type::Integer,
            value: if minus.is_some() { -size } else { size },
        }))
    }

    /// "S and STATEMENTS hold at least one."
    fn statements(&mut self, depth: usize) -> Outcome<Vec<Statement>> {
        let mut list = vec![self.statement(depth)?];
        while self.begins_statement() {
            list.push(self.statement(depth)?);
        }
        Ok(list)
    }

    fn begins_statement(&self) -> bool {
        matches!(
            self.peek(),
            Some(Kind::Name | Kind::Null | Kind::Wait | Kind::If | Kind::While)
        )
    }

    fn statement(&mut self, depth: usize) -> Outcome<Statement> {
        if !self.begins_statement() {
            return Err(self.no_sentence());
        }
        let first = self.tokens[self.at];
        self.limits.statement(depth, first)?;
        let form = match first.kind {
            Kind::Null => self.null()?,
            Kind::Wait => self.wait()?,
            Kind::If => self.if_statement(depth)?,
            Kind::While => self.while_statement(depth)?,
            _ => self.assignment()?,
        };
        self.take(Kind::Semicolon)?;
        Ok(Statement { first, form })
    }

    fn null(&mut self) -> Outcome<Form> {
        self.take(Kind::Null)?;
        Ok(Form::Null)
    }

    /// "`wait until clk = '1' ;`": one form, no expression.
    fn wait(&mut self) -> Outcome<Form> {
        self.take(Kind::Wait)?;
        self.take(Kind::Until)?;
        let clock = self.name()?;
        self.take(Kind::Equal)?;
        self.take(Kind::One)?;
        Ok(Form::Wait { clock })
    }

    fn if_statement(&mut self, depth: usize) -> Outcome<Form> {
        self.take(Kind::If)?;
        let condition = self.expression()?;
        self.take(Kind::Then)?;
        let then = self.statements(depth + 1)?;
        let otherwise = match self.perhaps(Kind::Else) {
            Some(_) => Some(self.statements(depth + 1)?),
            None => None,
        };
        self.take(Kind::End)?;
        self.take(Kind::If)?;
        Ok(Form::If {
            condition,
            then,
            otherwise,
        })
    }

    fn while_statement(&mut self, depth: usize) -> Outcome<Form> {
        self.take(Kind::While)?;
        let condition = self.expression()?;
        self.take(Kind::Loop)?;
        let body = self.statements(depth + 1)?;
        self.take(Kind::End)?;
        self.take(Kind::Loop)?;
        Ok(Form::While { condition, body })
    }

    fn assignment(&mut self) -> Outcome<Form> {
        self.name()?;
        if self.perhaps(Kind::LessEqual).is_some() {
            return Ok(Form::SignalAssignment(self.expression()?));
        }
        self.take(Kind::Becomes)?;
        Ok(Form::VariableAssignment(self.expression()?))
    }

    fn expression(&mut self) -> Outcome<Expression> {
        self.limits.expression();
        self.logical()
    }

    /// "then a chain of `and`, of `or`, or of `xor`, never mixed."
    fn logical(&mut self) -> Outcome<Expression> {
        let mut left = self.relation()?;
        let (kind, operator) = match self.peek() {
            Some(Kind::And) => (Kind::And, Binary::And),
            Some(Kind::Or) => (Kind::Or, Binary::Or),
            Some(Kind::Xor) => (Kind::Xor, Binary::Xor),
            _ => return Ok(left),
        };
        while let Some(at) = self.perhaps(kind) {
            self.limits.item(at)?;
            left = binary(operator, at, left, self.relation()?);
        }
        Ok(left)
    }

    /// "then one of `= /= < <= > >=`".
    fn relation(&mut self) -> Outcome<Expression> {
        let left = self.simple()?;
        let operator = match self.peek() {
            Some(Kind::Equal) => Binary::Equal,
            Some(Kind::Unequal) => Binary::Unequal,
            Some(Kind::Less) => Binary::Less,
            Some(Kind::LessEqual) => Binary::LessEqual,
            Some(Kind::Greater) => Binary::Greater,
            Some(Kind::GreaterEqual) => Binary::GreaterEqual,
            _ => return Ok(left),
        };
        let at = self.tokens[self.at];
        self.at += 1;
        self.limits.item(at)?;
        let right = self.simple()?;
        Ok(binary(operator, at, left, right))
    }

    /// "then `+ -`, with at most one `-` as sign before the first term": "a sign covers the whole
    /// first term" (change request 2).
    fn simple(&mut self) -> Outcome<Expression> {
        let mut left = if let Some(at) = self.perhaps(Kind::Minus) {
            self.limits.item(at)?;
            unary(Unary::Sign, at, self.term()?)
        } else {
            self.term()?
        };
        loop {
            let (operator, at) = if let Some(at) = self.perhaps(Kind::Plus) {
                (Binary::Plus, at)
            } else if let Some(at) = self.perhaps(Kind::Minus) {
                (Binary::Minus, at)
            } else {
                return Ok(left);
            };
            self.limits.item(at)?;
            left = binary(operator, at, left, self.term()?);
        }
    }

    /// "`*`, `/`, `mod` and `rem` on integers, binding tighter than `+`" (change request 2), in any
    /// mixture, the left ones first.
    fn term(&mut self) -> Outcome<Expression> {
        let mut left = self.factor()?;
        loop {
            let operator = match self.peek() {
                Some(Kind::Times) => Binary::Times,
                Some(Kind::Divide) => Binary::Divide,
                Some(Kind::Mod) => Binary::Mod,
                Some(Kind::Rem) => Binary::Rem,
                _ => return Ok(left),
            };
            let at = self.tokens[self.at];
            self.at += 1;
            self.limits.item(at)?;
            left = binary(operator, at, left, self.factor()?);
        }
    }

    /// "precedence: `not` on a primary".
    fn factor(&mut self) -> Outcome<Expression> {
        if let Some(at) = self.perhaps(Kind::Not) {
            self.limits.item(at)?;
            return Ok(unary(Unary::Not, at, self.primary()?));
        }
        self.primary()
    }

    /// "A primary is a literal, a name or `( e )`: a parenthesised expression is again an
    /// expression."
    fn primary(&mut self) -> Outcome<Expression> {
        if let Some(open) = self.perhaps(Kind::Open) {
            self.limits.open(open)?;
            let inner = self.logical()?;
            self.take(Kind::Close)?;
            self.limits.close();
            return Ok(inner);
        }
        if self.peek() == Some(Kind::Name) {
            let name = self.name()?;
            self.limits.item(name)?;
            return Ok(Expression::Name(name));
        }
        for (kind, value) in [(Kind::Zero, 0), (Kind::One, 1)] {
            if let Some(literal) = self.perhaps(kind) {
                self.limits.item(literal)?;
                return Ok(Expression::StdLogic(value));
            }
        }
        let number = self.take(Kind::Number)?;
        self.limits.item(number)?;
        let value = self.limits.literal(number, self.text)?;
        Ok(Expression::Integer(value))
    }
}

fn unary(operator: Unary, at: Token, operand: Expression) -> Expression {
    Expression::Unary {
        operator,
        at,
        operand: Box::new(operand),
    }
}

fn binary(operator: Binary, at: Token, left: Expression, right: Expression) -> Expression {
    Expression::Binary {
        operator,
        at,
        left: Box::new(left),
        right: Box::new(right),
    }
}

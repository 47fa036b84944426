//! Rule 6: "operator's operands, target, condition, initial value of wrong type; what holds a wrong
//! operator is untyped and not itself judged", at "operator, target, `if` or `while`, value's first
//! token".

use crate::declarations::Declarations;
use crate::tree::{Binary, Expression, Form, Role, Statement, Tree, Type, Unary};

/// "boolean occurs only inside expressions."
#[derive(Clone, Copy, Debug, PartialEq, Eq)]
pub enum Of {
    Value(Type),
    Boolean,
}

const INTEGER: Of = Of::Value(Type::Integer);
const STD_LOGIC: Of = Of::Value(Type::StdLogic);

/// The type that a unary operator gives for this operand, if it takes it.
pub fn unary(operator: Unary, operand: Of) -> Option<Of> {
    let takes = match operator {
        Unary::Sign => operand == INTEGER,
        Unary::Not => operand != INTEGER,
    };
    takes.then_some(operand)
}

/// "`+ -` and the orders take integers; `= /=` two integers or two std_logics; `and or xor not`
/// booleans or std_logics." And "`*`, `/`, `mod` and `rem` on integers" (change request 2).
pub fn binary(operator: Binary, left: Of, right: Of) -> Option<Of> {
    use Binary::*;
    if left != right {
        return None;
    }
    match operator {
        Plus | Minus | Times | Divide | Mod | Rem => (left == INTEGER).then_some(INTEGER),
        Less | LessEqual | Greater | GreaterEqual => (left == INTEGER).then_some(Of::Boolean),
        Equal | Unequal => (left != Of::Boolean).then_some(Of::Boolean),
        And | Or | Xor => (left == STD_LOGIC || left == Of::Boolean).then_some(left),
    }
}

/// The places of all offences, in a text without offences against rule 5.
pub fn offences(tree: &Tree, declarations: &Declarations) -> Vec<usize> {
    let mut places = Vec::new();
    for group in tree.groups() {
        // "Initial values of inputs are ignored, their type included."
        if let (Role::Output | Role::Variable, Some(initial)) = (group.role, group.initial) {
            if initial.kind != group.kind {
                places.push(initial.first.start);
            }
        }
    }
    for statement in tree.statements() {
        in_statement(statement, declarations, &mut places);
    }
    places
}

fn in_statement(statement: &Statement, declarations: &Declarations, places: &mut Vec<usize>) {
    let Some(expression) = statement.expression() else {
        return;
    };
    let wanted = match statement.form {
        Form::If { .. } | Form::While { .. } => Some(Of::Boolean),
        _ => declarations
            .find(statement.first)
            .map(|d| Of::Value(d.kind)),
    };
    let given = type_of(expression, declarations, places);
    if given.is_some() && given != wanted {
        places.push(statement.first.start);
    }
}

/// The type of an expression; none if it holds a wrong operator. The places of wrong operators
/// are added.
fn type_of(
    expression: &Expression,
    declarations: &Declarations,
    places: &mut Vec<usize>,
) -> Option<Of> {
    match expression {
        Expression::Integer(_) => Some(INTEGER),
        Expression::StdLogic(_) => Some(STD_LOGIC),
        Expression::Name(name) => declarations.find(*name).map(|d| Of::Value(d.kind)),
        Expression::Unary {
            operator,
            at,
            operand,
        } => {
            let operand = type_of(operand, declarations, places)?;
            let given = unary(*operator, operand);
            if given.is_none() {
                places.push(at.start);
            }
            given
        }
        Expression::Binary {
            operator,
            at,
            left,
            right,
        } => {
            let left = type_of(left, declarations, places);
            let right = type_of(right, declarations, places);
            let given = binary(*operator, left?, right?);
            if given.is_none() {
                places.push(at.start);
            }
            given
        }
    }
}

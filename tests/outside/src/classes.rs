//! Rule 9: "while with a classed body that is not C; if none, process body not C", at "`while`;
//! `process`".

use crate::tree::{Form, Statement, Tree};

/// The classes of document 000, 5.2: never, sometimes, always a wait on the way.
#[derive(Clone, Copy, Debug, PartialEq, Eq, PartialOrd, Ord)]
pub enum Class {
    A,
    B,
    C,
}

/// The places of all offences.
pub fn offences(tree: &Tree) -> Vec<usize> {
    let mut whiles = Vec::new();
    let class = sequence(&tree.body, &mut whiles);
    if whiles.is_empty() && class != Some(Class::C) {
        return vec![tree.process.start];
    }
    whiles
}

/// "In sequence: C if either part is C, else B if either is B, else A." Table 5.3 has no row for a
/// part without a class.
fn sequence(statements: &[Statement], whiles: &mut Vec<usize>) -> Option<Class> {
    let mut class = Some(Class::A);
    for statement in statements {
        let part = class_of(statement, whiles);
        class = class.zip(part).map(|(left, right)| left.max(right));
    }
    class
}

/// "Assignments and null are A, wait is C." The places of whiles with a classed body that is not C
/// are added.
fn class_of(statement: &Statement, whiles: &mut Vec<usize>) -> Option<Class> {
    match &statement.form {
        Form::SignalAssignment(_) | Form::VariableAssignment(_) | Form::Null => Some(Class::A),
        Form::Wait { .. } => Some(Class::C),
        Form::If {
            then, otherwise, ..
        } => {
            // "a missing else counts as null."
            let then = sequence(then, whiles);
            let otherwise = match otherwise {
                Some(statements) => sequence(statements, whiles),
                None => Some(Class::A),
            };
            then.zip(otherwise).map(|pair| match pair {
                // "If: both A gives A, both C gives C, else B".
                (Class::A, Class::A) => Class::A,
                (Class::C, Class::C) => Class::C,
                _ => Class::B,
            })
        }
        // "A while needs a C body and is B."
        Form::While { body, .. } => match sequence(body, whiles) {
            Some(Class::C) => Some(Class::B),
            Some(_) => {
                whiles.push(statement.first.start);
                None
            }
            None => None,
        },
    }
}

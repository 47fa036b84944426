//! Rule 5: "name unknown, declared twice, `end` or `of` name differing, wrong kind as target,
//! output read", at "that name".

use crate::declarations::Declarations;
use crate::lexer::Token;
use crate::tree::{Form, Role, Statement, Tree};

/// The places of all offences.
pub fn offences(tree: &Tree, declarations: &Declarations) -> Vec<usize> {
    let mut places = twice(declarations);
    places.extend(differing(tree, declarations.text));
    for statement in tree.statements() {
        places.extend(in_statement(statement, declarations));
    }
    places
}

/// A name is declared twice where an earlier one is the same.
fn twice(declarations: &Declarations) -> Vec<usize> {
    let first = |name: Token| declarations.find(name).map(|found| found.name.start);
    let names = declarations.list.iter().map(|declared| declared.name);
    names
        .filter(|name| first(*name) != Some(name.start))
        .map(|name| name.start)
        .collect()
}

/// Both names of the entity, and the second of the architecture, must be as at the first.
fn differing(tree: &Tree, text: &[u8]) -> Vec<usize> {
    let pairs = [
        (tree.entity, tree.end_entity),
        (tree.entity, tree.of),
        (tree.architecture, tree.end_architecture),
    ];
    pairs
        .iter()
        .filter(|(first, second)| !first.same_name(second, text))
        .map(|(_, second)| second.start)
        .collect()
}

fn in_statement(statement: &Statement, declarations: &Declarations) -> Vec<usize> {
    let role = |name: Token| declarations.find(name).map(|declared| declared.role);
    let mut places = Vec::new();
    match &statement.form {
        Form::SignalAssignment(_) if role(statement.first) != Some(Role::Output) => {
            places.push(statement.first.start);
        }
        Form::VariableAssignment(_) if role(statement.first) != Some(Role::Variable) => {
            places.push(statement.first.start);
        }
        // "A wait's name can meet 5 only by being unknown."
        Form::Wait { clock } if role(*clock).is_none() => places.push(clock.start),
        _ => {}
    }
    // "Inputs and variables may be read, outputs not."
    let read = statement.expression().map_or(Vec::new(), |e| e.names());
    for name in read {
        if !matches!(role(name), Some(Role::Input | Role::Variable)) {
            places.push(name.start);
        }
    }
    places
}

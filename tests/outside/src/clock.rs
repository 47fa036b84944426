//! Rule 8: "the first wait's name is no std_logic input, another wait differs, clock (if that input
//! exists) read", at "that name".

use crate::declarations::{Declarations, Declared};
use crate::lexer::Token;
use crate::tree::{Form, Role, Tree, Type};

/// The name in the first wait of a text, if it has a wait.
fn first_wait(tree: &Tree) -> Option<Token> {
    waits(tree).first().copied()
}

fn waits(tree: &Tree) -> Vec<Token> {
    let name = |form: &Form| match form {
        Form::Wait { clock } => Some(*clock),
        _ => None,
    };
    let statements = tree.statements();
    statements.iter().filter_map(|s| name(&s.form)).collect()
}

/// The clock: the std_logic input that the first wait names.
pub fn clock(tree: &Tree, declarations: &Declarations) -> Option<Declared> {
    let declared = declarations.find(first_wait(tree)?)?;
    let fits = declared.role == Role::Input && declared.kind == Type::StdLogic;
    fits.then_some(declared)
}

/// The places of all offences, in a text without offences against rules 5 to 7.
pub fn offences(tree: &Tree, declarations: &Declarations) -> Vec<usize> {
    let text = declarations.text;
    let Some(first) = first_wait(tree) else {
        return Vec::new();
    };
    let differs = |name: &Token| !name.same_name(&first, text);
    let mut places: Vec<usize> = waits(tree)
        .iter()
        .filter(|name| differs(name))
        .map(|name| name.start)
        .collect();
    let Some(clock) = clock(tree, declarations) else {
        places.push(first.start);
        return places;
    };
    for statement in tree.statements() {
        let read = statement.expression().map_or(Vec::new(), |e| e.names());
        let clocks = read.iter().filter(|name| name.same_name(&clock.name, text));
        places.extend(clocks.map(|name| name.start));
    }
    places
}

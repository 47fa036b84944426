//! What the names of a text stand for: "Ports and variables share one set of names; entity and
//! architecture names are no part of it."

use crate::lexer::Token;
use crate::tree::{Role, Tree, Type};

/// A declared name.
#[derive(Clone, Copy, Debug)]
pub struct Declared {
    pub name: Token,
    pub role: Role,
    pub kind: Type,
}

/// The declared names of a text, in text order.
pub struct Declarations<'a> {
    pub text: &'a [u8],
    pub list: Vec<Declared>,
}

impl<'a> Declarations<'a> {
    pub fn of(tree: &Tree, text: &'a [u8]) -> Self {
        let list = tree.groups().flat_map(|group| {
            group.names.iter().map(|name| Declared {
                name: *name,
                role: group.role,
                kind: group.kind,
            })
        });
        Declarations {
            text,
            list: list.collect(),
        }
    }

    /// The declaration that a name stands for.
    pub fn find(&self, name: Token) -> Option<Declared> {
        let same = |declared: &&Declared| declared.name.same_name(&name, self.text);
        self.list.iter().find(same).copied()
    }
}

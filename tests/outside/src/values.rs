//! Rule 7: "output or variable group without value", at "its first name".

use crate::tree::{Role, Tree};

/// The places of all offences.
pub fn offences(tree: &Tree) -> Vec<usize> {
    tree.groups()
        .filter(|group| group.role != Role::Input && group.initial.is_none())
        .map(|group| group.names[0].start)
        .collect()
}

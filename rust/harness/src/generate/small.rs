//! One expression of any kind and items above three leaves, to try item rules with.

use crate::image::{Expr, Item, NONE, Name, Tree, kind, role};

/// The number of the leaf that is a Reference; 0 is Missing and 2 a string.
pub const REFERENCE: u32 = 1;
/// The number of the expression above the leaves.
pub const OWNER: u32 = 3;

/// Three leaves and their owner, which has these items; one name, and one text that is empty.
pub fn above_leaves(kind: u32, items: Vec<Item>) -> Tree {
    let text = if kind == kind::REFERENCE { 0 } else { NONE };
    let owner = Expr {
        text,
        ..Expr::new(kind, items)
    };
    Tree {
        exprs: vec![
            Expr::new(kind::MISSING, vec![]),
            Expr::reference(0),
            Expr::string(0),
            owner,
        ],
        names: vec![Name { text: 0, kind: 0 }],
        texts: vec![vec![]],
        entry: OWNER,
    }
}

/// An item whose name and expression are right for its role above those leaves.
pub fn right_item(role: u32) -> Item {
    let name = match role {
        role::STATIC | role::INHERIT | role::INHERIT_FROM | role::PARAMETER => 0,
        _ => NONE,
    };
    let expr = match role {
        role::PARAMETER => NONE,
        _ => REFERENCE,
    };
    Item { role, name, expr }
}

pub fn right_items(roles: &[u32]) -> Vec<Item> {
    roles.iter().map(|&role| right_item(role)).collect()
}

/// The tree of one Missing, 20 bytes as an image.
pub fn missing() -> Tree {
    Tree {
        exprs: vec![Expr::new(kind::MISSING, vec![])],
        ..Tree::default()
    }
}

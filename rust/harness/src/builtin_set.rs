//! References spelt `builtins`. The original takes each of them for the builtin set, document 02 (order 2) only those that
//! resolve to it: the original is asked where the two mean the same.

use crate::image::{Tree, kind};
use crate::tables::{BUILTIN, Given, entries, resolution};

pub const TEXT: &str = "builtins";
/// Its place among the global names.
const PLACE: u32 = 2;

/// The entry of a reference that resolves to the builtin set.
pub fn entry() -> u16 {
    resolution(BUILTIN, PLACE)
}

/// The expressions that are references of that text.
pub fn references(tree: &Tree) -> impl Iterator<Item = usize> {
    let is_set = |e: &usize| {
        let expr = &tree.exprs[*e];
        expr.kind == kind::REFERENCE && tree.texts[expr.text as usize] == TEXT.as_bytes()
    };
    (0..tree.exprs.len()).filter(is_set)
}

/// Whether these tables resolve each reference of that text to the builtin set.
pub fn is_meant(tree: &Tree, given: &Given) -> bool {
    let resolutions: Vec<u16> = entries(&given.resolutions).collect();
    references(tree).all(|e| resolutions[e] == entry())
}

#[cfg(test)]
mod tests {
    use super::*;
    use crate::notation::{int, lambda, let_, list, tree, var, with_};
    use crate::port::own_tables;
    use crate::tables::{DEFINITION, table};

    #[test]
    fn only_what_resolves_to_the_builtin_is_meant() {
        let both = || list(&[var("builtins"), var("lib")]);
        for (root, meant) in [
            (both(), true),
            (with_(var("lib"), both()), true),
            (lambda("lib", both()), true),
            (list(&[var("lib"), var("builtin")]), true),
            (lambda("builtins", both()), false),
            (list(&[both(), lambda("builtins", both())]), false),
            (let_(&[("builtins", int())], both()), false),
        ] {
            let tree = tree(&root);
            assert_eq!(is_meant(&tree, &own_tables(&tree.encode())), meant);
        }
    }

    #[test]
    fn another_place_another_tag_and_none_are_not_meant() {
        let tree = tree(&lambda("builtins", list(&[var("builtins"), var("lib")])));
        let is_meant_by = |entry: u16| {
            let mut given = Given::empty(4, 1);
            given.resolutions = table([entry, resolution(BUILTIN, PLACE), 0, 0].into_iter());
            is_meant(&tree, &given)
        };
        assert!(is_meant_by(entry()));
        let others = [0, resolution(BUILTIN, 3), resolution(DEFINITION, 0)];
        assert!(!others.into_iter().any(is_meant_by));
    }
}

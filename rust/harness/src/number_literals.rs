//! Comparisons with number literals, of which document 02, order 5, says something else than the original: a tree without one
//! is compared with the original as it is.

use crate::image::{Tree, detail, kind};
use crate::notation::{Bindings, Node, assert_, eq, if_, int, rec_set, tree, var};

fn is_number(tree: &Tree, e: u32) -> bool {
    let expr = &tree.exprs[e as usize];
    expr.kind == kind::LITERAL && [detail::INTEGER, detail::FLOAT].contains(&expr.detail)
}

/// Whether == or != stands somewhere in the tree with an integer or a float on a side.
pub fn are_compared(tree: &Tree) -> bool {
    let mut comparisons = tree.exprs.iter().filter(|e| {
        e.kind == kind::BIN_OP && [detail::EQUAL, detail::NOT_EQUAL].contains(&e.detail)
    });
    comparisons.any(|e| e.items.iter().any(|side| is_number(tree, side.expr)))
}

/// `rec { x = x == 1; }`, of which expression 2 is the comparison: the smallest tree whose own tables part the original, which
/// tells that x is an integer, from document 02.
pub fn smallest_condition() -> Tree {
    tree(&bound(eq(var("x"), int())))
}

/// `x == 1` alone, for given tables that resolve x to a name.
pub fn smallest_given() -> Tree {
    let mut tree = smallest_condition();
    tree.exprs.pop();
    tree.entry -= 1;
    tree
}

/// `if x == 1 then rec { x = x; } else 1` with one x and one 1, likewise of a walk: x is resolved where it is visited last.
pub fn smallest_walk() -> Tree {
    let (x, one) = (var("x"), int());
    let test = eq(x.clone(), one.clone());
    tree(&if_(test, bound(x), one))
}

/// `assert x == 1; rec { x = 1; }` with one 1, for given tables.
pub fn smallest_given_walk() -> Tree {
    let one = int();
    tree(&assert_(eq(var("x"), one.clone()), bound(one)))
}

fn bound(value: Node) -> Node {
    rec_set(Bindings::values(&[("x", value)]))
}

#[cfg(test)]
mod tests {
    use super::*;
    use crate::notation::*;

    #[test]
    fn a_number_counts_on_each_side_of_an_equality() {
        let has = |node: Node| are_compared(&tree(&list(&[node, int()])));
        for number in [int(), float()] {
            assert!(has(eq(var("x"), number.clone())) && has(ne(number.clone(), var("x"))));
            assert!(!has(bin_op(detail::LESS, var("x"), number.clone())));
            assert!(!has(eq(var("x"), negate(number))));
        }
        let others = [string("a"), path(), uri(), null(), var("x")];
        assert!(others.into_iter().all(|other| !has(eq(var("x"), other))));
        let is_int = apply(select(var("builtins"), &["isInt"]), var("x"));
        assert!(!has(is_int));
    }
}

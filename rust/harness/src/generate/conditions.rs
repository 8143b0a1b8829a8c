//! Trees made for conditions: calls through names that are spelt alike, operators nested and shared.

use super::{shapes, words};
use crate::image::{Tree, detail, kind};
use crate::notation::*;
use crate::random::Random;

pub fn tree(random: &mut Random) -> Tree {
    match random.below(20) {
        0 => doubling(random),
        1..=2 => {
            let nesting = random.pick(&shapes::CONDITION_NESTINGS);
            shapes::condition_chain(nesting, random.below(60))
        }
        _ => aliases(random),
    }
}

/// A `let` of names spelt as one or two builtins, and conditions that call them. Own tables lead from each to itself or
/// to one around it; given tables lead anywhere among them.
fn aliases(random: &mut Random) -> Tree {
    let words = [(); 2].map(|()| word(random));
    let mut bindings = Bindings::new();
    for _ in 0..random.between(1, 8) {
        let [name, spelt] = [(); 2].map(|()| *random.pick(&words));
        bindings = bindings.bind(name, &callee(random, spelt));
    }
    let count = random.between(1, 6);
    let conditions: Vec<Node> = (0..count).map(|_| condition(random, &words, 3)).collect();
    crate::notation::tree(&lambda("x", let_in(bindings, list(&conditions))))
}

/// Most often a builtin that needs no `builtins.`, or one whose call takes a key.
fn word(random: &mut Random) -> &'static str {
    match random.below(4) {
        0 => "isNull",
        1 => "hasAttr",
        _ => random.text(&words::PREDICATES),
    }
}

/// What can be called: by its text, by its last key, or nearly so.
fn callee(random: &mut Random, word: &str) -> Node {
    let set = var(random.text(&["builtins", "lib"]));
    let (key, default) = (string(word), Some(string(word)));
    match random.below(24) {
        0..=3 => select(var("builtins"), &[word]),
        4..=5 => select(set, &[word]),
        6 => select(set, &["types", word]),
        7 => select_by(set, &[key], default),
        8 => select_by(set, &[string("types")], default),
        9 => select_by(set, &[key, var(word)], None),
        10 => select_by(select(set, &["types"]), &[key], None),
        _ => var(word),
    }
}

/// A condition that speaks of `x`, nested at most so many levels, in which the words are called.
pub fn condition(random: &mut Random, words: &[&str], levels: usize) -> Node {
    let below = |random: &mut Random| condition(random, words, levels - 1);
    match random.below(if levels == 0 { 4 } else { 8 }) {
        0 => eq(null(), var("x")),
        1 => number_comparison(random),
        2..=4 => call(random, words),
        5 => not(below(random)),
        6 => and(below(random), below(random)),
        _ => or(below(random), below(random)),
    }
}

/// With an integer or a float, equal or unequal, the name on each side.
fn number_comparison(random: &mut Random) -> Node {
    let compare = *random.pick(&[eq, ne]);
    let literal = if random.chance(50) { int() } else { float() };
    if random.chance(50) {
        compare(var("x"), literal)
    } else {
        compare(literal, var("x"))
    }
}

fn call(random: &mut Random, words: &[&str]) -> Node {
    let word = *random.pick(words);
    let called = callee(random, word);
    if word == "hasAttr" {
        let key = match random.below(8) {
            0 => var("x"),
            _ => string(random.text(&words::LOCALS)),
        };
        apply2(called, key, var("x"))
    } else {
        apply(called, var("x"))
    }
}

/// Operators of each expression with itself: every level doubles the analysed nodes.
fn doubling(random: &mut Random) -> Tree {
    let mut tree = shapes::doubling(random.below(70));
    let operators = [detail::AND, detail::OR, detail::IMPLICATION];
    // Above an arrow the original has nothing to say.
    let count = if random.chance(30) { 3 } else { 2 };
    for expr in &mut tree.exprs[1..] {
        let operator = *random.pick(&operators[..count]);
        (expr.kind, expr.detail) = (kind::BIN_OP, operator);
    }
    tree
}

#[cfg(test)]
mod tests {
    use std::collections::BTreeMap;

    use super::*;
    use crate::image::Expr;
    use crate::second_reading::{check, condition_steps};

    /// The operator, the sides' kinds and the literal's detail of a comparison of a reference with a number.
    fn compared(tree: &Tree, expr: &Expr) -> Option<(u32, [u32; 2], u32)> {
        let operators = [detail::EQUAL, detail::NOT_EQUAL];
        if expr.kind != kind::BIN_OP || !operators.contains(&expr.detail) {
            return None;
        }
        let [left, right] = [0, 1].map(|place| &tree.exprs[expr.items[place].expr as usize]);
        let (literal, other) = match left.kind {
            kind::LITERAL => (left, right),
            _ => (right, left),
        };
        let is_number = [detail::INTEGER, detail::FLOAT].contains(&literal.detail);
        let is_of_name = literal.kind == kind::LITERAL && other.kind == kind::REFERENCE;
        let sides = [left.kind, right.kind];
        (is_number && is_of_name).then_some((expr.detail, sides, literal.detail))
    }

    /// Each form of it, alone and below each operator.
    #[test]
    fn every_comparison_with_a_number_comes_often() {
        let mut random = Random::new(9);
        let mut counts: BTreeMap<_, usize> = BTreeMap::new();
        for _ in 0..2000 {
            let tree = tree(&mut random);
            for owner in &tree.exprs {
                let of = (owner.kind, owner.detail);
                let parts = owner.items.iter().map(|item| item.expr as usize);
                // A parameter has no expression.
                let parts = parts.filter_map(|e| tree.exprs.get(e));
                for form in parts.filter_map(|part| compared(&tree, part)) {
                    *counts.entry((of, form)).or_default() += 1;
                }
            }
        }
        let owners = [
            (kind::LIST, 0),
            (kind::UNARY_OP, detail::INVERT),
            (kind::BIN_OP, detail::AND),
            (kind::BIN_OP, detail::OR),
        ];
        assert_eq!(counts.len(), owners.len() * 8);
        for ((owner, form), count) in counts {
            assert!(
                owners.contains(&owner) && count > 20,
                "{owner:?} {form:?} {count}"
            );
        }
    }

    #[test]
    fn they_are_accepted_and_some_are_endless() {
        let mut random = Random::new(4);
        let mut endless = 0;
        for _ in 0..500 {
            let image = tree(&mut random).encode();
            assert_eq!(check(&image), 0);
            endless += usize::from(condition_steps(&image).contains(&u64::MAX));
        }
        assert!(endless > 0);
    }
}

//! Which conditions and walks meet an arrow, and that the original tells nothing of it.

use super::*;
use crate::notation::*;

/// The places of the arrows that the walk over `x: body` analyses.
fn places(body: Node) -> Vec<&'static str> {
    let tree = tree(&lambda("x", body));
    let mut places: Vec<&str> = of_walk(&tree).iter().map(|it| PLACES[it.place]).collect();
    assert_eq!(in_walk(&tree), !places.is_empty());
    places.sort();
    places
}

fn x_to_y() -> Node {
    implies(var("x"), var("y"))
}

#[test]
fn a_condition_meets_an_arrow_through_its_operators_alone() {
    let meets = |condition: Node| {
        let tree = tree(&condition);
        by_condition(&tree)[tree.entry as usize]
    };
    assert!(meets(x_to_y()) && meets(not(not(x_to_y()))));
    assert!(meets(and(int(), x_to_y())) && meets(or(not(x_to_y()), int())));
    assert!(meets(implies(int(), int())));
    for other in [
        eq(x_to_y(), null()),
        negate(x_to_y()),
        list(&[x_to_y()]),
        apply(var("isNull"), x_to_y()),
        if_(x_to_y(), int(), int()),
        bin_op(detail::LESS, x_to_y(), x_to_y()),
        not(and(int(), or(int(), int()))),
    ] {
        assert!(!meets(other));
    }
}

#[test]
fn the_arrows_of_a_condition_are_itself_and_its_parts() {
    let tree = tree(&implies(not(x_to_y()), x_to_y()));
    let arrows = of_condition(&tree, tree.entry);
    let sides = |place: usize| tree.exprs[tree.entry as usize].items[place].expr;
    let asked = Arrow {
        sides: [sides(0), sides(1)],
        place: ASKED,
    };
    assert_eq!(arrows[0], asked);
    let places: Vec<&str> = arrows.iter().map(|it| PLACES[it.place]).collect();
    assert_eq!(places, ["asked", "right of ->"]);
    assert_eq!(of_condition(&tree, sides(0)).len(), 1);
    assert!(of_condition(&tree, 0).is_empty());
}

#[test]
fn a_walk_meets_the_arrows_of_guards_that_it_visits() {
    let then = |condition: Node| if_(condition, int(), int());
    assert_eq!(places(then(x_to_y())), ["if"]);
    assert_eq!(places(assert_(x_to_y(), int())), ["assert"]);
    let nested = and(not(x_to_y()), or(x_to_y(), implies(x_to_y(), x_to_y())));
    let expected = [
        "!",
        "left of ->",
        "left of ||",
        "right of ->",
        "right of ||",
    ];
    assert_eq!(places(then(nested)), expected);
    assert_eq!(places(list(&[x_to_y(), not(x_to_y())])), [""; 0]);
    assert_eq!(places(then(eq(x_to_y(), int()))), [""; 0]);
    // What no visit reaches: the base of a let, what a plain set inherits.
    let guard = || then(x_to_y());
    let from_base = Bindings::new().inherit_from(guard(), &[]);
    assert_eq!(places(let_in(from_base.clone(), int())), [""; 0]);
    assert_eq!(places(set(from_base)), ["if"]);
    let alone = || Bindings::new().inherit_without_base("y", &guard());
    assert_eq!(places(set(alone())), [""; 0]);
    assert_eq!(places(rec_set(alone())), ["if"]);
}

#[test]
fn a_call_is_a_guard_by_its_text_or_its_last_key() {
    let call = |called: Node| places(apply2(called, x_to_y(), int()));
    assert_eq!(call(var("mkIf")), ["call"]);
    assert_eq!(call(select(var("lib"), &["a", "optional"])), ["call"]);
    let optional = string("optional");
    let default = Some(optional.clone());
    assert_eq!(call(select_by(var("lib"), &[optional], default)), [""; 0]);
    assert_eq!(
        call(select_by(var("lib"), &[var("optional")], None)),
        [""; 0]
    );
    assert_eq!(call(select(var("optional"), &["a"])), [""; 0]);
    assert_eq!(call(var("mkUnless")), [""; 0]);
    assert_eq!(places(apply(var("mkIf"), x_to_y())), [""; 0]);
}

#[cfg(original)]
mod beside_original;
mod laws;

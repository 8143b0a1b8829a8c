//! Arrows (`a -> b`) in conditions, of which document 02, order 7, says something else than the original: that takes them for
//! one node that tells nothing. Conditions and walks that analyse none are compared with the original.

use std::rc::Rc;

use crate::generate::words::CONDITIONALS;
use crate::image::{Expr, Item, NONE, Tree, detail, kind, role};
use crate::notation::{
    Bindings, Node, assert_, eq, if_, implies, int, missing, rec_set, tree, var,
};
use crate::selections::is_among;

/// Where an arrow stands that is analysed: it is asked, it is a guard's condition, or it is a part of a condition.
pub const PLACES: [&str; 11] = [
    "asked",
    "if",
    "assert",
    "call",
    "!",
    "left of &&",
    "right of &&",
    "left of ||",
    "right of ||",
    "left of ->",
    "right of ->",
];
pub const ASKED: usize = 0;
pub const IF: usize = 1;
pub const ASSERT: usize = 2;
pub const CALL: usize = 3;
pub const NOT: usize = 4;
const OF_AND: usize = 5;
const OF_OR: usize = 7;
const OF_ARROW: usize = 9;

/// An arrow that is analysed.
#[derive(Clone, Copy, Debug, PartialEq, Eq)]
pub struct Arrow {
    pub sides: [u32; 2],
    pub place: usize,
}

fn is_arrow(expr: &Expr) -> bool {
    (expr.kind, expr.detail) == (kind::BIN_OP, detail::IMPLICATION)
}

/// The place in `PLACES` of the first part of what is made of conditions.
fn place_within(expr: &Expr) -> Option<usize> {
    match (expr.kind, expr.detail) {
        (kind::UNARY_OP, detail::INVERT) => Some(NOT),
        (kind::BIN_OP, detail::AND) => Some(OF_AND),
        (kind::BIN_OP, detail::OR) => Some(OF_OR),
        (kind::BIN_OP, detail::IMPLICATION) => Some(OF_ARROW),
        _ => None,
    }
}

/// For each expression whether its analysis as a condition meets an arrow.
pub fn by_condition(tree: &Tree) -> Vec<bool> {
    let mut meets: Vec<bool> = Vec::with_capacity(tree.exprs.len());
    for expr in &tree.exprs {
        let mut parts = expr.items.iter().filter(|_| place_within(expr).is_some());
        let is_within = parts.any(|part| meets[part.expr as usize]);
        meets.push(is_arrow(expr) || is_within);
    }
    meets
}

/// Whether a walk analyses an arrow, over tables in which each `builtins` is the builtin set: so what is called is known by
/// its text, or by its last key.
pub fn in_walk(tree: &Tree) -> bool {
    !of_walk(tree).is_empty()
}

/// The arrow that an expression is, in this place.
fn arrow(tree: &Tree, e: u32, place: usize) -> Option<Arrow> {
    let expr = &tree.exprs[e as usize];
    is_arrow(expr).then(|| Arrow {
        sides: [0, 1].map(|side| expr.items[side].expr),
        place,
    })
}

/// The arrows among the parts of a condition.
fn among_parts(tree: &Tree, e: u32) -> impl Iterator<Item = Arrow> {
    let expr = &tree.exprs[e as usize];
    let places = place_within(expr).map_or(0..0, |place| place..place + expr.items.len());
    let parts = expr.items.iter().zip(places);
    parts.filter_map(|(part, place)| arrow(tree, part.expr, place))
}

/// The arrow that is asked as a condition, and those among its parts.
pub fn of_condition(tree: &Tree, condition: u32) -> Vec<Arrow> {
    let asked = arrow(tree, condition, ASKED);
    asked
        .into_iter()
        .chain(among_parts(tree, condition))
        .collect()
}

/// The arrows that a walk analyses: those that are the condition of a guard that it visits, and those below such.
pub fn of_walk(tree: &Tree) -> Vec<Arrow> {
    let (mut is_visited, mut is_analysed) =
        (vec![false; tree.exprs.len()], vec![false; tree.exprs.len()]);
    is_visited[tree.entry as usize] = true;
    let mut arrows = Vec::new();
    for e in (0..=tree.entry).rev() {
        let expr = &tree.exprs[e as usize];
        if is_visited[e as usize] {
            for item in expr.items.iter().filter(|item| is_entered(expr, item)) {
                is_visited[item.expr as usize] = true;
            }
            if let Some((condition, place)) = guard(tree, expr) {
                is_analysed[condition as usize] = true;
                arrows.extend(arrow(tree, condition, place));
            }
        }
        if is_analysed[e as usize] && place_within(expr).is_some() {
            arrows.extend(among_parts(tree, e));
            for item in &expr.items {
                is_analysed[item.expr as usize] = true;
            }
        }
    }
    arrows
}

/// Whether a walk goes down to this item.
fn is_entered(expr: &Expr, item: &Item) -> bool {
    let left_out = match (expr.kind, expr.detail) {
        (kind::LET_IN, _) | (kind::ATTR_SET, detail::REC) => role::INHERIT_BASE,
        (kind::ATTR_SET, _) => role::INHERIT_FROM,
        _ => NONE,
    };
    item.expr != NONE && item.role != left_out
}

/// The condition of a guard with its place.
fn guard(tree: &Tree, expr: &Expr) -> Option<(u32, usize)> {
    let first = expr.items.first()?.expr;
    match expr.kind {
        kind::IF_THEN_ELSE => Some((first, IF)),
        kind::ASSERT => Some((first, ASSERT)),
        kind::APPLY => {
            let fun = &tree.exprs[first as usize];
            let is_guard = fun.kind == kind::APPLY && is_conditional(tree, fun.items[0].expr);
            is_guard.then(|| (fun.items[1].expr, CALL))
        }
        _ => None,
    }
}

fn is_conditional(tree: &Tree, called: u32) -> bool {
    let expr = &tree.exprs[called as usize];
    let is_known = |expr: &Expr| is_among(&CONDITIONALS, &tree.texts[expr.text as usize]);
    match (expr.kind, expr.items.last()) {
        (kind::REFERENCE, _) => is_known(expr),
        (
            kind::SELECT,
            Some(Item {
                role: role::PATH_KEY,
                expr: key,
                ..
            }),
        ) => {
            let key = &tree.exprs[*key as usize];
            (key.kind, key.detail) == (kind::LITERAL, detail::STRING) && is_known(key)
        }
        _ => false,
    }
}

/// A Missing as both sides, 36 bytes: the smallest tree on which the steps part, whatever the tables.
pub fn smallest_steps() -> Tree {
    let side = missing();
    tree(&implies(Rc::clone(&side), side))
}

/// An assert of it over the same Missing, likewise of a walk.
pub fn smallest_walk_steps() -> Tree {
    let side = missing();
    let arrow = implies(Rc::clone(&side), Rc::clone(&side));
    tree(&assert_(arrow, side))
}

/// `x == 1 -> x` with one x.
fn test(x: &Node, one: &Node) -> Node {
    implies(eq(Rc::clone(x), Rc::clone(one)), Rc::clone(x))
}

fn bound(value: Node) -> Node {
    rec_set(Bindings::values(&[("x", value)]))
}

/// `rec { x = x == 1 -> x; }`, of which expression 3 is the arrow: the smallest tree whose own tables part the lists.
pub fn smallest_condition() -> Tree {
    tree(&bound(test(&var("x"), &int())))
}

/// The arrow alone, for given tables that resolve x to a name.
pub fn smallest_given() -> Tree {
    let mut tree = smallest_condition();
    tree.exprs.pop();
    tree.entry -= 1;
    tree
}

/// `if x == 1 -> x then x else rec { x = x; }` with one x, likewise of a walk: x is resolved where it is visited last.
pub fn smallest_walk() -> Tree {
    let x = var("x");
    tree(&if_(test(&x, &int()), Rc::clone(&x), bound(x)))
}

#[cfg(test)]
mod tests;

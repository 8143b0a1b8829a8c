//! The images of `crates/survey/cases`. Each shows another way out of the program `survey`, or other lines.

use std::rc::Rc;

use crate::notation::*;

pub fn cases() -> Vec<(&'static str, Vec<u8>)> {
    let printed = survey_case().encode();
    let cut = printed[..printed.len() - 1].to_vec();
    let trees = [
        ("missing", missing()),
        ("resolve_over_budget", doubled(16, missing(), pair)),
        (
            "resolve_short",
            doubled(13, with_(missing(), var("z")), pair),
        ),
        ("sorts", sorts()),
        ("unbound", unbound()),
        ("walk_over_budget", walk_over_budget()),
        ("walk_short", walk_short()),
        ("with", lambda("a", with_(var("a"), pair(var("b"), null())))),
    ];
    let images = trees.map(|(name, root)| (name, tree(&root).encode()));
    let broken = [("empty", vec![]), ("image_refused", cut)];
    broken.into_iter().chain(images).collect()
}

/// So many levels of parts that stand twice in the next.
fn doubled(levels: usize, leaf: Node, join: fn(Node, Node) -> Node) -> Node {
    (0..levels).fold(leaf, |part, _| join(Rc::clone(&part), part))
}

fn pair(left: Node, right: Node) -> Node {
    list(&[left, right])
}

/// A condition of 32,767 nodes: each is visited, which the resolution has the budget for, and analysed besides.
fn walk_over_budget() -> Node {
    let condition = doubled(14, var("x"), and);
    lambda("x", if_(condition, var("x"), var("x")))
}

/// 16,384 edges fill their buffer; this has one more.
fn walk_short() -> Node {
    let value = pair(doubled(14, var("x"), pair), var("x"));
    lambda("x", let_(&[("y", value)], missing()))
}

/// Narrowings of every sort, in both branches, by an assert and by a helper.
fn sorts() -> Node {
    let is = |predicate, name| apply(select(var("builtins"), &[predicate]), var(name));
    let bound = |name, value| let_(&[(name, var(value))], var(name));
    let kinds = and(is("isList", "y"), is("isFunction", "z"));
    let either = or(eq(var("x"), null()), not(has_attr(var("y"), &["f"])));
    let uses = [
        if_(and(is("isAttrs", "x"), kinds), bound("a", "x"), missing()),
        if_(either, missing(), bound("b", "x")),
        if_(has_attr(var("y"), &["f"]), missing(), bound("c", "y")),
        assert_(is("isString", "z"), bound("d", "z")),
        apply2(
            select(var("lib"), &["optional"]),
            eq(var("x"), string("s")),
            bound("e", "x"),
        ),
    ];
    lambda("x", lambda("y", lambda("z", list(&uses))))
}

/// Names of a plain set, which the walk binds to nothing, beside those of a let and of a rec set.
fn unbound() -> Node {
    let outer = Bindings::values(&[("p", missing()), ("q", var("p"))]);
    let inner = Bindings::new()
        .inherit("p")
        .inherit_from(var("q"), &["r"])
        .dynamic(string("k"), var("q"));
    let_in(outer, pair(rec_set(inner.clone()), set(inner)))
}

#[cfg(test)]
mod tests {
    use super::*;
    use crate::survey_text::{LONGEST_INPUT, survey_text};

    #[test]
    fn longer_input_is_too_long() {
        assert_eq!(survey_text(&vec![0; LONGEST_INPUT]), "refused 1\n");
        assert_eq!(survey_text(&vec![0; LONGEST_INPUT + 1]), "too long\n");
    }

    #[test]
    fn each_way_out_has_its_number() {
        let ways = [
            ("empty", "refused 1", "refused 1"),
            ("image_refused", "refused 1", "refused 1"),
            ("missing", "resolve 1", "walk 1"),
            ("resolve_over_budget", "refused 8", "refused 8"),
            ("resolve_short", "refused 9", "refused 9"),
            ("walk_over_budget", "resolve 32771", "refused 8"),
            ("walk_short", "resolve 32772", "refused 9"),
        ];
        for (name, first, last) in ways {
            let found = cases().into_iter().find(|case| case.0 == name);
            let (_, image) = found.expect("a case");
            assert!(image.len() <= LONGEST_INPUT, "{name}");
            let text = survey_text(&image);
            assert_eq!(text.lines().next(), Some(first), "{name}");
            assert_eq!(text.lines().last(), Some(last), "{name}");
        }
    }
}

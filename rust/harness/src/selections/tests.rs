//! What is a selection from `builtins`, and as what a call uses it.

use super::*;
use crate::notation::*;
use crate::port::own_tables;

/// A selection and its use in words.
fn words(called: Option<(Selected, usize)>) -> Option<String> {
    called.map(|(it, used)| format!("{}, {}, {}", SETS[it.set], PATHS[it.path], USES[used]))
}

/// What the condition of `x: name: condition` calls.
fn of_condition(name: &str, condition: Node) -> Option<String> {
    let tree = tree(&lambda("x", lambda(name, condition)));
    let reader = Reader::new(&tree, &own_tables(&tree.encode()));
    words(reader.condition(tree.entry - 2))
}

/// What the walk over `x: name: body` analyses and calls.
fn of_walk(name: &str, body: Node) -> Vec<String> {
    let tree = tree(&lambda("x", lambda(name, body)));
    let reader = Reader::new(&tree, &own_tables(&tree.encode()));
    let met = reader.walk().into_iter();
    met.filter_map(|called| words(Some(called))).collect()
}

fn from(keys: &[&str]) -> Node {
    select(var("builtins"), keys)
}

#[test]
fn a_condition_is_known_by_set_path_and_use() {
    let x = || var("x");
    let within = select(from(&["f"]), &["isInt"]);
    for (condition, path, used) in [
        (apply(from(&["isInt"]), x()), "one key", "predicate"),
        (
            apply(from(&["f", "isInt"]), x()),
            "several keys",
            "predicate",
        ),
        (apply(within, x()), "set of the set", "predicate"),
        (
            apply2(from(&["hasAttr"]), string("f"), x()),
            "one key",
            "hasAttr",
        ),
    ] {
        for (name, set) in [("y", "builtin"), ("builtins", "name")] {
            let counted = of_condition(name, Node::clone(&condition));
            assert_eq!(counted, Some(format!("{set}, {path}, {used}")));
        }
    }
    for other in [
        apply(from(&["isInt"]), int()),
        apply(from(&["f"]), x()),
        apply(select(var("lib"), &["isInt"]), x()),
        apply(
            select_by(var("builtins"), &[string("isInt")], Some(x())),
            x(),
        ),
        from(&["isInt"]),
        x(),
    ] {
        assert_eq!(of_condition("builtins", other), None);
    }
}

#[test]
fn a_walk_is_known_by_what_it_analyses_and_calls() {
    let test = || apply(from(&["isInt"]), var("x"));
    let told = ["builtin, one key, predicate"];
    assert_eq!(of_walk("y", if_(not(test()), int(), int())), told);
    assert_eq!(of_walk("y", assert_(and(int(), test()), int())), told);
    assert_eq!(of_walk("y", list(&[test(), negate(test())])), [""; 0]);
    let call = apply2(from(&["mkIf"]), int(), int());
    assert_eq!(
        of_walk("builtins", call),
        ["name, one key, conditional function"]
    );
    let alias = |bindings: Bindings| {
        let test = apply(var("isInt"), var("x"));
        let_in(bindings, if_(test, int(), int()))
    };
    let inherited = Bindings::new().inherit_from(var("builtins"), &["isInt"]);
    assert_eq!(of_walk("y", alias(inherited)), ["builtin, one key, alias"]);
    let alone = Bindings::new().inherit_without_base("isInt", &from(&["isInt"]));
    assert_eq!(of_walk("y", alias(alone)), ["nothing, one key, alias"]);
}

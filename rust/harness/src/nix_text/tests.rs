//! Sources as a person would write them.

use super::*;
use crate::notation::*;

fn written(root: &Node) -> String {
    nix_text(&tree(root))
}

fn holds(cases: &[(&str, Node)]) {
    for (source, root) in cases {
        assert_eq!(written(root), *source);
    }
}

fn op(sign: &str, lhs: Node, rhs: Node) -> Node {
    let place = OPERATORS.iter().position(|operator| operator.sign == sign);
    bin_op(place.expect("an operator") as u32, lhs, rhs)
}

#[test]
fn the_printed_case_reads_as_it_is_printed() {
    let source = "x: if x == null then let y = x; in y else x";
    assert_eq!(nix_text(&survey_case()), source);
}

#[test]
fn a_missing_part_is_marked() {
    holds(&[
        ("/* missing */", missing()),
        ("x./* missing */", select_by(var("x"), &[], None)),
        ("x./* missing */", select_by(var("x"), &[missing()], None)),
        ("x ? /* missing */", has_attr(var("x"), &[])),
        (
            "{ /* missing */, a }: a",
            lambda_pattern(None, &[(None, None), (Some("a"), None)], var("a")),
        ),
        (
            "let y = /* missing */; in y",
            let_(&[("y", missing())], var("y")),
        ),
    ]);
}

#[test]
fn literals_and_texts() {
    holds(&[
        (
            "[ 1 1.0 ./. https://example.org ]",
            list(&[int(), float(), path(), uri()]),
        ),
        (r#""a\"b\\c\${d}\n""#, string("a\"b\\c${d}\n")),
        (
            "\"${x}${f y}\"",
            string_interpolation(&[var("x"), apply(var("f"), var("y"))]),
        ),
        ("./${x}", path_interpolation(&[var("x")])),
        ("[ ]", list(&[])),
        ("{ }", set(Bindings::new())),
    ]);
}

#[test]
fn selections_hold_tightest() {
    let dynamic = [string("a"), var("k")];
    holds(&[
        ("x.a.b", select(var("x"), &["a", "b"])),
        ("(x.a).b", select(select(var("x"), &["a"]), &["b"])),
        ("x.a.${k} or 1", select_by(var("x"), &dynamic, Some(int()))),
        ("x.\"a b\".\"if\"", select(var("x"), &["a b", "if"])),
        (
            "x.a or (f y)",
            select_by(var("x"), &[string("a")], Some(apply(var("f"), var("y")))),
        ),
        ("(f x).a", select(apply(var("f"), var("x")), &["a"])),
        ("f x.a", apply(var("f"), select(var("x"), &["a"]))),
        (
            "{ a = 1; }.a",
            select(set(Bindings::new().bind("a", &int())), &["a"]),
        ),
    ]);
}

#[test]
fn calls_go_left() {
    holds(&[
        ("f x y", apply2(var("f"), var("x"), var("y"))),
        ("f (x y)", apply(var("f"), apply(var("x"), var("y")))),
        (
            "[ (f x) x.a ]",
            list(&[apply(var("f"), var("x")), select(var("x"), &["a"])]),
        ),
        ("(x: x) y", apply(lambda("x", var("x")), var("y"))),
        ("f (x: x)", apply(var("f"), lambda("x", var("x")))),
        ("f (-x)", apply(var("f"), negate(var("x")))),
        ("-(f x)", negate(apply(var("f"), var("x")))),
        ("f x ? a", has_attr(apply(var("f"), var("x")), &["a"])),
        ("-x ? a", has_attr(negate(var("x")), &["a"])),
        ("-(x ? a)", negate(has_attr(var("x"), &["a"]))),
        ("(x ? a) ? b", has_attr(has_attr(var("x"), &["a"]), &["b"])),
        ("x ? \"a b\".c", has_attr(var("x"), &["a b", "c"])),
    ]);
}

#[test]
fn operators_go_by_the_manual() {
    let [a, b, c] = ["a", "b", "c"].map(var);
    let three = |inner: &str, outer: &str, left: bool| {
        let (a, b, c) = (a.clone(), b.clone(), c.clone());
        if left {
            written(&op(outer, op(inner, a, b), c))
        } else {
            written(&op(outer, a, op(inner, b, c)))
        }
    };
    // One operator twice.
    assert_eq!(three("-", "-", true), "a - b - c");
    assert_eq!(three("-", "-", false), "a - (b - c)");
    assert_eq!(three("*", "/", true), "a * b / c");
    assert_eq!(three("*", "/", false), "a / (b * c)");
    assert_eq!(three("++", "++", true), "(a ++ b) ++ c");
    assert_eq!(three("++", "++", false), "a ++ b ++ c");
    assert_eq!(three("//", "//", true), "(a // b) // c");
    assert_eq!(three("//", "//", false), "a // b // c");
    assert_eq!(three("==", "==", true), "(a == b) == c");
    assert_eq!(three("->", "->", false), "a -> (b -> c)");
    // One level beside the next.
    assert_eq!(three("*", "+", false), "a + b * c");
    assert_eq!(three("+", "*", true), "(a + b) * c");
    assert_eq!(three("++", "*", false), "a * b ++ c");
    assert_eq!(three("//", "<", true), "a // b < c");
    assert_eq!(three("<", "==", false), "a == b < c");
    assert_eq!(three("==", "<", false), "a < (b == c)");
    assert_eq!(three("==", "&&", true), "a == b && c");
    assert_eq!(three("&&", "||", false), "a || b && c");
    assert_eq!(three("||", "&&", false), "a && (b || c)");
    assert_eq!(three("||", "->", true), "a || b -> c");
    assert_eq!(three("->", "||", true), "(a -> b) || c");
}

#[test]
fn negations_go_by_the_manual() {
    let x = || var("x");
    holds(&[
        ("!(x ? f)", not(has_attr(x(), &["f"]))),
        ("!(x == null)", not(eq(x(), null()))),
        ("!x && x", and(not(x()), x())),
        ("x && !x", and(x(), not(x()))),
        ("!(!x)", not(not(x()))),
        ("!x // x", op("//", not(x()), x())),
        ("(!x) + x", op("+", not(x()), x())),
        ("!(x + x)", not(op("+", x(), x()))),
        ("-x + x", op("+", negate(x()), x())),
        ("-(x + x)", negate(op("+", x(), x()))),
        ("!(f x)", not(apply(var("f"), x()))),
    ]);
}

#[test]
fn what_reaches_far_stands_in_parentheses() {
    let x = || var("x");
    let choice = || if_(x(), x(), x());
    holds(&[
        ("x && (if x then x else x)", and(x(), choice())),
        (
            "(let y = x; in y) == x",
            eq(let_(&[("y", x())], var("y")), x()),
        ),
        ("[ (x: x) ]", list(&[lambda("x", x())])),
        (
            "if x then x else if x then x else x",
            if_(x(), x(), choice()),
        ),
        (
            "if if x then x else x then x else x",
            if_(choice(), x(), x()),
        ),
        ("with x; x: x", with_(x(), lambda("x", x()))),
        (
            "assert x == null; with x; x",
            assert_(eq(x(), null()), with_(x(), x())),
        ),
        ("f (with x; x)", apply(var("f"), with_(x(), x()))),
    ]);
}

#[test]
fn bindings_in_their_order() {
    let bindings = Bindings::new()
        .bind("a", &int())
        .inherit("b")
        .inherit("c")
        .inherit_from(var("lib"), &["d", "e"])
        .bind("f g", &var("d"))
        .inherit_from(var("pkgs"), &[])
        .dynamic(var("k"), float());
    let inside = "a = 1; inherit b c; inherit (lib) d e; \"f g\" = d; inherit (pkgs); ${k} = 1.0;";
    let flat = |root: &Node| {
        let tree = tree(root);
        expr_text(&tree, tree.entry)
    };
    assert_eq!(flat(&set(bindings.clone())), format!("{{ {inside} }}"));
    assert_eq!(
        flat(&rec_set(bindings.clone())),
        format!("rec {{ {inside} }}")
    );
    assert_eq!(
        flat(&let_in(bindings, var("a"))),
        format!("let {inside} in a")
    );
}

#[test]
fn functions_have_their_patterns() {
    let fields = [(Some("a"), None), (Some("b"), Some(null()))];
    holds(&[
        (
            "{ a, b ? null }: a",
            lambda_pattern(None, &fields, var("a")),
        ),
        (
            "{ a, b ? null }@x: x",
            lambda_pattern(Some("x"), &fields, var("x")),
        ),
        ("{ }: 1", lambda_pattern(None, &[], int())),
        ("x: y: x", lambda("x", lambda("y", var("x")))),
    ]);
}

#[test]
fn long_sources_are_broken_at_their_parts() {
    let long = var(&"a".repeat(40));
    let source = let_(
        &[("b", long.clone())],
        if_(eq(long.clone(), null()), long.clone(), long),
    );
    let a = "a".repeat(40);
    let expected = format!("let\n  b = {a};\nin if {a} == null then\n  {a}\nelse\n  {a}");
    assert_eq!(written(&source), expected);
}

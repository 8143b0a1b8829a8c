//! The conditions whose answers are listed in the papers, with the tables they are given. Those of numbers are as document
//! 02, order 5, has them; those of its order 7 are the pairs of its laws over `x == null` and `y == null`.

use crate::image::{NONE, Tree, kind};
use crate::notation::*;
use crate::port::own_tables;
use crate::records::sort::{
    HAS_FIELD as HAS, IS_LIST, IS_NOT_TYPE as IS_NOT, IS_NUMBER, IS_TYPE as IS,
    NOT_HAS_FIELD as LACKS,
};
use crate::records::ty::{FLOAT, INT, NULL, STRING};
use crate::records::{Record, record};
use crate::tables::{BUILTIN, DEFINITION, Given, resolution, table};

pub struct Case {
    pub name: &'static str,
    pub tree: Tree,
    pub given: Given,
    pub condition: u32,
    pub then_list: Vec<Record>,
    pub else_list: Vec<Record>,
}

/// The numbers of the names around each condition, and of the one key's text.
const X: u32 = 0;
const Y: u32 = 1;
const F: u32 = 2;

pub fn cases() -> Vec<Case> {
    let (is, is_not) = (record(X, IS, NULL), record(X, IS_NOT, NULL));
    let mut cases = comparisons();
    cases.extend(numbers());
    cases.extend(tests());
    cases.extend(laws());
    cases.push(Case {
        then_list: vec![is],
        else_list: vec![is_not],
        ..through_names("isNull x, three names", 3)
    });
    cases.push(through_names("isNull x, four names", 4));
    cases
}

fn comparisons() -> Vec<Case> {
    let (is, is_not) = (record(X, IS, NULL), record(X, IS_NOT, NULL));
    let x_is_null = || eq(var("x"), null());
    let local_null = tree(&lambda("x", lambda("null", x_is_null())));
    vec![
        case("x == null", x_is_null(), &[is], &[is_not]),
        case("null != x", ne(null(), var("x")), &[is_not], &[is]),
        case(
            "x != \"a\"",
            ne(var("x"), string("a")),
            &[],
            &[record(X, IS, STRING)],
        ),
        case(
            "x == null || x == null",
            or(x_is_null(), x_is_null()),
            &[],
            &[is_not, is_not],
        ),
        below_two("x == null, null defined", local_null, &[], &[]),
    ]
}

/// What is equal to a number is an integer or a float; what is tested is of the type of the test.
fn numbers() -> Vec<Case> {
    let number = record(X, IS_NUMBER, 0);
    let called = |word: &str| apply(select(var("builtins"), &[word]), var("x"));
    let test = |name, word, ty| {
        let [is, is_not] = [IS, IS_NOT].map(|sort| record(X, sort, ty));
        case(name, called(word), &[is], &[is_not])
    };
    vec![
        case("x == 1", eq(var("x"), int()), &[number], &[]),
        case("x != 1.5", ne(var("x"), float()), &[], &[number]),
        case("1.0 != x", ne(float(), var("x")), &[], &[number]),
        case("1.0 == x", eq(float(), var("x")), &[number], &[]),
        test("builtins.isInt x", "isInt", INT),
        test("builtins.isFloat x", "isFloat", FLOAT),
    ]
}

fn tests() -> Vec<Case> {
    let (is, is_not) = (record(X, IS, STRING), record(X, IS_NOT, STRING));
    let null_and_list = and(
        apply(var("isNull"), var("x")),
        apply(select(var("builtins"), &["isList"]), var("y")),
    );
    vec![
        case(
            "!(x ? f)",
            not(has_attr(var("x"), &["f"])),
            &[record(X, LACKS, F)],
            &[record(X, HAS, F)],
        ),
        case("x ? a.b", has_attr(var("x"), &["a", "b"]), &[], &[]),
        case(
            "isNull x && builtins.isList y",
            null_and_list,
            &[record(X, IS, NULL), record(Y, IS_LIST, 0)],
            &[],
        ),
        case(
            "foo.isString x",
            apply(select(var("foo"), &["isString"]), var("x")),
            &[is],
            &[is_not],
        ),
    ]
}

/// Both conditions of each law over a, which is `x == null`, and b, which is `y == null`.
fn laws() -> Vec<Case> {
    let [a, b] = [|| eq(var("x"), null()), || eq(var("y"), null())];
    let [x, y] = [X, Y].map(|name| [IS, IS_NOT].map(|sort| record(name, sort, NULL)));
    let neither = [x[1], y[1]];
    let both = [x[0], y[0]];
    let first_alone = [x[0], y[1]];
    vec![
        case("!(a || b)", not(or(a(), b())), &neither, &[]),
        case("!a && !b", and(not(a()), not(b())), &neither, &[]),
        case("!(a && b)", not(and(a(), b())), &[], &both),
        case("!a || !b", or(not(a()), not(b())), &[], &both),
        case("!!a", not(not(a())), &x[..1], &x[1..]),
        case("a -> b", implies(a(), b()), &[], &first_alone),
        case("!a || b", or(not(a()), b()), &[], &first_alone),
        case("!(a -> b)", not(implies(a(), b())), &first_alone, &[]),
        case("a && !b", and(a(), not(b())), &first_alone, &[]),
    ]
}

/// `x: y: condition`, with its own tables.
fn case(name: &'static str, condition: Node, then_list: &[Record], else_list: &[Record]) -> Case {
    let tree = tree(&lambda("x", lambda("y", condition)));
    below_two(name, tree, then_list, else_list)
}

/// A condition below two functions.
fn below_two(name: &'static str, tree: Tree, then_list: &[Record], else_list: &[Record]) -> Case {
    Case {
        name,
        given: own_tables(&tree.encode()),
        condition: tree.entry - 2,
        then_list: then_list.to_vec(),
        else_list: else_list.to_vec(),
        tree,
    }
}

/// `isNull x` below so many bindings of isNull, the tables leading from each to the one around it. Its lists are empty.
pub fn through_names(name: &'static str, count: u32) -> Case {
    let mut node = apply(var("isNull"), var("x"));
    for _ in 1..count {
        node = let_(&[("isNull", var("isNull"))], node);
    }
    let builtin = select(var("builtins"), &["isNull"]);
    let tree = tree(&lambda("x", let_(&[("isNull", builtin)], node)));
    // Expressions 0 to 2 are builtins.isNull; then comes for each name the reference that leads to
    // it, the last being the called one; then x and the call.
    let (definition, builtins) = (resolution(DEFINITION, X), resolution(BUILTIN, 2));
    let references = (1..=count).map(|name| resolution(DEFINITION, name));
    let head = [builtins, 0, 0].into_iter();
    let known = head.chain(references).chain([definition, 0]);
    let filled = known.chain(std::iter::repeat(0)).take(tree.exprs.len());
    let bindings = [NONE as u16].into_iter().chain(2..2 + count as u16);
    let call = tree.exprs.iter().position(|e| e.kind == kind::APPLY);
    Case {
        name,
        given: Given {
            resolutions: table(filled),
            bindings: table(bindings),
        },
        condition: call.expect("the call") as u32,
        then_list: vec![],
        else_list: vec![],
        tree,
    }
}

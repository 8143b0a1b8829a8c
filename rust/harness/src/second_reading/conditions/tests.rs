//! The rules of conditions one by one, and what each refusal leaves.

use super::{analyze_condition, condition_steps};
use crate::generate::given::BREAKS;
use crate::generate::words::PREDICATES;
use crate::generate::{damage, guards, shapes};
use crate::image::{Tree, detail, kind};
use crate::notation::*;
use crate::own_builtins;
use crate::port::{Analysis, Question, own_tables};
use crate::random::Random;
use crate::records::sort::{
    HAS_FIELD as HAS, IS_ATTR_SET, IS_FUNCTION, IS_LIST, IS_NOT_TYPE as IS_NOT, IS_NUMBER,
    IS_TYPE as IS,
};
use crate::records::{Record, bytes, record, ty};
use crate::starred::{cases, through_names};
use crate::tables::{BUILTIN, DEFINITION, Given, WITH, resolution, table};

/// What a lent byte and a number hold before the call.
const FRESH: u8 = 0xa5;
const FRESH_NUMBERS: Analysis = Analysis {
    steps: 77,
    then_count: 78,
    else_count: 79,
};

/// All that a call leaves.
#[derive(Debug, PartialEq, Eq)]
struct Left {
    answer: u32,
    analysis: Analysis,
    then_list: Vec<u8>,
    else_list: Vec<u8>,
}

fn call(question: Question, then_list: usize, else_list: usize) -> Left {
    let mut left = untouched(0, then_list, else_list);
    let (then_list, else_list) = (&mut left.then_list, &mut left.else_list);
    left.answer = analyze_condition(question, then_list, else_list, &mut left.analysis);
    left
}

fn untouched(answer: u32, then_list: usize, else_list: usize) -> Left {
    Left {
        answer,
        analysis: FRESH_NUMBERS,
        then_list: vec![FRESH; then_list],
        else_list: vec![FRESH; else_list],
    }
}

/// What a refusal of the run leaves.
fn zero(answer: u32, then_list: usize, else_list: usize) -> Left {
    Left {
        answer,
        analysis: Analysis::default(),
        then_list: vec![0; then_list],
        else_list: vec![0; else_list],
    }
}

/// Bytes that are more than any list here.
const ROOM: usize = 200;

/// Whether a condition gives these lists, written into more room than they need.
fn gives(tree: &Tree, given: &Given, condition: u32, lists: [&[Record]; 2]) -> bool {
    let left = call(
        Question::new(&tree.encode(), given, condition, u32::MAX),
        ROOM,
        ROOM,
    );
    let [then_list, else_list] = lists.map(|records| {
        let mut list = bytes(records);
        list.resize(ROOM, FRESH);
        list
    });
    assert_eq!(left.answer, 0);
    let counts = [left.analysis.then_count, left.analysis.else_count];
    counts == lists.map(|records| records.len() as u32)
        && left.then_list == then_list
        && left.else_list == else_list
}

/// Whether `x: y: condition` with its own tables gives these lists.
fn tells(condition: Node, then_list: &[Record], else_list: &[Record]) -> bool {
    let tree = tree(&lambda("x", lambda("y", condition)));
    let given = own_tables(&tree.encode());
    gives(&tree, &given, tree.entry - 2, [then_list, else_list])
}

const X: u32 = 0;
const Y: u32 = 1;

fn null_test() -> Node {
    eq(var("x"), null())
}

#[test]
fn the_listed_conditions_give_what_is_listed() {
    for case in cases() {
        let lists = [&case.then_list[..], &case.else_list];
        assert!(
            gives(&case.tree, &case.given, case.condition, lists),
            "{}",
            case.name
        );
    }
}

#[test]
fn each_predicate_tells_its_sort() {
    for (name, ty) in [
        ("isNull", ty::NULL),
        ("isBool", ty::BOOL),
        ("isInt", ty::INT),
        ("isFloat", ty::FLOAT),
        ("isString", ty::STRING),
        ("isPath", ty::PATH),
    ] {
        let called = apply(select(var("lib"), &["a", name]), var("y"));
        assert!(tells(
            called,
            &[record(Y, IS, ty)],
            &[record(Y, IS_NOT, ty)]
        ));
    }
    for (name, sort) in [
        ("isAttrs", IS_ATTR_SET),
        ("isList", IS_LIST),
        ("isFunction", IS_FUNCTION),
    ] {
        let called = || apply(select(var("builtins"), &[name]), var("x"));
        assert!(tells(called(), &[record(X, sort, 0)], &[]));
        assert!(tells(not(called()), &[], &[record(X, sort, 0)]));
    }
}

#[test]
fn each_literal_tells_its_type_where_it_is_equal() {
    for (literal, ty) in [
        (string("a"), ty::STRING),
        (path(), ty::PATH),
        (var("true"), ty::BOOL),
        (var("false"), ty::BOOL),
    ] {
        let told = [record(X, IS, ty)];
        assert!(tells(eq(literal.clone(), var("x")), &told, &[]));
        assert!(tells(ne(var("x"), literal), &[], &told));
    }
    for nothing in [uri(), var("map"), var("z"), var("y"), list(&[])] {
        assert!(tells(eq(var("x"), nothing), &[], &[]));
    }
    assert!(tells(eq(null(), null()), &[], &[]));
    assert!(tells(bin_op(detail::LESS, var("x"), int()), &[], &[]));
}

#[test]
fn a_number_literal_tells_a_number_where_it_is_equal() {
    let told = [record(X, IS_NUMBER, 0)];
    for literal in [int(), float()] {
        let sides = [(var("x"), literal.clone()), (literal.clone(), var("x"))];
        for (left, right) in sides {
            let (equal, unequal) = (eq(left.clone(), right.clone()), ne(left, right));
            assert!(tells(equal.clone(), &told, &[]));
            assert!(tells(unequal.clone(), &[], &told));
            assert!(tells(not(equal), &[], &told));
            assert!(tells(and(not(unequal.clone()), unequal), &told, &[]));
        }
        for other in [uri(), int(), float(), null(), negate(var("x"))] {
            assert!(tells(eq(literal.clone(), other), &[], &[]));
        }
        assert!(tells(
            bin_op(detail::LESS, var("x"), literal.clone()),
            &[],
            &[]
        ));
        assert!(tells(eq(var("x"), negate(literal)), &[], &[]));
    }
}

/// What a predicate tests is one type; and a keyword that is a name is one.
#[test]
fn predicates_keep_their_types_beside_number_literals() {
    let called = |word: &str| apply(select(var("builtins"), &[word]), var("x"));
    let number = record(X, IS_NUMBER, 0);
    for (word, ty) in [("isInt", ty::INT), ("isFloat", ty::FLOAT)] {
        let [is, is_not] = [IS, IS_NOT].map(|sort| record(X, sort, ty));
        for literal in [int(), float()] {
            let both = and(called(word), eq(literal.clone(), var("x")));
            assert!(tells(both, &[is, number], &[]));
            let either = or(ne(var("x"), literal), called(word));
            assert!(tells(either, &[], &[number, is_not]));
        }
    }
    let keyword = tree(&lambda("null", eq(null(), int())));
    let given = own_tables(&keyword.encode());
    assert!(gives(&keyword, &given, keyword.entry - 1, [&[number], &[]]));
}

#[test]
fn a_dropped_list_is_dropped_with_all_below_it() {
    let (is, is_not) = (record(X, IS, ty::NULL), record(X, IS_NOT, ty::NULL));
    let both = and(null_test(), not(null_test()));
    assert!(tells(both.clone(), &[is, is_not], &[]));
    assert!(tells(not(both.clone()), &[], &[is, is_not]));
    assert!(tells(or(both, null_test()), &[], &[is_not]));
    let either = or(not(null_test()), null_test());
    assert!(tells(either.clone(), &[], &[is, is_not]));
    assert!(tells(and(either, null_test()), &[is], &[]));
    assert!(tells(negate(null_test()), &[], &[]));
}

/// `a -> b` is `!a || b`: false where a is true and b is not.
#[test]
fn an_arrow_tells_where_it_is_false_what_its_left_side_does_where_true_and_its_right_where_false() {
    let (is, is_not) = (record(X, IS, ty::NULL), record(X, IS_NOT, ty::NULL));
    let (has, lacks) = (record(Y, HAS, 3), record(Y, HAS + 1, 3));
    let test = || has_attr(var("y"), &["f"]);
    assert!(tells(implies(null_test(), test()), &[], &[is, lacks]));
    assert!(tells(
        implies(not(null_test()), not(test())),
        &[],
        &[is_not, has]
    ));
    let shared = null_test();
    assert!(tells(implies(shared.clone(), shared), &[], &[is, is_not]));
    // A side that tells nothing there.
    assert!(tells(implies(null_test(), var("y")), &[], &[is]));
    assert!(tells(implies(var("y"), null_test()), &[], &[is_not]));
    assert!(tells(
        implies(ne(int(), var("x")), eq(var("x"), int())),
        &[],
        &[]
    ));
    // Within others, and others within it.
    let arrow = || implies(null_test(), test());
    assert!(tells(not(arrow()), &[is, lacks], &[]));
    assert!(tells(and(arrow(), null_test()), &[is], &[]));
    assert!(tells(or(arrow(), null_test()), &[], &[is, lacks, is_not]));
    assert!(tells(implies(arrow(), null_test()), &[], &[is_not]));
    assert!(tells(implies(null_test(), arrow()), &[], &[is, is, lacks]));
    assert!(tells(
        implies(not(arrow()), not(arrow())),
        &[],
        &[is, lacks]
    ));
}

#[test]
fn both_sides_of_an_arrow_are_steps() {
    let steps = |condition: Node| {
        let image = tree(&condition).encode();
        *condition_steps(&image).last().expect("the condition")
    };
    assert_eq!(steps(implies(int(), int())), 3);
    assert_eq!(steps(implies(not(int()), and(int(), int()))), 6);
    assert_eq!(steps(not(implies(implies(int(), int()), int()))), 6);
    let shared = implies(int(), int());
    assert_eq!(steps(implies(shared.clone(), shared)), 7);
    assert_eq!(steps(eq(implies(int(), int()), int())), 1);
}

#[test]
fn a_selection_with_default_is_no_callee() {
    let defaulted = |set| select_by(set, &[string("isNull")], Some(int()));
    for set in ["builtins", "lib"] {
        assert!(tells(apply(defaulted(var(set)), var("x")), &[], &[]));
    }
    assert!(tells(
        apply(select_by(var("lib"), &[], None), var("x")),
        &[],
        &[]
    ));
    assert!(tells(
        apply(select_by(var("lib"), &[null()], None), var("x")),
        &[],
        &[]
    ));
}

#[test]
fn has_attr_is_found_by_the_lookup_alone() {
    let builtin = select(var("builtins"), &["hasAttr"]);
    let key = 4;
    let told = [record(X, HAS, key)];
    let untold = [record(X, HAS + 1, key)];
    let called = apply2(builtin, string("f"), var("x"));
    assert!(tells(called, &told, &untold));
    for other in [var("hasAttr"), select(var("lib"), &["hasAttr"])] {
        assert!(tells(apply2(other, string("f"), var("x")), &[], &[]));
    }
}

#[test]
fn selections_from_what_is_spelt_builtins_count_by_what_it_resolves_to() {
    for case in own_builtins::cases() {
        for (condition, lists) in case.conditions() {
            let lists = lists.each_ref().map(Vec::as_slice);
            let is_right = gives(&case.tree, &case.given, condition, lists);
            assert!(is_right, "{}: {condition}", case.name);
        }
    }
}

#[test]
fn no_predicate_of_another_set_of_that_name_tells_anything() {
    // Whether the condition tells something below `x: name: ..`.
    let tells_below = |name: &str, condition: Node| {
        let tree = tree(&lambda("x", lambda(name, condition)));
        let given = own_tables(&tree.encode());
        !gives(&tree, &given, tree.entry - 2, [&[], &[]])
    };
    let called = |keys: &[&str]| apply(select(var("builtins"), keys), var("x"));
    for word in PREDICATES {
        for keys in [&[word][..], &["f", word], &["f", "g", word]] {
            assert!(tells_below("y", called(keys)));
            assert!(!tells_below("builtins", called(keys)));
        }
        assert!(!tells_below("builtins", not(called(&[word]))));
        assert!(tells_below("builtins", apply(var("isNull"), var("x"))));
    }
}

/// Whether `x: let NAME = builtins.isNull; in NAME x` with these bindings tells what isNull does.
fn is_null_by(name: &str, bindings: Bindings) -> bool {
    let tree = tree(&lambda("x", let_in(bindings, apply(var(name), var("x")))));
    let given = own_tables(&tree.encode());
    let (is, is_not) = (record(X, IS, ty::NULL), record(X, IS_NOT, ty::NULL));
    let told = gives(&tree, &given, tree.entry - 2, [&[is], &[is_not]]);
    assert!(told || gives(&tree, &given, tree.entry - 2, [&[], &[]]));
    told
}

#[test]
fn an_alias_of_what_builtins_has_counts_where_a_visit_resolves_builtins() {
    let is_null = select(var("builtins"), &["isNull"]);
    let bindings = Bindings::new;
    assert!(is_null_by("isNull", bindings().bind("isNull", &is_null)));
    let inherited = bindings().inherit_from(var("builtins"), &["isNull"]);
    assert!(is_null_by("isNull", inherited));
    let alone = bindings().inherit_without_base("isNull", &is_null);
    assert!(!is_null_by("isNull", alone.clone()));
    // A base that is another expression does not resolve the one within the selection.
    let apart = alone.inherit_from(var("builtins"), &[]);
    assert!(!is_null_by("isNull", apart));
    assert!(!is_null_by("y", bindings().bind("y", &is_null)));
    let own = bindings().bind("builtins", &int());
    assert!(!is_null_by("isNull", own.bind("isNull", &is_null)));
}

/// Whether `x == text` tells what it does of null, where the text resolves so below a With.
fn null_comparison(entry: u16, text: &str) -> bool {
    let tree = tree(&lambda("x", with_(int(), eq(var("x"), var(text)))));
    let given = Given {
        resolutions: table([0, resolution(DEFINITION, X), entry, 0, 0, 0].into_iter()),
        bindings: table([0].into_iter()),
    };
    let (is, is_not) = (record(X, IS, ty::NULL), record(X, IS_NOT, ty::NULL));
    let told = gives(&tree, &given, 3, [&[is], &[is_not]]);
    assert!(told || gives(&tree, &given, 3, [&[], &[]]));
    told
}

#[test]
fn a_keyword_is_unresolved_or_its_own_builtin() {
    assert!(null_comparison(0, "null"));
    assert!(null_comparison(resolution(BUILTIN, 15), "null"));
    assert!(!null_comparison(resolution(BUILTIN, 16), "null"));
    assert!(!null_comparison(resolution(BUILTIN, 15), "nul"));
    assert!(!null_comparison(resolution(DEFINITION, X), "null"));
    assert!(!null_comparison(resolution(WITH, 4), "null"));
}

#[test]
fn aliases_are_traced_through_three_names_and_cycles_end() {
    let found = |count| {
        let case = through_names("", count);
        !gives(&case.tree, &case.given, case.condition, [&[], &[]])
    };
    assert_eq!([1, 2, 3, 4, 5].map(found), [true, true, true, false, false]);
    let mut case = through_names("", 2);
    case.given.bindings = table([0x3fff, 3, 3].into_iter());
    assert!(gives(&case.tree, &case.given, case.condition, [&[], &[]]));
}

#[test]
fn steps_are_all_analysed_nodes() {
    let condition = or(and(null_test(), null_test()), not(null_test()));
    let tree = tree(&lambda("x", condition));
    let (image, condition) = (tree.encode(), tree.entry - 1);
    let given = own_tables(&image);
    let left = call(Question::new(&image, &given, condition, 6), 0, 4);
    assert_eq!((left.answer, left.analysis.steps), (0, 6));
    assert_eq!(left.else_list, bytes(&[record(X, IS, ty::NULL)]));
    assert_eq!(condition_steps(&image)[condition as usize], 6);
    for (then_room, else_room) in [(0, 4), (0, 3), (9, 9)] {
        let short = call(
            Question::new(&image, &given, condition, 5),
            then_room,
            else_room,
        );
        assert_eq!(short, zero(8, then_room, else_room));
    }
    for (then_room, else_room) in [(0, 3), (9, 0)] {
        let short = call(
            Question::new(&image, &given, condition, 6),
            then_room,
            else_room,
        );
        assert_eq!(short, zero(9, then_room, else_room));
    }
}

#[test]
fn steps_and_records_are_counted_however_many_they_are() {
    let mut tree = shapes::doubling(100);
    for expr in &mut tree.exprs[1..] {
        (expr.kind, expr.detail) = (kind::BIN_OP, detail::AND);
    }
    let image = tree.encode();
    let given = Given::empty(tree.exprs.len(), tree.names.len());
    assert_eq!(condition_steps(&image)[100], u64::MAX);
    assert_eq!(
        call(Question::new(&image, &given, 31, u32::MAX), 0, 0).answer,
        0
    );
    for condition in [32, 62, 63, 64, 100] {
        let left = call(Question::new(&image, &given, condition, u32::MAX), 3, 2);
        assert_eq!(left, zero(8, 3, 2));
    }
}

#[test]
fn what_breaks_a_rule_is_7_and_a_broken_image_comes_first() {
    let mut random = Random::new(3);
    let mut broken = [0; BREAKS.len()];
    for _ in 0..300 {
        let tree = guards::tree(&mut random, 40);
        let image = tree.encode();
        let given = own_tables(&image);
        for (tried, count) in BREAKS.iter().zip(&mut broken) {
            let Some((given, condition)) = tried.make(&mut random, &tree, &given, 0) else {
                continue;
            };
            *count += 1;
            let left = call(Question::new(&image, &given, condition, 0), 3, 0);
            assert_eq!(left, untouched(7, 3, 0), "{}", tried.name);
            if let Some((refusal, damaged)) = damage::refused(&mut random, &tree) {
                let left = call(Question::new(&damaged, &given, condition, 0), 3, 0);
                assert_eq!(left, untouched(refusal, 3, 0));
            }
        }
    }
    assert!(broken.iter().all(|&count| count > 50), "{broken:?}");
}

#[test]
fn entries_at_the_edge_of_their_rules_are_accepted() {
    let tree = tree(&lambda("x", with_(var("y"), var("z"))));
    let ask = |entry: u16, binding: u16| {
        let given = Given {
            resolutions: table([entry, 0, 0, 0].into_iter()),
            bindings: table([binding].into_iter()),
        };
        call(Question::new(&tree.encode(), &given, 3, 1), 0, 0).answer
    };
    assert_eq!(tree.exprs[2].kind, kind::WITH);
    let definitions = [0, 1].map(|name| resolution(DEFINITION, name));
    let builtins = [21, 22].map(|place| resolution(BUILTIN, place));
    let withs = [2, 1].map(|with| resolution(WITH, with));
    for [right, wrong] in [definitions, builtins, withs, [0, 1]] {
        assert_eq!((ask(right, 0), ask(wrong, 0)), (0, 7));
    }
    for (right, wrong) in [(3, 4), (0x3fff, 0x3ffe), (0, 0x4000), (1, 0x8001)] {
        assert_eq!((ask(0, right), ask(0, wrong)), (0, 7));
    }
    assert_eq!(ask(0, 0x7fff), 7);
}

#[cfg(original)]
mod beside_the_original {
    use super::*;
    use crate::answers::Condition;
    use crate::arrows;
    use crate::builtin_set;
    use crate::generate::{self, given, grow::Texts};
    use crate::large_stack::{LARGE, run_on};
    use crate::original::passes::{Subject, Tables};
    use crate::second_reading::resolution_steps;

    const MOST_STEPS: u64 = 20_000;
    const MOST_EXPRS: usize = 300;

    #[test]
    fn generated_conditions_are_analysed_as_the_original_analyses_them() {
        let ran = run_on(LARGE, || {
            let mut random = Random::new(31);
            for turn in 0..4000 {
                let tree = match turn % 4 {
                    0 => generate::conditions::tree(&mut random),
                    _ => generate::tree(&mut random, Texts::Utf8),
                };
                if tree.exprs.len() <= MOST_EXPRS {
                    compare(&mut random, &tree);
                }
            }
        });
        assert!(ran.is_ok());
    }

    fn compare(random: &mut Random, tree: &Tree) {
        let image = tree.encode();
        let subject = Subject::new(tree);
        let has_arrow = arrows::by_condition(tree);
        let own = (resolution_steps(&image) <= MOST_STEPS).then(|| subject.own_tables());
        let given = own.into_iter().chain([given::tables(random, tree)]);
        for given in given.filter(|given| builtin_set::is_meant(tree, given)) {
            let tables = Tables::given(&given);
            for (condition, steps) in (0..).zip(condition_steps(&image)) {
                if steps <= MOST_STEPS && !has_arrow[condition as usize] {
                    let expected = subject.analyze_condition(&tables, condition);
                    compare_one(
                        Question::new(&image, &given, condition, u32::MAX),
                        &expected,
                    );
                }
            }
        }
    }

    fn compare_one(question: Question, expected: &Condition) {
        let lists = [bytes(&expected.then_list), bytes(&expected.else_list)];
        let [then_list, else_list] = lists;
        let left = call(question, then_list.len(), else_list.len());
        let expected = Left {
            answer: 0,
            analysis: Analysis {
                steps: expected.steps as u32,
                then_count: expected.then_list.len() as u32,
                else_count: expected.else_list.len() as u32,
            },
            then_list,
            else_list,
        };
        assert_eq!(left, expected, "{}", question.condition);
    }
}

//! The printed case and the conditions whose answers are given in the papers.

use super::*;
use crate::arrows;
use crate::builtin_set;
use crate::generate::shapes::{NESTINGS, guard_chain};
use crate::generate::{given, guards};
use crate::image::{MOST_NUMBERED, kind, role};
use crate::large_stack::{LARGE, run_on};
use crate::notation::*;
use crate::own_builtins::{self, FROM_ANOTHER, FROM_BUILTINS};
use crate::port::own_tables;
use crate::random::Random;
use crate::records::sort::{HAS_FIELD, IS_NOT_TYPE, IS_TYPE, NOT_HAS_FIELD};
use crate::records::{record_of, sort_of};
use crate::second_reading::{check, condition_told, dependencies_told};
use crate::starred::cases;

/// But for arrows, of which the original tells nothing.
#[test]
fn the_listed_conditions_give_what_is_listed() {
    for case in cases() {
        let tables = Tables::given(&case.given);
        let answer = Subject::new(&case.tree).analyze_condition(&tables, case.condition);
        let listed = match arrows::by_condition(&case.tree)[case.condition as usize] {
            true => (vec![], vec![]),
            false => (case.then_list, case.else_list),
        };
        assert_eq!(
            (answer.then_list, answer.else_list),
            listed,
            "{}",
            case.name
        );
    }
}

#[test]
fn the_original_takes_all_that_is_spelt_builtins_for_the_builtin_set() {
    for mut case in own_builtins::cases() {
        if !builtin_set::is_meant(&case.tree, &case.given) {
            assert_eq!(case.reading, FROM_ANOTHER, "{}", case.name);
            case.reading = FROM_BUILTINS;
        }
        let (subject, tables) = (Subject::new(&case.tree), Tables::given(&case.given));
        for (condition, lists) in case.conditions() {
            let told = subject.analyze_condition(&tables, condition);
            assert_eq!([told.then_list, told.else_list], lists, "{}", case.name);
        }
        let walked = subject.name_dependencies(&tables);
        assert_eq!(walked.narrowings, case.narrowings(), "{}", case.name);
    }
}

/// The smallest trees of docs/DIFFERENCES.md on which the original and the second reading part, so that no table in which a
/// `builtins` is not the builtin set may be compared with the original.
#[test]
fn the_original_parts_from_the_second_reading_over_another_builtins() {
    let to_name = |tree: &Tree| {
        let mut given = Given::empty(tree.exprs.len(), tree.names.len());
        let entry = resolution(DEFINITION, 0);
        given.resolutions = table((0..tree.exprs.len()).map(|e| if e == 0 { entry } else { 0 }));
        given
    };
    let condition = own_builtins::smallest_condition();
    let bare = own_builtins::without_set(&condition);
    let (unresolved, nothing) = own_builtins::smallest_unresolved();
    for (tree, given, condition, size) in [
        (&condition, own_tables(&condition.encode()), 3, 97),
        (&bare, to_name(&bare), 3, 85),
        (&unresolved, nothing, 4, 93),
    ] {
        let image = tree.encode();
        assert_eq!((check(&image), image.len()), (0, size));
        assert!(!builtin_set::is_meant(tree, &given));
        let original = Subject::new(tree).analyze_condition(&Tables::given(&given), condition);
        let second = condition_told(&image, &given, condition);
        let [is, is_not] = [IS_TYPE, IS_NOT_TYPE].map(|sort| vec![record(0, sort, ty::INT)]);
        assert_eq!([original.then_list, original.else_list], [is, is_not]);
        assert_eq!([second.then_list, second.else_list], [vec![], vec![]]);
    }
}

#[test]
fn the_original_walks_otherwise_over_another_builtins() {
    let walk = own_builtins::smallest_walk();
    let mut bare = own_builtins::without_set(&walk);
    bare.names.clear();
    let nothing = Given::empty(bare.exprs.len(), 0);
    for (tree, given, size, steps) in [
        (&walk, own_tables(&walk.encode()), 112, [9, 8]),
        (&bare, nothing, 96, [8, 7]),
    ] {
        let image = tree.encode();
        assert_eq!((check(&image), image.len()), (0, size));
        assert!(!builtin_set::is_meant(tree, &given));
        let original = Subject::new(tree).name_dependencies(&Tables::given(&given));
        let second = dependencies_told(&image, &given);
        assert_eq!([original.steps, second.steps], steps);
    }
}

#[test]
fn given_tables_are_read_as_they_are_made() {
    let tree = tree(&with_(
        var("lib"),
        let_(&[("y", var("z"))], list(&[var("y"), var("map")])),
    ));
    let subject = Subject::new(&tree);
    let own = Tables::own(&subject.module);
    let own_tables = subject.own_tables();
    assert_eq!(
        entries(&own_tables.resolutions).collect::<Vec<_>>(),
        [0, 0xc006, 0x4000, 0x800e, 0, 0, 0]
    );
    let given = Tables::given(&own_tables);
    assert_eq!(given.bindings, own.bindings);
    for (e, _) in subject.module.exprs() {
        assert_eq!(given.resolutions.get(e), own.resolutions.get(e));
    }
}

#[test]
fn steps_are_all_analysed_nodes() {
    let test = || eq(var("x"), null());
    let steps = |condition| {
        let subject = Subject::new(&tree(&condition));
        let tables = Tables::own(&subject.module);
        let last = subject.module.exprs().len() as u32 - 1;
        subject.analyze_condition(&tables, last).steps
    };
    assert_eq!(steps(test()), 1);
    assert_eq!(steps(not(not(test()))), 3);
    // Each list of the one is dropped by the other.
    assert_eq!(steps(or(and(test(), test()), test())), 5);
    assert_eq!(steps(and(or(test(), test()), int())), 5);
    assert_eq!(steps(implies(test(), test())), 1);
    let shared = test();
    assert_eq!(steps(and(shared.clone(), shared)), 3);
}

/// Entries of every tag with any value that the rules allow, wherever our own calls would write another.
#[test]
fn any_well_formed_tables_can_be_given() {
    let mut random = Random::new(5);
    for _ in 0..300 {
        let tree = guards::tree(&mut random, 60);
        let subject = Subject::new(&tree);
        let written = given::tables(&mut random, &tree);
        let tables = Tables::given(&written);
        let exprs = subject.module.exprs();
        let read = exprs.map(|(e, _)| resolution_entry(tables.resolutions.get(e)));
        assert_eq!(table(read), written.resolutions);
        let bindings = expr_table(&subject.module, &tables.bindings);
        assert_eq!(bindings, written.bindings);
    }
}

#[test]
fn scopes_are_counted_by_visit() {
    let shared = with_(var("a"), var("b"));
    let tree = tree(&list(&[shared.clone(), shared]));
    let resolved = Subject::new(&tree).name_resolution();
    assert_eq!((resolved.steps, resolved.scopes), (7, 3));
    assert_eq!(resolved.visited, 4);
}

#[test]
fn the_index_has_roles_4_and_6() {
    let bindings = Bindings::new()
        .bind("a", &int())
        .inherit("b")
        .inherit_from(var("lib"), &["c"]);
    let tree = tree(&set(bindings));
    let table = Subject::new(&tree).module_indices();
    let statics = &tree.exprs[tree.entry as usize].items;
    assert_eq!(statics[2].role, role::INHERIT_FROM);
    let expected = [statics[0].expr, NONE, statics[2].expr];
    assert_eq!(entries(&table).map(u32::from).collect::<Vec<_>>(), expected);
}

#[test]
fn a_key_has_the_number_of_its_own_text_and_not_of_an_equal_one() {
    let mut tree = tree(&lambda("x", has_attr(var("x"), &["f"])));
    let f = tree.texts.len() as u32 - 1;
    tree.texts.push(b"f".to_vec());
    let key = tree.exprs.iter_mut().find(|e| e.kind == kind::LITERAL);
    key.expect("the key").text = f + 1;
    let subject = Subject::new(&tree);
    let tables = Tables::own(&subject.module);
    let answer = subject.analyze_condition(&tables, tree.entry - 1);
    assert_eq!(answer.then_list, [record(0, HAS_FIELD, f + 1)]);
    assert_eq!(answer.else_list, [record(0, NOT_HAS_FIELD, f + 1)]);
}

#[test]
fn programs_full_of_guards_reach_every_sort() {
    let mut random = Random::new(11);
    let mut sorts = [0; sort::COUNT];
    for _ in 0..100 {
        let tree = guards::tree(&mut random, 60);
        let subject = Subject::new(&tree);
        let walked = subject.name_dependencies(&Tables::own(&subject.module));
        for &recorded in &walked.narrowings {
            sorts[sort_of(record_of(recorded))] += 1;
        }
    }
    assert!(sorts.iter().all(|&count| count > 0), "{sorts:?}");
}

#[test]
fn chains_of_every_nesting_run_at_full_depth() {
    let ran = run_on(LARGE, || {
        for nesting in &NESTINGS {
            let subject = Subject::new(&nesting.chain(MOST_NUMBERED));
            let tables = Tables::own(&subject.module);
            let steps = subject.name_resolution().steps + subject.name_dependencies(&tables).steps;
            // A chain through role 6 is cut in one pass, one through role 7 in the other.
            assert!(steps > MOST_NUMBERED as u64, "{}", nesting.name);
        }
    });
    assert!(ran.is_ok());
}

#[test]
fn narrowings_of_all_guards_around_are_recorded() {
    let ran = run_on(LARGE, || {
        let subject = Subject::new(&guard_chain(600));
        let walked = subject.name_dependencies(&Tables::own(&subject.module));
        assert_eq!((walked.narrowings.len(), walked.most_in_force), (600, 600));
        let null = |sort| {
            let told = narrowing(1, record(0, sort, 0));
            walked.narrowings.iter().filter(|&&n| n == told).count()
        };
        assert_eq!((null(IS_TYPE), null(IS_NOT_TYPE)), (400, 200));
    });
    assert!(ran.is_ok());
}

/// Two bindings that record by turns, since one of them is shared.
#[test]
fn narrowings_come_in_the_order_of_visits() {
    let test = |name: &str| eq(var(name), null());
    let shared = let_(&[("y", int())], var("y"));
    let other = let_(&[("z", int())], shared.clone());
    let both = list(&[shared.clone(), other, shared]);
    let inner = assert_(test("b"), both);
    let tree = tree(&lambda("a", lambda("b", if_(test("a"), inner, int()))));
    let subject = Subject::new(&tree);
    let walked = subject.name_dependencies(&Tables::own(&subject.module));
    let in_force = [0, 1].map(|name| record(name, IS_TYPE, 0));
    let [y, z] = [2, 3].map(|binding| in_force.map(|record| narrowing(binding, record)));
    assert_eq!(walked.narrowings, [y, z, y, y].concat());
    assert_eq!(walked.most_in_force, 2);
}

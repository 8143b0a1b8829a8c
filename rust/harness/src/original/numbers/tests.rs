//! Which records become IsNumber, and that the original itself tells the type.

use super::*;
use crate::builtin_set;
use crate::generate::{self, given, grow::Texts};
use crate::image::Tree;
use crate::notation::*;
use crate::number_literals;
use crate::original::passes::{Subject, Tables};
use crate::port::own_tables;
use crate::random::Random;
use crate::records::sort::{IS_NOT_TYPE as IS_NOT, IS_NUMBER, IS_TYPE as IS};
use crate::records::sort_of;
use crate::second_reading::{check, condition_told, dependencies_told};
use crate::tables::{DEFINITION, Given, resolution, table};

const X: u32 = 0;

fn called(word: &str) -> Node {
    apply(select(var("builtins"), &[word]), var("x"))
}

/// Tests of a type beside comparisons with literals of the same one, and one expression that is both a number and a value.
fn mixed() -> Node {
    let numbers = [
        called("isInt"),
        eq(var("x"), int()),
        called("isFloat"),
        not(ne(float(), var("x"))),
        eq(var("x"), path()),
        called("isPath"),
    ];
    let mut tests = numbers.into_iter();
    let first = tests.next().expect("the first");
    tests.fold(first, and)
}

fn mixed_records(number: [Record; 2]) -> [Record; 6] {
    let [int, float, path] = [ty::INT, ty::FLOAT, ty::PATH].map(|ty| record(X, IS, ty));
    [int, number[0], float, number[1], path, path]
}

#[test]
fn records_of_number_literals_alone_become_numbers() {
    let tree = tree(&lambda("x", mixed()));
    let (subject, condition) = (Subject::new(&tree), tree.entry - 1);
    let tables = Tables::own(&subject.module);
    let as_is = subject.condition_as_is(&tables, condition);
    let types = [ty::INT, ty::FLOAT].map(|ty| record(X, IS, ty));
    assert_eq!(as_is.then_list, mixed_records(types));
    let told = subject.analyze_condition(&tables, condition);
    assert_eq!(told.then_list, mixed_records([record(X, IS_NUMBER, 0); 2]));
    assert_eq!((told.else_list, told.steps), (vec![], as_is.steps));
}

#[test]
fn a_walk_records_numbers_in_the_same_places() {
    let bound = |name: &str| let_(&[(name, var("x"))], int());
    let body = assert_(mixed(), if_(called("isInt"), bound("y"), bound("z")));
    let subject = Subject::new(&tree(&lambda("x", body)));
    let tables = Tables::own(&subject.module);
    let in_force = |numbers: [Record; 2]| {
        let recorded = [(1, IS), (2, IS_NOT)].map(|(binding, sort)| {
            let last = record(X, sort, ty::INT);
            let records = mixed_records(numbers).into_iter().chain([last]);
            records.map(move |told| narrowing(binding, told))
        });
        recorded.into_iter().flatten().collect::<Vec<_>>()
    };
    let (as_is, walked) = (
        subject.walk_as_is(&tables),
        subject.name_dependencies(&tables),
    );
    let types = [ty::INT, ty::FLOAT].map(|ty| record(X, IS, ty));
    assert_eq!(as_is.narrowings, in_force(types));
    assert_eq!(walked.narrowings, in_force([record(X, IS_NUMBER, 0); 2]));
    let narrowings = as_is.narrowings;
    assert_eq!(
        Dependencies {
            narrowings,
            ..walked
        },
        subject.walk_as_is(&tables)
    );
}

#[test]
#[should_panic(expected = "decides its type and no more")]
fn another_record_than_of_a_number_may_not_change() {
    let [null, path] = [ty::NULL, ty::PATH].map(|ty| record(X, IS, ty));
    in_place(null, path);
}

#[test]
#[should_panic(expected = "decides its type and no more")]
fn a_name_may_not_change() {
    in_place(record(X, IS, ty::INT), record(X + 1, IS, ty::PATH));
}

/// Numbers of the tree's conditions by own and by any tables.
fn count_numbers(random: &mut Random, tree: &Tree) -> usize {
    let subject = Subject::new(tree);
    let mut count = 0;
    for given in [own_tables(&tree.encode()), given::tables(random, tree)] {
        if !builtin_set::is_meant(tree, &given) {
            continue;
        }
        let tables = Tables::given(&given);
        for condition in 0..tree.exprs.len() as u32 {
            let told = subject.analyze_condition(&tables, condition);
            let records = told.then_list.iter().chain(&told.else_list);
            let is_number = |record: &&Record| sort_of(**record) == IS_NUMBER as usize;
            count += records.filter(is_number).count();
        }
    }
    count
}

/// Where no comparison has a number literal, the original is compared as it is.
#[test]
fn numbers_come_of_comparisons_with_their_literals_alone() {
    let mut random = Random::new(17);
    let mut counts = [0; 2];
    for _ in 0..400 {
        let tree = generate::tree(&mut random, Texts::Utf8);
        let has_few = tree.exprs.len() < 200 && tree.visits().iter().all(|&visits| visits < 5000);
        if has_few {
            let place = usize::from(number_literals::are_compared(&tree));
            counts[place] += count_numbers(&mut random, &tree);
        }
    }
    assert!(counts[0] == 0 && counts[1] > 100, "{counts:?}");
}

/// Tables that resolve the reference, which is expression 0, to the one name.
fn to_name(tree: &Tree) -> Given {
    let mut given = Given::empty(tree.exprs.len(), tree.names.len());
    let entry = resolution(DEFINITION, X);
    given.resolutions = table((0..tree.exprs.len()).map(|e| if e == 0 { entry } else { 0 }));
    given
}

/// The smallest trees of docs/DIFFERENCES.md on which the original and the second reading part over number literals.
#[test]
fn the_original_tells_the_type_of_a_number_literal() {
    let (own, bare) = (
        number_literals::smallest_condition(),
        number_literals::smallest_given(),
    );
    for (tree, given, size) in [
        (&own, own_tables(&own.encode()), 65),
        (&bare, to_name(&bare), 53),
    ] {
        let image = tree.encode();
        assert_eq!((check(&image), image.len()), (0, size));
        let tables = Tables::given(&given);
        let original = Subject::new(tree).condition_as_is(&tables, 2);
        let second = condition_told(&image, &given, 2);
        assert_eq!(original.then_list, [record(X, IS, ty::INT)]);
        assert_eq!(second.then_list, [record(X, IS_NUMBER, 0)]);
        assert_eq!((original.else_list, second.else_list), (vec![], vec![]));
        assert_eq!((original.steps, second.steps), (1, 1));
    }
}

#[test]
fn the_original_records_the_type_of_a_number_literal() {
    let (own, bare) = (
        number_literals::smallest_walk(),
        number_literals::smallest_given_walk(),
    );
    for (tree, given, size) in [
        (&own, own_tables(&own.encode()), 85),
        (&bare, to_name(&bare), 81),
    ] {
        let image = tree.encode();
        assert_eq!((check(&image), image.len()), (0, size));
        let original = Subject::new(tree).walk_as_is(&Tables::given(&given));
        let second = dependencies_told(&image, &given);
        let recorded = |told| vec![narrowing(0, told)];
        assert_eq!(original.narrowings, recorded(record(X, IS, ty::INT)));
        assert_eq!(second.narrowings, recorded(record(X, IS_NUMBER, 0)));
        let narrowings = second.narrowings.clone();
        assert_eq!(
            Dependencies {
                narrowings,
                ..original
            },
            second
        );
    }
}

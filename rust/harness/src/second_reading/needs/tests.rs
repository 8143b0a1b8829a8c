//! Levels and needs of small trees, worked out by hand, and what each refusal leaves.

use std::rc::Rc;

use super::{dependencies_need, levels, resolution_need};
use crate::generate::given::{self, table_breaks};
use crate::generate::{damage, grow, shapes, small};
use crate::image::{MOST_NUMBERED, Tree};
use crate::notation::*;
use crate::port::{ResolutionCounts, Walk, WalkCounts, own_tables, walk_buffers};
use crate::random::Random;
use crate::second_reading::{self, ANSWERS, dependency_need, writes_nothing};
use crate::tables::Given;

/// What the numbers hold before a call.
const FRESH_RESOLUTION: ResolutionCounts = ResolutionCounts {
    steps: 77,
    scopes: 78,
};
const FRESH_WALK: WalkCounts = WalkCounts {
    steps: 77,
    edges: 78,
    narrowings: 79,
    most: 80,
};

fn levels_of(tree: &Tree) -> u32 {
    let mut answered = 77;
    assert_eq!(levels(&tree.encode(), &mut answered), 0);
    answered
}

/// Steps and scopes, or the refusal and what it leaves.
fn resolving(image: &[u8], budget: u32) -> (u32, [usize; 2]) {
    let mut need = FRESH_RESOLUTION;
    let answer = resolution_need(image, budget, &mut need);
    (answer, [need.steps as usize, need.scopes])
}

fn resolved(tree: &Tree) -> [usize; 2] {
    let (answer, numbers) = resolving(&tree.encode(), u32::MAX);
    assert_eq!(answer, 0);
    numbers
}

/// Steps, edges, narrowings and the most in force, or the refusal and what it leaves.
fn walking(image: &[u8], given: &Given, budget: u32) -> (u32, [usize; 4]) {
    let mut need = FRESH_WALK;
    let answer = dependencies_need(image, given, budget, &mut need);
    let WalkCounts {
        steps,
        edges,
        narrowings,
        most,
    } = need;
    (answer, [steps as usize, edges, narrowings, most])
}

fn walked(tree: &Tree) -> [usize; 4] {
    let image = tree.encode();
    let (answer, numbers) = walking(&image, &own_tables(&image), u32::MAX);
    assert_eq!(answer, 0);
    numbers
}

fn null_test() -> Node {
    eq(var("x"), null())
}

/// `let y = 1; in 1`.
fn binding() -> Node {
    let_(&[("y", int())], int())
}

#[test]
fn the_printed_case_has_four_levels_three_scopes_and_one_of_each_in_the_walk() {
    assert_eq!(levels_of(&survey_case()), 4);
    assert_eq!(resolved(&survey_case()), [9, 3]);
    assert_eq!(walked(&survey_case()), [10, 1, 1, 1]);
}

#[test]
fn a_leaf_is_one_level_and_one_step_in_the_root_scope() {
    assert_eq!(levels_of(&small::missing()), 1);
    assert_eq!(resolved(&small::missing()), [1, 1]);
    assert_eq!(walked(&small::missing()), [1, 0, 0, 0]);
}

#[test]
fn levels_are_those_of_the_longest_way() {
    let leaf = int();
    let deep = list(&[list(&[Rc::clone(&leaf)])]);
    for elements in [[&leaf, &deep], [&deep, &leaf]] {
        let elements = elements.map(Rc::clone);
        assert_eq!(levels_of(&tree(&list(&elements))), 4);
    }
    assert_eq!(levels_of(&tree(&list(&[]))), 1);
}

#[test]
fn levels_go_down_through_items_of_all_roles() {
    for nesting in &shapes::NESTINGS {
        assert_eq!(levels_of(&nesting.chain(5)), 5, "{}", nesting.name);
    }
    // The selection stands one above its base, which the set has too.
    let base = list(&[list(&[int()])]);
    let inherits = set(Bindings::new().inherit_from(base, &["a"]));
    assert_eq!(levels_of(&tree(&inherits)), 5);
}

#[test]
fn what_is_absent_or_not_reached_is_no_level() {
    let absent = [(Some("a"), None), (None, None)];
    assert_eq!(
        levels_of(&tree(&lambda_pattern(Some("x"), &absent, int()))),
        2
    );
    let default = [(Some("a"), Some(list(&[int()])))];
    assert_eq!(levels_of(&tree(&lambda_pattern(None, &default, int()))), 3);
    let mut chain = shapes::NESTINGS[0].chain(9);
    chain.entry = 3;
    assert_eq!(levels_of(&chain), 4);
}

#[test]
fn levels_of_what_is_shared_take_no_time_by_its_visits() {
    let doubling = shapes::doubling(MOST_NUMBERED - 1);
    assert_eq!(levels_of(&doubling), MOST_NUMBERED as u32);
}

#[test]
fn each_expression_that_makes_a_scope_counts_one() {
    let twice = lambda("x", var("x"));
    let named = || Bindings::values(&[("p", int())]);
    let inherited = || Bindings::new().inherit_from(var("b"), &["a"]);
    for (root, steps, scopes) in [
        (var("x"), 1, 1),
        (lambda("x", var("x")), 2, 2),
        (lambda_pattern(None, &[(None, Some(int()))], int()), 3, 1),
        (with_(var("a"), var("b")), 3, 2),
        (assert_(var("a"), var("b")), 3, 1),
        (set(named()), 2, 1),
        (rec_set(named()), 2, 2),
        (let_in(named(), int()), 3, 2),
        // The base is visited, the selection from it is not.
        (set(inherited()), 2, 1),
        (let_in(inherited(), var("a")), 3, 2),
        (list(&[Rc::clone(&twice), twice]), 5, 3),
    ] {
        assert_eq!(resolved(&tree(&root)), [steps, scopes]);
    }
}

#[test]
fn a_need_of_as_many_steps_as_a_budget_can_say_is_told_and_one_of_more_is_not() {
    let steps = u32::MAX as usize;
    assert_eq!(resolved(&shapes::doubling(31)), [steps, 1]);
    let more = shapes::doubling(32).encode();
    assert_eq!(resolving(&more, u32::MAX), (8, [0; 2]));
    let endless = shapes::doubling(MOST_NUMBERED - 1).encode();
    assert_eq!(resolving(&endless, u32::MAX), (8, [0; 2]));
}

#[test]
fn each_binding_records_what_is_in_force_and_the_most_is_that_of_one_point() {
    let asserted = assert_(null_test(), binding());
    let either = or(null_test(), null_test());
    for (body, numbers) in [
        // The function, the if, its condition with an analysis, two branches.
        (if_(null_test(), int(), int()), [8, 0, 0, 1]),
        (if_(null_test(), binding(), int()), [10, 0, 1, 1]),
        (if_(null_test(), binding(), binding()), [12, 0, 2, 1]),
        (if_(null_test(), asserted, var("x")), [15, 0, 2, 2]),
        (if_(either, int(), binding()), [16, 0, 2, 2]),
        (if_(var("x"), binding(), int()), [8, 0, 0, 0]),
    ] {
        assert_eq!(walked(&tree(&lambda("x", body))), numbers);
    }
    // Two tests of null around two bindings, each of which refers to x.
    assert_eq!(walked(&shapes::crowded(1, 1)), [20, 2, 4, 2]);
}

#[test]
fn each_definition_within_a_binding_is_an_edge() {
    let rec_ = |a: Node, b: Node| tree(&rec_set(Bindings::values(&[("a", a), ("b", b)])));
    assert_eq!(walked(&rec_(var("b"), var("a"))), [3, 2, 0, 0]);
    assert_eq!(walked(&rec_(int(), var("map"))), [3, 0, 0, 0]);
    let twice = list(&[var("a"), var("a")]);
    assert_eq!(walked(&rec_(twice, int())), [5, 2, 0, 0]);
}

#[test]
fn more_narrowings_than_32_bits_can_count_are_counted() {
    let [_, edges, narrowings, most] = walked(&shapes::crowded(16, 17));
    assert_eq!([edges, narrowings, most], [1 << 17, 1 << 33, 1 << 16]);
}

#[test]
fn a_step_less_than_the_run_takes_leaves_zeros() {
    let image = survey_case().encode();
    let own = own_tables(&image);
    for budget in [0, 1, 8] {
        assert_eq!(resolving(&image, budget), (8, [0; 2]));
    }
    assert_eq!(resolving(&image, 9), (0, [9, 3]));
    for budget in [0, 1, 9] {
        assert_eq!(walking(&image, &own, budget), (8, [0; 4]));
    }
    assert_eq!(walking(&image, &own, 10), (0, [10, 1, 1, 1]));
}

#[test]
fn a_refused_image_or_a_broken_table_leaves_all_as_it_was() {
    let mut random = Random::new(5);
    let tree = survey_case();
    let (image, own) = (tree.encode(), own_tables(&tree.encode()));
    let mut seen = [0; ANSWERS];
    for _ in 0..500 {
        if let Some((refusal, image)) = damage::refused(&mut random, &tree) {
            let mut depth = 77;
            assert_eq!((levels(&image, &mut depth), depth), (refusal, 77));
            assert_eq!(resolving(&image, 0), (refusal, [77, 78]));
            assert_eq!(walking(&image, &own, 0), (refusal, [77, 78, 79, 80]));
            seen[refusal as usize] += 1;
        }
        let tried = random.pick(table_breaks());
        if let Some((broken, _)) = tried.make(&mut random, &tree, &own, 0) {
            assert_eq!(walking(&image, &broken, 0), (7, [77, 78, 79, 80]));
            seen[7] += 1;
        }
    }
    let mut leaving = (1..ANSWERS).filter(|&refusal| writes_nothing(refusal as u32));
    assert!(leaving.all(|refusal| seen[refusal] > 5), "{seen:?}");
}

/// The steps and counts of the second reading's own walk, with buffers that are just long enough.
fn own_walk(image: &[u8], given: &Given) -> [usize; 4] {
    let rooms = dependency_need(image, given).map(|need| need as usize);
    let mut lent = rooms.map(|room| vec![0; room]);
    let buffers = walk_buffers(lent.each_mut().map(Vec::as_mut_slice));
    let mut walk = Walk::default();
    let answer = second_reading::name_dependencies(image, given, u32::MAX, buffers, &mut walk);
    assert_eq!(answer, 0);
    let counts = [walk.steps, walk.edge_count, walk.narrowing_count];
    let [steps, edges, narrowings] = counts.map(|count| count as usize);
    assert_eq!([4 * edges, 8 * narrowings], rooms[..2]);
    [steps, edges, narrowings, rooms[3] / 4]
}

#[test]
fn needs_are_what_the_second_readings_own_runs_come_to() {
    let mut random = Random::new(6);
    for _ in 0..300 {
        let size = random.between(1, 12);
        let tree = grow::tree(&mut random, size, grow::Texts::Bytes);
        let image = tree.encode();
        let [steps, scopes] = resolved(&tree);
        let mut table = vec![0; 2 * tree.exprs.len()];
        let mut working = vec![0; 4 * tree.exprs.len() + 8 * scopes];
        let (budget, mut taken) = (steps as u32, 0);
        let mut run = |working: &mut [u8], budget| {
            second_reading::name_resolution(&image, budget, &mut table, working, &mut taken)
        };
        assert_eq!(run(&mut working, budget - 1), 8);
        assert_eq!(run(&mut working[1..], budget), 9);
        assert_eq!(run(&mut working, budget), 0);
        assert_eq!(taken, budget);
        let any = given::tables(&mut random, &tree);
        let numbers = own_walk(&image, &any);
        assert_eq!(walking(&image, &any, u32::MAX), (0, numbers));
    }
}

//! The rules of the walk one by one, and what each refusal leaves.

use super::{dependency_need, dependency_steps, name_dependencies};
use crate::generate::given::table_breaks;
use crate::generate::words::CONDITIONALS;
use crate::generate::{damage, guards, shapes};
use crate::image::{NONE, Tree, kind};
use crate::notation::*;
use crate::own_builtins;
use crate::port::{Walk, own_tables, walk_buffers};
use crate::random::Random;
use crate::records::sort::{IS_NOT_TYPE as IS_NOT, IS_TYPE as IS};
use crate::records::{Edge, Narrowing, Record, edge, narrowing, record, ty};
use crate::tables::{DEFINITION, Given, entries, resolution, table};

/// What a lent byte and a number hold before the call.
const FRESH: u8 = 0xa5;
const FRESH_NUMBERS: Walk = Walk {
    steps: 77,
    edge_count: 78,
    narrowing_count: 79,
};

/// All that a call leaves.
#[derive(Debug, PartialEq, Eq)]
struct Left {
    answer: u32,
    walk: Walk,
    buffers: [Vec<u8>; 4],
}

fn left(answer: u32, walk: Walk, rooms: [usize; 4], byte: u8) -> Left {
    Left {
        answer,
        walk,
        buffers: rooms.map(|room| vec![byte; room]),
    }
}

fn call(image: &[u8], given: &Given, budget: u32, rooms: [usize; 4]) -> Left {
    let mut left = left(0, FRESH_NUMBERS, rooms, FRESH);
    let lent = walk_buffers(left.buffers.each_mut().map(Vec::as_mut_slice));
    left.answer = name_dependencies(image, given, budget, lent, &mut left.walk);
    left
}

/// What a walk gives, read from buffers of the exact need.
#[derive(Debug, PartialEq, Eq)]
struct Walked {
    steps: u32,
    edges: Vec<Edge>,
    narrowings: Vec<Narrowing>,
    exprs: Vec<u32>,
    /// Narrowings in force at the point that has most.
    most: usize,
}

fn walked(tree: &Tree, given: &Given) -> Walked {
    let image = tree.encode();
    let rooms = dependency_need(&image, given).map(|need| need as usize);
    let left = call(&image, given, u32::MAX, rooms);
    assert_eq!((left.answer, &left.buffers[3]), (0, &vec![0; rooms[3]]));
    let [edges, narrowings, exprs, _] = &left.buffers;
    let (edges, narrowings) = (edges.as_chunks().0, narrowings.as_chunks().0);
    let counts = [left.walk.edge_count, left.walk.narrowing_count];
    assert_eq!(counts, [edges.len() as u32, narrowings.len() as u32]);
    assert_eq!(dependency_steps(&image, given), left.walk.steps.into());
    Walked {
        steps: left.walk.steps,
        edges: edges.iter().map(|&edge| u32::from_be_bytes(edge)).collect(),
        narrowings: narrowings.iter().map(|&n| u64::from_be_bytes(n)).collect(),
        exprs: entries(exprs).map(u32::from).collect(),
        most: rooms[3] / 4,
    }
}

/// The walk over a tree with its own tables.
fn walk(root: Node) -> Walked {
    let tree = tree(&root);
    walked(&tree, &own_tables(&tree.encode()))
}

const X: u32 = 0;
const Y: u32 = 1;
const IS_NULL: Record = record(X, IS, ty::NULL);
const NOT_NULL: Record = record(X, IS_NOT, ty::NULL);

fn null_test() -> Node {
    eq(var("x"), null())
}

/// `let y = value; in 1`: it records what is in force under name 1 in a function of `x`.
fn binds_y(value: Node) -> Node {
    let_(&[("y", value)], int())
}

#[test]
fn the_printed_case_gives_what_is_printed() {
    let tree = survey_case();
    let expected = Walked {
        steps: 10,
        edges: vec![edge(Y, X)],
        narrowings: vec![narrowing(Y, IS_NULL)],
        exprs: vec![NONE, 3],
        most: 1,
    };
    assert_eq!(walked(&tree, &own_tables(&tree.encode())), expected);
}

#[test]
fn each_guard_has_its_list_in_force_and_its_condition_has_not() {
    let in_condition = |test: Node| and(test, binds_y(int()));
    for (body, records) in [
        (if_(null_test(), binds_y(int()), int()), &[IS_NULL][..]),
        (if_(null_test(), int(), binds_y(int())), &[NOT_NULL]),
        (if_(in_condition(null_test()), int(), int()), &[]),
        (assert_(null_test(), binds_y(int())), &[IS_NULL]),
        (assert_(in_condition(null_test()), int()), &[]),
        (apply2(var("mkIf"), null_test(), binds_y(int())), &[IS_NULL]),
        (apply2(var("mkIf"), in_condition(null_test()), int()), &[]),
        (apply2(var("mkUnless"), null_test(), binds_y(int())), &[]),
    ] {
        let narrowings: Vec<u64> = records.iter().map(|&r| narrowing(Y, r)).collect();
        assert_eq!(walk(lambda("x", body)).narrowings, narrowings);
    }
}

/// `x: y: if x == null -> y == null then x else let z = x; in z` with one x and one null, as the definitions have it
/// (crates/semantics/specs/Cases.antt).
#[test]
fn an_arrow_has_both_sides_in_force_where_it_is_false() {
    let (x, none) = (var("x"), null());
    let [a, b] = [x.clone(), var("y")].map(|name| eq(name, none.clone()));
    let bound = let_(&[("z", x.clone())], var("z"));
    let body = if_(implies(a, b), x, bound);
    let z = 2;
    let expected = Walked {
        steps: 17,
        edges: vec![edge(z, X)],
        narrowings: vec![
            narrowing(z, IS_NULL),
            narrowing(z, record(Y, IS_NOT, ty::NULL)),
        ],
        exprs: vec![NONE, NONE, 0],
        most: 2,
    };
    assert_eq!(walk(lambda("x", lambda("y", body))), expected);
}

/// Where an arrow is true nothing is known: an assert of one tells nothing, and of one that is negated both sides.
#[test]
fn an_arrow_that_is_asserted_counts_its_nodes_and_tells_nothing() {
    let arrow = || implies(null_test(), not(null_test()));
    let called = |condition: Node| apply2(var("mkIf"), condition, binds_y(int()));
    for guard in [|it| assert_(it, binds_y(int())), called] {
        let asserted = walk(lambda("x", guard(arrow())));
        let test = walk(lambda("x", guard(null_test())));
        assert_eq!(asserted.narrowings, []);
        // Three expressions more to visit, and three nodes more to analyse.
        assert_eq!(asserted.steps, test.steps + 5 + 3);
        let negated = walk(lambda("x", guard(not(arrow()))));
        let recorded = [IS_NULL; 2].map(|told| narrowing(Y, told));
        assert_eq!(negated.narrowings, recorded);
        assert_eq!(negated.steps, asserted.steps + 2);
    }
}

#[test]
fn calls_are_recognised_by_their_text_or_last_key() {
    let called = |fun| apply2(fun, null_test(), binds_y(int()));
    let recorded = |fun| walk(lambda("x", called(fun))).narrowings.len();
    for name in ["optionalString", "optionalAttrs", "optional", "mkIf"] {
        assert_eq!(recorded(var(name)), 1);
        assert_eq!(recorded(select(var("lib"), &["a", name])), 1);
        let default = select_by(var("lib"), &[string(name)], Some(int()));
        assert_eq!(recorded(default), 0);
        assert_eq!(recorded(string(name)), 0);
        assert_eq!(recorded(select(var("lib"), &[name, "a"])), 0);
    }
    // One argument is not enough, and a third is not looked at.
    assert_eq!(recorded(apply(var("mkIf"), int())), 0);
}

#[test]
fn calls_of_what_builtins_has_count_by_what_it_resolves_to() {
    for case in own_builtins::cases() {
        let narrowings = walked(&case.tree, &case.given).narrowings;
        assert_eq!(narrowings, case.narrowings(), "{}", case.name);
    }
    let called = |word| apply2(select(var("builtins"), &[word]), null_test(), int());
    for word in CONDITIONALS {
        // The condition of a recognised call is an analysed node.
        let [meant, another] = ["y", "builtins"].map(|name| {
            let walked = walk(lambda("x", lambda(name, called(word))));
            (walked.steps, walked.most)
        });
        assert_eq!([meant, another], [(12, 1), (11, 0)]);
    }
}

/// `x = 1; in if builtins.isString x then x else 0` behind these bindings.
fn tested(bindings: Bindings) -> Walked {
    let test = apply(select(var("builtins"), &["isString"]), var("x"));
    let body = if_(test, var("x"), int());
    walk(let_in(bindings.bind("x", &int()), body))
}

#[test]
fn a_test_of_another_set_of_that_name_has_nothing_in_force() {
    let is_string = lambda("q", var("true"));
    let own = set(Bindings::values(&[("isString", is_string)]));
    let own = tested(Bindings::values(&[("builtins", own)]));
    assert_eq!((own.most, own.narrowings), (0, vec![]));
    assert_eq!(tested(Bindings::new()).most, 1);
}

#[test]
fn steps_are_visits_and_analysed_nodes() {
    // The test is 3 visits and 1 analysed node.
    assert_eq!(walk(null_test()).steps, 3);
    assert_eq!(walk(if_(null_test(), int(), int())).steps, 7);
    assert_eq!(walk(if_(not(null_test()), int(), int())).steps, 9);
    assert_eq!(walk(assert_(null_test(), int())).steps, 6);
    // A recognised call is analysed although its condition tells nothing.
    assert_eq!(walk(apply2(var("mkIf"), int(), int())).steps, 6);
    assert_eq!(walk(apply2(var("x"), int(), int())).steps, 5);
    let shared = if_(null_test(), int(), int());
    assert_eq!(walk(list(&[shared.clone(), shared])).steps, 15);
}

#[test]
fn guards_around_each_other_are_all_in_force_and_none_beside() {
    let both = assert_(null_test(), if_(null_test(), int(), binds_y(int())));
    let walked = walk(lambda("x", list(&[both, binds_y(int())])));
    let recorded = [IS_NULL, NOT_NULL].map(|r| narrowing(Y, r));
    assert_eq!((&walked.narrowings[..], walked.most), (&recorded[..], 2));
}

/// `a = x`, an inherited `x`, `c` from `x`, and a dynamic part.
fn bindings() -> Bindings {
    Bindings::new()
        .bind("a", &var("x"))
        .inherit("x")
        .inherit_from(var("x"), &["c"])
        .dynamic(var("x"), var("x"))
}

#[test]
fn let_and_rec_enter_role_6_and_not_7_and_dynamic_parts_have_no_binding() {
    for (body, visits) in [(let_in(bindings(), int()), 10), (rec_set(bindings()), 9)] {
        let tree = tree(&lambda("x", body));
        let walked = walked(&tree, &own_tables(&tree.encode()));
        let names = [1, 2, 3];
        // In a let and a rec the value of `a` refers to the inherited name.
        let to = [2, 0, 2];
        let edges: Vec<Edge> = names.iter().zip(to).map(|(&n, to)| edge(n, to)).collect();
        assert_eq!((walked.steps, walked.edges), (visits, edges));
        let owner = &tree.exprs[tree.entry as usize - 1];
        let bound = names.map(|name| owner.items[name as usize - 1].expr);
        assert_eq!(walked.exprs[0], NONE);
        assert_eq!(walked.exprs[1..], bound);
    }
}

#[test]
fn a_plain_set_skips_role_6_and_keeps_the_binding_around_it() {
    let tree = tree(&lambda("x", binds_y(set(bindings()))));
    let walked = walked(&tree, &own_tables(&tree.encode()));
    let y = tree.names.iter().position(|name| name.kind == 0);
    let y = y.expect("the name that let binds") as u32;
    // `a`, the inherited one, the base, key and value of the dynamic part; not the selection.
    assert_eq!(walked.edges, [edge(y, X); 5]);
    assert_eq!(walked.steps, 9);
    let bound = walked.exprs.iter().filter(|&&e| e != NONE);
    assert_eq!(bound.count(), 1);
}

#[test]
fn the_last_visit_gives_a_name_its_expression() {
    let mut tree = tree(&lambda("x", let_(&[("y", int()), ("z", float())], int())));
    let owner = tree.exprs.iter_mut().find(|e| e.kind == kind::LET_IN);
    owner.expect("the let").items[1].name = Y;
    let walked = walked(&tree, &own_tables(&tree.encode()));
    assert_eq!(walked.exprs, [NONE, 1, NONE]);
}

#[test]
fn given_tables_are_used_and_not_the_texts() {
    let tree = tree(&lambda("x", let_(&[("y", var("x"))], var("x"))));
    let mut given = own_tables(&tree.encode());
    let to_y = resolution(DEFINITION, Y);
    let leaf = |e: &crate::image::Expr| e.kind == kind::REFERENCE;
    let entry = |e| if leaf(e) { to_y } else { 0 };
    given.resolutions = table(tree.exprs.iter().map(entry));
    // The body has no binding around it.
    assert_eq!(walked(&tree, &given).edges, [edge(Y, Y)]);
}

/// Rooms of the exact need with one of them changed.
fn changed(rooms: [usize; 4], place: usize, to: usize) -> [usize; 4] {
    let mut rooms = rooms;
    rooms[place] = to;
    rooms
}

#[test]
fn a_step_or_a_byte_too_few_leaves_zeros_and_8_comes_before_9() {
    let image = survey_case().encode();
    let given = own_tables(&image);
    let needs = [4, 8, 4, 4];
    assert_eq!(
        dependency_need(&image, &given),
        needs.map(|need| need as u64)
    );
    for (place, need) in needs.into_iter().enumerate() {
        for room in [need - 1, 0] {
            let rooms = changed(needs, place, room);
            let short = left(9, Walk::default(), rooms, 0);
            assert_eq!(call(&image, &given, 10, rooms), short);
            let over = left(8, Walk::default(), rooms, 0);
            assert_eq!(call(&image, &given, 9, rooms), over);
        }
        let rooms = changed(needs, place, need + 1);
        let answered = call(&image, &given, 10, rooms);
        let last = if place == 3 { 0 } else { FRESH };
        assert_eq!(answered.answer, 0);
        assert_eq!(answered.buffers[place].last(), Some(&last));
    }
    let over = left(8, Walk::default(), needs, 0);
    assert_eq!(call(&image, &given, 9, needs), over);
}

#[test]
fn refused_images_and_broken_tables_leave_all_as_it_was() {
    let mut random = Random::new(6);
    let rooms = [9; 4];
    let mut refused = 0;
    for _ in 0..50 {
        let tree = guards::tree(&mut random, 30);
        let image = tree.encode();
        let given = own_tables(&image);
        for tried in table_breaks() {
            if let Some((broken, _)) = tried.make(&mut random, &tree, &given, 0) {
                let untouched = left(7, FRESH_NUMBERS, rooms, FRESH);
                let called = call(&image, &broken, 0, rooms);
                assert_eq!(called, untouched, "{}", tried.name);
            }
        }
        if let Some((refusal, image)) = damage::refused(&mut random, &tree) {
            refused += 1;
            let untouched = left(refusal, FRESH_NUMBERS, rooms, FRESH);
            assert_eq!(call(&image, &given, 0, rooms), untouched);
        }
    }
    assert!(refused > 20);
}

#[test]
fn sums_do_not_overflow() {
    let tree = shapes::doubling(100);
    let image = tree.encode();
    let given = Given::empty(tree.exprs.len(), 0);
    assert_eq!(dependency_steps(&image, &given), u64::MAX);
    let over = left(8, Walk::default(), [0; 4], 0);
    assert_eq!(call(&image, &given, u32::MAX, [0; 4]), over);
}

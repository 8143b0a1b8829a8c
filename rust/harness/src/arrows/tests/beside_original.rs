//! What the original gives: of an arrow nothing, and of `!a || b` in its place what document 02 says of `a -> b`.

use crate::answers::{Condition, Dependencies};
use crate::arrows::{self, by_condition, is_arrow, place_within};
use crate::builtin_set;
use crate::generate::{self, given};
use crate::image::{Expr, Item, Tree, detail, kind};
use crate::original::passes::{Subject, Tables};
use crate::port::own_tables;
use crate::random::Random;
use crate::records::sort::IS_NUMBER;
use crate::records::{narrowing, record};
use crate::second_reading::{check, condition_told, dependencies_told};
use crate::tables::{DEFINITION, Given, WITH, entries, resolution, table};

const X: u32 = 0;

/// Tables that resolve the reference, which is expression 0, to the one name.
fn to_name(tree: &Tree) -> Given {
    let mut given = Given::empty(tree.exprs.len(), tree.names.len());
    let entry = resolution(DEFINITION, X);
    given.resolutions = table((0..tree.exprs.len()).map(|e| if e == 0 { entry } else { 0 }));
    given
}

/// What the original and the second reading give of a condition.
fn conditions(tree: &Tree, given: &Given, condition: u32) -> [Condition; 2] {
    [
        Subject::new(tree).analyze_condition(&Tables::given(given), condition),
        condition_told(&tree.encode(), given, condition),
    ]
}

fn walks(tree: &Tree, given: &Given) -> [Dependencies; 2] {
    [
        Subject::new(tree).name_dependencies(&Tables::given(given)),
        dependencies_told(&tree.encode(), given),
    ]
}

fn assert_accepted(tree: &Tree, size: usize) {
    let image = tree.encode();
    assert_eq!((check(&image), image.len()), (0, size));
}

/// The smallest trees of docs/DIFFERENCES.md on which the original and the second reading part over an arrow.
#[test]
fn the_original_counts_one_node_of_an_arrow() {
    let tree = arrows::smallest_steps();
    assert_accepted(&tree, 36);
    let [original, second] = conditions(&tree, &own_tables(&tree.encode()), 1);
    assert_eq!((original.steps, second.steps), (1, 3));
    let steps = original.steps;
    assert_eq!(original, Condition { steps, ..second });
    let tree = arrows::smallest_walk_steps();
    assert_accepted(&tree, 52);
    let [original, second] = walks(&tree, &own_tables(&tree.encode()));
    assert_eq!((original.steps, second.steps), (6, 8));
    let steps = original.steps;
    assert_eq!(original, Dependencies { steps, ..second });
}

#[test]
fn the_original_tells_nothing_of_an_arrow() {
    let (own, bare) = (arrows::smallest_condition(), arrows::smallest_given());
    for (tree, given, size) in [
        (&own, own_tables(&own.encode()), 81),
        (&bare, to_name(&bare), 69),
    ] {
        assert_accepted(tree, size);
        let [original, second] = conditions(tree, &given, 3);
        let nothing = Condition {
            then_list: vec![],
            else_list: vec![],
            steps: 1,
        };
        assert_eq!(original, nothing);
        let told = Condition {
            else_list: vec![record(X, IS_NUMBER, 0)],
            steps: 3,
            ..nothing
        };
        assert_eq!(second, told);
    }
}

#[test]
fn the_original_records_nothing_of_an_arrow() {
    let tree = arrows::smallest_walk();
    assert_accepted(&tree, 101);
    let [original, second] = walks(&tree, &own_tables(&tree.encode()));
    assert_eq!(original.narrowings, []);
    assert_eq!(second.narrowings, [narrowing(0, record(X, IS_NUMBER, 0))]);
    assert_eq!((original.most_in_force, second.most_in_force), (0, 1));
    assert_eq!((original.steps, second.steps), (10, 12));
    assert_eq!(
        (original.edges, original.exprs),
        (second.edges, second.exprs)
    );
}

/// A tree with `!a || b` in place of each `a -> b`, and its tables.
struct Rewritten {
    tree: Tree,
    given: Given,
    /// The new number of each expression.
    numbers: Vec<u32>,
}

fn rewritten(tree: &Tree, given: &Given) -> Rewritten {
    let (mut exprs, mut numbers, mut old) = (Vec::new(), Vec::<u32>::new(), Vec::new());
    for (e, expr) in tree.exprs.iter().enumerate() {
        let renumbered = |item: &Item| Item {
            expr: *numbers.get(item.expr as usize).unwrap_or(&item.expr),
            ..*item
        };
        let mut expr = Expr {
            items: expr.items.iter().map(renumbered).collect(),
            ..expr.clone()
        };
        if is_arrow(&expr) {
            let left = vec![expr.items[0]];
            exprs.push(Expr::with_detail(kind::UNARY_OP, detail::INVERT, left));
            old.push(None);
            expr.detail = detail::OR;
            expr.items[0] = Item::child(exprs.len() as u32 - 1);
        }
        numbers.push(exprs.len() as u32);
        exprs.push(expr);
        old.push(Some(e));
    }
    let given = renumbered_tables(given, &numbers, &old);
    let tree = Tree {
        exprs,
        entry: numbers[tree.entry as usize],
        ..tree.clone()
    };
    Rewritten {
        tree,
        given,
        numbers,
    }
}

fn renumbered_tables(given: &Given, numbers: &[u32], old: &[Option<usize>]) -> Given {
    let number = |e: u16| numbers.get(usize::from(e)).map_or(e, |&new| new as u16);
    let resolutions: Vec<u16> = entries(&given.resolutions).collect();
    let resolved = |e: &Option<usize>| match e.map_or(0, |e| resolutions[e]) {
        entry if entry >> 14 == WITH => resolution(WITH, number(entry & 0x3fff).into()),
        entry => entry,
    };
    Given {
        resolutions: table(old.iter().map(resolved)),
        bindings: table(entries(&given.bindings).map(number)),
    }
}

/// For each expression how many arrows its analysis as a condition meets.
fn arrow_counts(tree: &Tree) -> Vec<u64> {
    let mut counts: Vec<u64> = Vec::new();
    for expr in &tree.exprs {
        let parts = expr.items.iter().filter(|_| place_within(expr).is_some());
        let below: u64 = parts.map(|part| counts[part.expr as usize]).sum();
        counts.push(below + u64::from(is_arrow(expr)));
    }
    counts
}

/// The conditions with an arrow that have a record, and the walks that record one, each held against the original.
#[derive(Default)]
struct Seen {
    conditions: usize,
    walks: usize,
}

impl Seen {
    fn compare(&mut self, tree: &Tree, given: &Given) {
        let rewritten = rewritten(tree, given);
        assert_eq!(check(&rewritten.tree.encode()), 0);
        let subject = Subject::new(&rewritten.tree);
        let (tables, counts) = (Tables::given(&rewritten.given), arrow_counts(tree));
        let (image, meets) = (tree.encode(), by_condition(tree));
        for condition in (0..tree.exprs.len()).filter(|&e| meets[e]) {
            let number = rewritten.numbers[condition];
            let original = subject.analyze_condition(&tables, number);
            let steps = original.steps - counts[condition];
            let second = condition_told(&image, given, condition as u32);
            self.conditions += usize::from(!second.else_list.is_empty());
            assert_eq!(Condition { steps, ..original }, second);
        }
        let (original, second) = (
            subject.name_dependencies(&tables),
            dependencies_told(&image, given),
        );
        assert_eq!(original.narrowings, second.narrowings);
        assert_eq!(original.edges, second.edges);
        assert_eq!(original.most_in_force, second.most_in_force);
        self.walks += usize::from(!second.narrowings.is_empty());
    }
}

/// The lists of `a -> b` are those that the original has of `!a || b`, and of its steps one less: the `!`.
#[test]
fn the_original_gives_of_not_a_or_b_what_an_arrow_gives() {
    let mut random = Random::new(23);
    let mut seen = [Seen::default(), Seen::default()];
    for _ in 0..400 {
        let tree = generate::arrows::tree(&mut random);
        let own = own_tables(&tree.encode());
        let any = given::tables(&mut random, &tree);
        for (seen, given) in seen.iter_mut().zip([own, any]) {
            if builtin_set::is_meant(&tree, &given) {
                seen.compare(&tree, &given);
            }
        }
    }
    let [own, any] = seen;
    assert!(own.conditions > 1000 && own.walks > 200);
    assert!(any.conditions > 100 && any.walks > 20);
}

//! `original`: runs the original on generated images.

use super::extent::Extent;
use super::report::{Report, Row};
use crate::generate::{self, grow::Texts, shapes};
use crate::image::{MOST_NUMBERED, Tree, kind};
use crate::original::passes::{Subject, Tables};
use crate::random::Random;
use crate::second_reading::ANSWERS;

pub const DEFAULT: Extent = Extent {
    count: 20_000,
    seed: 0x0419_1a11,
};
/// A tree that shares much can take more visits than there is time for.
const MOST_VISITS: u64 = 2_000_000;

/// The original copies all narrowings in force at every guard, so memory grows by the square.
const DEEPEST_GUARDS: usize = 3000;

const CONDITIONS: [u32; 4] = [kind::APPLY, kind::BIN_OP, kind::UNARY_OP, kind::HAS_ATTR];
const MOST_CONDITIONS: usize = 60;

#[derive(Default)]
struct Totals {
    run: usize,
    left_out: usize,
    exprs: usize,
    resolve_steps: u64,
    scopes: usize,
    conditions: usize,
    condition_steps: u64,
    narrowing_conditions: usize,
    walk_steps: u64,
    edges: usize,
    narrowings: usize,
}

pub fn run(extent: Extent) -> Report {
    let mut random = Random::new(extent.seed);
    let mut totals = Totals::default();
    for nesting in &shapes::NESTINGS {
        totals.add(&nesting.chain(MOST_NUMBERED));
    }
    totals.add(&shapes::guard_chain(DEEPEST_GUARDS));
    while totals.run < extent.count {
        let tree = generate::tree(&mut random, Texts::Utf8);
        // Conditions are asked anywhere, so no expression may take too many.
        if tree.visits().into_iter().any(|visits| visits > MOST_VISITS) {
            totals.left_out += 1;
        } else {
            totals.add(&tree);
        }
    }
    totals.print();
    // A panic would have ended it.
    Report::new(true, vec![totals.row(extent.seed)])
}

impl Totals {
    /// Runs every pass; a panic of one ends the command.
    fn add(&mut self, tree: &Tree) {
        assert_eq!(&Tree::decode(&tree.encode()), tree, "an image comes back");
        let subject = Subject::new(tree);
        let resolved = subject.name_resolution();
        let tables = Tables::given(&subject.own_tables());
        self.run += 1;
        self.exprs += tree.exprs.len();
        self.resolve_steps += resolved.steps;
        self.scopes += resolved.scopes;
        self.add_conditions(tree, &subject, &tables);
        let walked = subject.name_dependencies(&tables);
        let own = subject.name_dependencies(&Tables::own(&subject.module));
        assert_eq!(walked, own, "tables come back from their bytes");
        self.walk_steps += walked.steps;
        self.edges += walked.edges.len();
        self.narrowings += walked.narrowings.len();
    }

    /// The highest expressions of the kinds that can narrow, as conditions.
    fn add_conditions(&mut self, tree: &Tree, subject: &Subject, tables: &Tables) {
        let numbered = (0..tree.exprs.len())
            .rev()
            .map(|e| (&tree.exprs[e], e as u32));
        let candidates = numbered.filter(|(e, _)| CONDITIONS.contains(&e.kind));
        for (_, condition) in candidates.take(MOST_CONDITIONS) {
            let answer = subject.analyze_condition(tables, condition);
            self.conditions += 1;
            self.condition_steps += answer.steps;
            let narrows = !answer.then_list.is_empty() || !answer.else_list.is_empty();
            self.narrowing_conditions += usize::from(narrows);
        }
    }

    fn row(&self, seed: u64) -> Row {
        let mut answers = [0; ANSWERS];
        answers[0] = self.run;
        Row {
            call: "the original alone",
            generator: "trees of all shapes, every pass",
            beside: "its own tables as bytes",
            images: self.run,
            answers,
            differences: 0,
            seed: Some(seed),
        }
    }

    fn print(&self) {
        println!(
            "{} images run, {} left out for their visits, {} expressions",
            self.run, self.left_out, self.exprs
        );
        println!(
            "resolve: {} steps, {} scopes",
            self.resolve_steps, self.scopes
        );
        println!(
            "conditions: {}, of which {} narrow, {} steps",
            self.conditions, self.narrowing_conditions, self.condition_steps
        );
        println!(
            "walk: {} steps, {} edges, {} recorded narrowings",
            self.walk_steps, self.edges, self.narrowings
        );
    }
}

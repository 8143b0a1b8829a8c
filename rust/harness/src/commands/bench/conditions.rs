//! The condition call over the original's `analyze_condition`, on the guards of a tree.

use std::cell::RefCell;
use std::hint::black_box;

#[cfg(timing)]
use super::time;
use super::{budget, median, rounds};
use crate::arrows;
use crate::generate::{guards, shapes};
use crate::image::{Tree, kind};
use crate::notation::survey_case;
use crate::original::passes::{Subject, Tables};
use crate::port::{self, Analysis, Question, own_tables};
use crate::random::Random;
#[cfg(timing)]
use crate::timing;

/// How much longer than the checks the runs of the analysis take in which it is timed.
#[cfg(timing)]
const CHECKS_SHARE: f64 = 16.0;
#[cfg(timing)]
const CALIBRATING_CALLS: usize = 7;

pub fn run() {
    println!(
        "analyze_condition: time of the port, its checks of image and tables included, over time of the original's, for \
         one condition; what the checks take, and the analysis below them over the original's"
    );
    if cfg!(not(timing)) {
        println!(
            "the analysis below the checks is left out: rt lib in crates/narrow_timing, and build anew"
        );
    }
    for case in cases() {
        println!("{}", case.line());
    }
}

struct Case {
    name: String,
    tree: Tree,
    conditions: Vec<u32>,
}

fn cases() -> Vec<Case> {
    let mut random = Random::new(3);
    let mut trees = vec![("printed case".to_string(), survey_case())];
    for size in [30, 100, 300, 1000, 3000] {
        let tree = guards::tree(&mut random, size);
        trees.push((format!("program, {} exprs", tree.exprs.len()), tree));
    }
    let of_guards = |(name, tree): (String, Tree)| Case {
        name,
        conditions: guards_of(&tree),
        tree,
    };
    let mut cases: Vec<Case> = trees.into_iter().map(of_guards).collect();
    for nesting in &shapes::CONDITION_NESTINGS {
        for levels in [10, 1000] {
            let tree = shapes::condition_chain(nesting, levels);
            cases.push(Case {
                name: format!("{}, {levels} deep", nesting.name),
                conditions: vec![tree.entry - 1],
                tree,
            });
        }
    }
    // The original analyses nothing below an arrow.
    cases.retain(|case| {
        let meets = arrows::by_condition(&case.tree);
        !case.conditions.iter().any(|&e| meets[e as usize])
    });
    cases
}

/// The conditions of `if` and `assert`.
fn guards_of(tree: &Tree) -> Vec<u32> {
    let guarded = |kind| [kind::IF_THEN_ELSE, kind::ASSERT].contains(&kind);
    let owners = tree.exprs.iter().filter(|e| guarded(e.kind));
    owners.map(|owner| owner.items[0].expr).collect()
}

impl Case {
    fn line(&self) -> String {
        let image = self.tree.encode();
        let times = self.times(&image);
        let column = |side: usize| median(times.iter().map(|round| round[side]));
        let [whole, original, checks] = [0, 1, 2].map(column);
        let ratio = median(times.iter().map(|[whole, original, _]| whole / original));
        let share = median(times.iter().map(|[whole, _, checks]| checks / whole));
        format!(
            "{:24} {:8} bytes  ratio {ratio:6.2}  ({whole:.0} ns over {original:.0} ns)  checks {checks:.0} ns: \
             {:.0}%{}",
            self.name,
            image.len(),
            100.0 * share,
            self.analysis(&image)
        )
    }

    /// Nanoseconds by round for one condition: the call, the original's, and the call's checks.
    fn times(&self, image: &[u8]) -> Vec<[f64; 3]> {
        let given = own_tables(image);
        let (subject, tables) = (Subject::new(&self.tree), Tables::given(&given));
        let lists = RefCell::new(self.lists());
        let ask = |&condition: &u32| {
            let question = Question::new(black_box(image), &given, condition, budget(&self.tree));
            answer(question, &mut lists.borrow_mut())
        };
        let narrow = |&condition: &u32| {
            let info = subject.narrow(black_box(&tables), condition);
            info.then_branch.len() as u32
        };
        let count = self.conditions.len() as f64;
        let rounds = rounds([
            &|| self.conditions.iter().map(ask).sum(),
            &|| self.conditions.iter().map(narrow).sum(),
            // Expression 0 is a leaf and tells nothing, so that only the checks take time.
            &|| ask(&0),
        ]);
        let rounds = rounds.into_iter();
        rounds
            .map(|[whole, original, checks]| [whole / count, original / count, checks])
            .collect()
    }

    fn lists(&self) -> [Vec<u8>; 2] {
        [(); 2].map(|()| vec![0; 4 * self.tree.exprs.len()])
    }

    #[cfg(not(timing))]
    fn analysis(&self, _image: &[u8]) -> String {
        String::new()
    }

    /// The analysis below the checks: each condition many times in a row on both sides, less a call with no more than one.
    #[cfg(timing)]
    fn analysis(&self, image: &[u8]) -> String {
        let given = own_tables(image);
        let (subject, tables) = (Subject::new(&self.tree), Tables::given(&given));
        let lists = RefCell::new(self.lists());
        let port = |times: u32| {
            let ask = |&condition: &u32| {
                let question = Question::new(black_box(image), &given, condition, u32::MAX);
                timing::analyze(question, times, &mut lists.borrow_mut())
            };
            self.conditions.iter().map(ask).sum()
        };
        let narrow = |&condition: &u32| {
            let info = subject.narrow(black_box(&tables), condition);
            info.then_branch.len() as u32
        };
        let repeats = repeats(&port);
        let original = || {
            let conditions = self.conditions.iter();
            let again = |condition| {
                (0..repeats)
                    .map(|_| narrow(black_box(condition)))
                    .sum::<u32>()
            };
            conditions.map(again).fold(0, u32::wrapping_add)
        };
        let rounds = rounds([&|| port(repeats), &|| port(0), &original]);
        let runs = f64::from(repeats) * self.conditions.len() as f64;
        let analysis = |[many, none, _]: &[f64; 3]| (many - none) / runs;
        format!(
            "; analysis {:.1} ns over {:.1} ns, ratio {:.2}",
            median(rounds.iter().map(analysis)),
            median(rounds.iter().map(|round| round[2] / runs)),
            median(rounds.iter().map(|round| analysis(round) * runs / round[2]))
        )
    }
}

/// So many runs that the checks take little of the time. The fastest of some calls counts: one that other work interrupts
/// would end the search too early, and what is left would be the noise of the checks.
#[cfg(timing)]
fn repeats(port: &impl Fn(u32) -> u32) -> u32 {
    let fastest = |times| {
        let calls = (0..CALIBRATING_CALLS).map(|_| time(&|| port(times), 1));
        calls.fold(f64::MAX, f64::min)
    };
    let least = CHECKS_SHARE * fastest(0);
    let mut repeats = 1;
    while fastest(repeats) < least {
        repeats *= 2;
    }
    repeats
}

fn answer(question: Question<'_>, lists: &mut [Vec<u8>; 2]) -> u32 {
    let [then_list, else_list] = lists;
    port::analyze_condition(question, then_list, else_list, &mut Analysis::default())
}

#[cfg(test)]
mod tests {
    use super::*;

    #[test]
    fn every_case_has_conditions_and_room_for_their_records() {
        // The printed case, five programs, and the nestings but the arrow's.
        assert_eq!(cases().len(), 1 + 5 + 2 * 5);
        for case in cases() {
            assert!(!case.conditions.is_empty(), "{}", case.name);
            let image = case.tree.encode();
            let given = own_tables(&image);
            let mut lists = case.lists();
            for &condition in &case.conditions {
                let question = Question::new(&image, &given, condition, budget(&case.tree));
                let answer = answer(question, &mut lists);
                assert_eq!(answer, 0, "{}", case.name);
            }
        }
    }
}

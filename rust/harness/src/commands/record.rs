//! `record`: a list of answers that the repository keeps as `crates/replay/stdin`, and that the program replay runs on the
//! port's calls, so that `rt ci` alone holds the port to the original.
//!
//! Where each answer comes from:
//! - The numbers, lists and tables of an answer to calls 1 to 4, and how many steps and bytes a run takes, are the original
//!   Rust's (`calls`). So are 8 and 9: they follow from its steps and needs.
//! - Over tables in which a reference spelt `builtins` is not the builtin set, calls 3, 4 and 7 are the second reading's: the
//!   original would go by the text.
//! - So they are where an arrow is analysed, of which the original tells nothing.
//! - A record that comes from a number literal is IsNumber, document 02's: the original has the literal's type in that place
//!   (`original/numbers.rs`).
//! - Refusals 1 to 7, 10 and 11, which the original does not have, are the second reading's.
//! - What else the buffers hold is document 01's: untouched bytes behind an answer and after these refusals, zero after 8 and 9,
//!   and a working buffer that is zero after success.
//! - What a resolution and a walk need (calls 6 and 7) is what the original's runs come to.
//! - Calls 0, 5 and 8, the check, the levels and the comparison of texts with its count, are not in the original at all: their
//!   answers are the second reading's.
//!
//! What is asked: hand-written trees with every form of guard (`trees`), generated ones of fixed seeds, and pairs of texts
//! around the lengths at which the port turns from blocks to words and to bytes (`texts`). `recorded` has the format, and
//! `recorded/coverage.rs` tests what the list meets.

mod calls;
mod texts;
mod trees;

use std::ops::RangeInclusive;

use super::{DONE, FAILED};
use crate::generate::damage::{DAMAGES, flip};
use crate::generate::given::{self, BREAKS, Break, table_breaks};
use crate::generate::{conditions, grow, guards, walks};
use crate::image::Tree;
use crate::notation::survey_case;
use crate::original::passes::Subject;
use crate::own_builtins::{CONDITIONS, HAS_ATTR, OF_WALK, cases_asking};
use crate::random::Random;
use crate::recorded::{Case, call, write_list};
use crate::second_reading::{self, ANSWERS, dependency_steps, resolution_steps};
use crate::starred::through_names;
use calls::{Run, refused};

const SEED: u64 = 0x0_5eed_2ec0;
/// Larger images would leave room for few others.
const LONGEST_IMAGE: usize = 400;
/// So many images are checked, of a few more that are drawn: what is drawn behind them stays as it was.
const DRAWN_CHECKS: usize = 500;
const CHECKS: usize = 475;
/// One of so many forms is asked with loans around what it needs, the others with just enough.
const ALL_LOANS: usize = 6;
/// So many trees of each generator, none with a longer run.
const GENERATED: usize = 8;
const MOST_STEPS: u64 = 200;
/// How often a break is tried.
const TRIES: usize = 100;
/// The ways to resolve `builtins` that are asked: all of them would leave room for few others. And what has its place and
/// another text, which `hasAttr` alone tells from it.
const SET_WAYS: [&str; 8] = [
    "nowhere",
    "let",
    "parameter",
    "inherit",
    "inherit from x",
    "given place 3",
    "given With",
    "given nothing",
];
const OTHER_TEXT: &str = "another text, place 2";
/// Names enough for the first and for the last table of hints.
const WIDTHS: [usize; 2] = [70, 1030];

pub fn run(file: &str) -> u8 {
    let cases = cases();
    let list = write_list(&cases);
    println!("{} cases, {} bytes", cases.len(), list.len());
    for (call, name) in call::NAMES.iter().enumerate() {
        println!(
            "{name}, cases by answer: {:?}",
            answers(&cases, call as u32)
        );
    }
    match std::fs::write(file, list) {
        Ok(()) => DONE,
        Err(error) => {
            eprintln!("{file}: {error}");
            FAILED
        }
    }
}

/// How many cases of a call have each answer.
fn answers(cases: &[Case], call: u32) -> [usize; ANSWERS] {
    let mut answers = [0; ANSWERS];
    for case in cases.iter().filter(|case| case.call == call) {
        answers[case.refusal as usize] += 1;
    }
    answers
}

fn cases() -> Vec<Case> {
    let mut random = Random::new(SEED);
    let mut cases = checks(&mut random);
    let trees = trees::trees();
    for tree in &trees {
        cases.extend(Run::index(tree).around());
        cases.extend(Run::resolution(tree).around());
        cases.extend(Run::walk(tree, &Subject::new(tree).own_tables()).around());
    }
    cases.push(Run::resolution(&trees::builtins()).exact());
    for width in WIDTHS {
        cases.push(Run::resolution(&trees::wide(width)).exact());
    }
    cases.extend(guarded());
    let generated = generated(&mut random);
    for tree in &generated {
        cases.extend(every_call(&mut random, tree));
    }
    cases.extend(turned_back(&mut random));
    for tree in &trees {
        let own = Subject::new(tree).own_tables();
        cases.push(Run::levels(tree).exact());
        cases.extend(Run::resolution_need(tree).around());
        cases.extend(Run::walk_need(tree, &own).around());
    }
    cases.extend(guarded_needs());
    for tree in &generated {
        cases.extend(every_need(&mut random, tree));
    }
    cases.extend(needs_turned_back(&mut random));
    cases.extend(sets());
    cases.extend(texts::cases());
    cases
}

/// Images of all kinds, each with damaged copies.
fn checks(random: &mut Random) -> Vec<Case> {
    let mut cases = Vec::new();
    let mut tree = survey_case();
    while cases.len() < DRAWN_CHECKS {
        let image = tree.encode();
        let flipped = flip(random, &image);
        let damaged = damaged(random, &tree);
        let images = damaged.into_iter().chain([flipped, image]);
        let short = images.filter(|image| image.len() <= LONGEST_IMAGE);
        cases.extend(short.map(|image| Case {
            refusal: second_reading::check(&image),
            image,
            ..Case::default()
        }));
        let size = random.between(1, 12);
        tree = grow::tree(random, size, grow::Texts::Bytes);
    }
    cases.truncate(CHECKS);
    cases
}

fn damaged(random: &mut Random, tree: &Tree) -> Vec<Vec<u8>> {
    let made = DAMAGES.iter().map(|damage| (damage.make)(random, tree));
    made.flatten().collect()
}

/// Each form of condition, asked by itself and as the guard of a walk; each conditional function; and alias chains, which
/// need given tables.
fn guarded() -> Vec<Case> {
    let mut cases = Vec::new();
    for (place, form) in trees::forms().iter().enumerate() {
        let (tree, number) = form.asked();
        let own = Subject::new(&tree).own_tables();
        let run = Run::condition(&tree, &own, number);
        match place % ALL_LOANS {
            0 => cases.extend(run.around()),
            _ => cases.push(run.exact()),
        }
        let tree = form.branches();
        let own = Subject::new(&tree).own_tables();
        cases.push(Run::walk(&tree, &own).exact());
    }
    for tree in trees::conditional_calls() {
        let own = Subject::new(&tree).own_tables();
        cases.push(Run::walk(&tree, &own).exact());
    }
    for tree in trees::arrow_guards() {
        let own = Subject::new(&tree).own_tables();
        cases.push(Run::walk(&tree, &own).exact());
    }
    for names in 1..=5 {
        let case = through_names("isNull x", names);
        let run = Run::condition(&case.tree, &case.given, case.condition);
        cases.extend(run.around());
    }
    cases
}

fn generated(random: &mut Random) -> Vec<Tree> {
    let makers: [fn(&mut Random) -> Tree; 4] = [
        |random| grow::tree(random, 10, grow::Texts::Utf8),
        |random| guards::tree(random, 10),
        conditions::tree,
        walks::tree,
    ];
    let mut trees = Vec::new();
    for make in makers {
        let fits = |tree: &Tree| {
            let image = tree.encode();
            image.len() <= LONGEST_IMAGE
                && resolution_steps(&image) <= MOST_STEPS
                && dependency_steps(&image, &Subject::new(tree).own_tables()) <= MOST_STEPS
        };
        let made = std::iter::repeat_with(|| make(random)).filter(fits);
        trees.extend(made.take(GENERATED));
    }
    trees
}

/// Each call on a generated tree, over its own tables and over any that are well-formed.
fn every_call(random: &mut Random, tree: &Tree) -> Vec<Case> {
    let own = Subject::new(tree).own_tables();
    let any = given::tables(random, tree);
    let mut cases = vec![Run::index(tree).exact(), Run::resolution(tree).exact()];
    for given in [&own, &any] {
        cases.push(Run::walk(tree, given).exact());
        let exprs = 0..tree.exprs.len() as u32;
        let mut runs = exprs.map(|condition| Run::condition(tree, given, condition));
        let telling = runs.rfind(Run::tells);
        cases.extend(telling.map(|run| run.exact()));
    }
    cases
}

/// What a walk needs under some of the forms of condition and under the conditional functions.
fn guarded_needs() -> Vec<Case> {
    let forms = trees::forms();
    let forms = forms.iter().step_by(ALL_LOANS).map(trees::Form::branches);
    let calls = trees::conditional_calls().into_iter().step_by(ALL_LOANS);
    let arrows = trees::arrow_guards();
    let needs = forms.chain(calls).chain(arrows).map(|tree| {
        let own = Subject::new(&tree).own_tables();
        Run::walk_need(&tree, &own).exact()
    });
    needs.collect()
}

/// The levels of a generated tree and what its calls need, over its own tables and over any that are well-formed.
fn every_need(random: &mut Random, tree: &Tree) -> Vec<Case> {
    let any = given::tables(random, tree);
    let own = Subject::new(tree).own_tables();
    vec![
        Run::levels(tree).exact(),
        Run::resolution_need(tree).exact(),
        Run::walk_need(tree, &own).exact(),
        Run::walk_need(tree, &any).exact(),
    ]
}

/// Selections from what is spelt `builtins`: each condition by itself, and the calls and the guard in one walk with its need.
fn sets() -> Vec<Case> {
    let asking = |questions: &[usize]| {
        let is_other = |name: &str| questions == [HAS_ATTR] && name == OTHER_TEXT;
        let mut cases = cases_asking(questions);
        cases.retain(|case| SET_WAYS.contains(&case.name) || is_other(case.name));
        cases
    };
    let mut cases = Vec::new();
    for case in (0..CONDITIONS).flat_map(|question| asking(&[question])) {
        let asked = case.conditions().into_iter();
        cases.extend(asked.map(|(e, _)| Run::condition(&case.tree, &case.given, e).exact()));
    }
    for case in asking(OF_WALK) {
        cases.push(Run::walk(&case.tree, &case.given).exact());
        cases.push(Run::walk_need(&case.tree, &case.given).exact());
    }
    cases
}

/// What is turned back before it runs: damaged images, and tables or a condition that break their rules.
fn turned_back(random: &mut Random) -> Vec<Case> {
    let mut cases = damaged_cases(random, call::INDEX..=call::WALK);
    cases.extend(broken_cases(random, call::CONDITION, &BREAKS));
    cases.extend(broken_cases(random, call::WALK, table_breaks()));
    cases
}

fn needs_turned_back(random: &mut Random) -> Vec<Case> {
    let mut cases = damaged_cases(random, call::LEVELS..=call::WALK_NEED);
    cases.extend(broken_cases(random, call::WALK_NEED, table_breaks()));
    cases
}

/// These calls on the printed case with each damage.
fn damaged_cases(random: &mut Random, calls: RangeInclusive<u32>) -> Vec<Case> {
    let tree = survey_case();
    let own = Subject::new(&tree).own_tables();
    let mut cases = Vec::new();
    for image in damaged(random, &tree) {
        for call in calls.clone() {
            cases.extend(refused(random, call, &image, &own, 0));
        }
    }
    cases
}

/// The call on the printed case with each break of what it is given.
fn broken_cases(random: &mut Random, call: u32, breaks: &[Break]) -> Vec<Case> {
    let tree = survey_case();
    let (image, own) = (tree.encode(), Subject::new(&tree).own_tables());
    let mut cases = Vec::new();
    for tried in breaks {
        // One that finds no place this time finds one another time.
        let mut made = std::iter::repeat_with(|| tried.make(random, &tree, &own, 0));
        let broken = made.by_ref().take(TRIES).flatten().next();
        let (given, condition) = broken.expect("the printed case has a place for each");
        cases.extend(refused(random, call, &image, &given, condition));
    }
    cases
}

#[cfg(test)]
mod tests {
    use super::*;

    #[test]
    fn the_repository_has_the_list_that_is_made() {
        let kept = include_bytes!("../../../../crates/replay/stdin");
        assert!(write_list(&cases()) == kept, "make it anew with `record`");
    }
}

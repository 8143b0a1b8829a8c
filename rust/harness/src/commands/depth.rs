//! `depth`: for each way of nesting the smallest stack on which the port resolves, analyses or walks a chain of full
//! depth. Each probe is a process of its own, since a stack that is too small ends it.

use std::process::{Command, Stdio};

use super::report::{Report, Row};
use super::{DONE, FAILED, usage};
use crate::generate::shapes::{
    self, CONDITION_NESTINGS, GUARDS, NESTINGS, Nesting, conditional_calls,
};
use crate::image::{MOST_NUMBERED, Tree};
use crate::large_stack::{LARGE, run_on};
use crate::port::{
    self, Analysis, AnalyzeCondition, NameDependencies, NameResolution, Question, Walk, own_tables,
    walk_buffers,
};
use crate::second_reading::{
    self, ANSWERS, condition_steps, dependency_need, dependency_steps, resolution_need,
    resolution_steps,
};
use crate::tables::Given;

/// The usual stack of a main thread, and the smallest that a thread gets.
const MOST_PAGES: usize = 2048;
const FEWEST_PAGES: usize = 4;
const PAGE_KIB: usize = 4;

/// A chain of expressions, each within the next.
struct Chain {
    name: String,
    make: Box<dyn Fn() -> Tree>,
    /// The stack that it must do with.
    most_pages: usize,
}

fn chain(name: impl Into<String>, make: impl Fn() -> Tree + 'static) -> Chain {
    Chain {
        name: name.into(),
        make: Box::new(make),
        most_pages: MOST_PAGES,
    }
}

fn of_nesting(nesting: &'static Nesting) -> Chain {
    chain(nesting.name, || nesting.chain(MOST_NUMBERED))
}

/// The calls whose stack is measured.
#[derive(Clone, Copy)]
enum Call {
    NameResolution,
    AnalyzeCondition,
    NameDependencies,
}

impl Call {
    const ALL: [Call; 3] = [
        Call::NameResolution,
        Call::AnalyzeCondition,
        Call::NameDependencies,
    ];

    fn name(self) -> &'static str {
        match self {
            Call::NameResolution => "name_resolution",
            Call::AnalyzeCondition => "analyze_condition",
            Call::NameDependencies => "name_dependencies",
        }
    }

    /// The name that the call has in tables.
    fn title(self) -> &'static str {
        match self {
            Call::NameResolution => "`compute_name_resolution`",
            Call::AnalyzeCondition => "`analyze_condition`",
            Call::NameDependencies => "`name_dependencies`",
        }
    }

    /// The chains that it is tried on, if it goes down them.
    fn candidates(self) -> Vec<Chain> {
        match self {
            Call::NameResolution => NESTINGS.iter().map(of_nesting).collect(),
            Call::AnalyzeCondition => CONDITION_NESTINGS.iter().map(of_nesting).collect(),
            Call::NameDependencies => walk_chains(),
        }
    }

    /// The chains that it goes down: no pass enters all roles.
    fn chains(self) -> Vec<Chain> {
        let candidates = self.candidates().into_iter();
        candidates.filter(|chain| self.goes_down(chain)).collect()
    }

    fn goes_down(self, chain: &Chain) -> bool {
        let image = (chain.make)().encode();
        let steps = match self {
            Call::NameResolution => resolution_steps(&image),
            Call::AnalyzeCondition => condition_steps(&image)[MOST_NUMBERED - 1],
            Call::NameDependencies => dependency_steps(&image, &tables_of(&image)),
        };
        steps >= MOST_NUMBERED as u64
    }

    /// Whether the port on so small a stack leaves what the second reading leaves.
    fn is_right(self, image: Vec<u8>, stack: usize) -> bool {
        match self {
            Call::NameResolution => {
                let expected = resolve(second_reading::name_resolution, &image);
                let answer = move || resolve(port::name_resolution, &image);
                expected.answer == 0 && run_on(stack, answer).is_ok_and(|left| left == expected)
            }
            Call::AnalyzeCondition => {
                let expected = analyze(second_reading::analyze_condition, &image);
                let answer = move || analyze(port::analyze_condition, &image);
                expected.answer == 0 && run_on(stack, answer).is_ok_and(|left| left == expected)
            }
            Call::NameDependencies => {
                let given = tables_of(&image);
                let expected = walk(second_reading::name_dependencies, &image, &given);
                let answer = move || walk(port::name_dependencies, &image, &given);
                expected.answer == 0 && run_on(stack, answer).is_ok_and(|left| left == expected)
            }
        }
    }
}

/// What the walk goes down with a quarter of the stack to spare: every nesting, guards that tell something, and
/// conditional calls in the condition of each other. And guards whose condition is itself a chain: such a one is visited
/// and then analysed, which may take what the condition call takes.
fn walk_chains() -> Vec<Chain> {
    let mut chains: Vec<Chain> = NESTINGS.iter().map(of_nesting).collect();
    let guards = GUARDS.iter();
    chains.extend(guards.map(|guard| chain(guard.name, || guard.chain(MOST_NUMBERED))));
    let calls = || conditional_calls(MOST_NUMBERED);
    chains.push(chain("call, condition", calls));
    for spared in &mut chains {
        spared.most_pages = MOST_PAGES / 4 * 3;
    }
    let conditions = CONDITION_NESTINGS.iter().map(|nesting| {
        let make = || shapes::guarded_by_chain(nesting, MOST_NUMBERED);
        chain(format!("if {}", nesting.name), make)
    });
    chains.extend(conditions);
    chains
}

pub fn run() -> Report {
    let mut whole = Report::default();
    Call::ALL
        .into_iter()
        .for_each(|call| whole.add(measured(call)));
    whole
}

/// A wrong answer ends the command.
fn measured(call: Call) -> Report {
    let chains = call.chains();
    let is_right = measure(call, &chains);
    let mut answers = [0; ANSWERS];
    answers[0] = chains.len();
    let row = Row {
        call: call.title(),
        generator: "nested 16,383 deep, on the smallest stack",
        beside: "the second reading",
        images: chains.len(),
        answers,
        differences: usize::from(!is_right),
        seed: None,
    };
    Report::new(is_right, vec![row])
}

/// Prints the smallest stack of each chain, and says whether each does with what it must do with.
fn measure(call: Call, chains: &[Chain]) -> bool {
    let name = call.name();
    println!("smallest stack for the {name} of {MOST_NUMBERED} expressions nested");
    let mut most = 0;
    for chain in chains {
        if !is_enough(call, &chain.name, chain.most_pages) {
            let kib = chain.most_pages * PAGE_KIB;
            println!("FAILED: {} needs more than {kib} KiB", chain.name);
            return false;
        }
        let pages = smallest(chain.most_pages, |pages| {
            is_enough(call, &chain.name, pages)
        });
        print_stack(&chain.name, pages);
        most = most.max(pages);
    }
    print_stack("most", most);
    true
}

fn print_stack(name: &str, pages: usize) {
    let kib = pages * PAGE_KIB;
    let bytes = (kib << 10) as f64 / MOST_NUMBERED as f64;
    println!("{name:20} {kib:5} KiB, {bytes:4.0} bytes a level");
}

/// The smallest number that is enough, where `most` is.
fn smallest(most: usize, is_enough: impl Fn(usize) -> bool) -> usize {
    let (mut too_small, mut enough) = (FEWEST_PAGES - 1, most);
    while too_small + 1 < enough {
        let middle = (too_small + enough) / 2;
        if is_enough(middle) {
            enough = middle;
        } else {
            too_small = middle;
        }
    }
    enough
}

/// Whether a process that makes the call on a stack of so many pages comes to its end.
fn is_enough(call: Call, name: &str, pages: usize) -> bool {
    let program = std::env::current_exe().expect("the path of this program");
    let kib = (pages * PAGE_KIB).to_string();
    let mut probe = Command::new(program);
    probe.args(["depth", call.name(), name, &kib]);
    let status = probe
        .stderr(Stdio::null())
        .status()
        .expect("a process that probes");
    // Without a code a signal ended it.
    let code = status.code();
    assert!(code.is_none_or(|code| code == 0), "{name}: a wrong answer");
    code.is_some()
}

/// Makes the call on the chain of that name on a stack of so many KiB, and compares with the second reading.
pub fn probe(call: &str, name: &str, kib: &str) -> u8 {
    let call = Call::ALL.into_iter().find(|known| known.name() == call);
    let chains = call.map_or(Vec::new(), Call::candidates);
    let chain = chains.into_iter().find(|chain| chain.name == name);
    let (Some(call), Some(chain), Ok(kib)) = (call, chain, kib.parse::<usize>()) else {
        return usage();
    };
    let image = (chain.make)().encode();
    if port::check(&image) == 0 && call.is_right(image, kib << 10) {
        DONE
    } else {
        FAILED
    }
}

/// All that a call with just enough room leaves.
#[derive(PartialEq, Eq)]
struct Resolved {
    answer: u32,
    steps: u32,
    table: Vec<u8>,
    working: Vec<u8>,
}

fn resolve(call: NameResolution, image: &[u8]) -> Resolved {
    let mut resolved = Resolved {
        answer: 0,
        steps: 0,
        table: vec![0; 2 * MOST_NUMBERED],
        working: vec![0; resolution_need(image) as usize],
    };
    let (table, working) = (&mut resolved.table, &mut resolved.working);
    resolved.answer = call(image, u32::MAX, table, working, &mut resolved.steps);
    resolved
}

/// All that a call with room for a record of each expression leaves.
#[derive(PartialEq, Eq)]
struct Analysed {
    answer: u32,
    analysis: Analysis,
    lists: [Vec<u8>; 2],
}

/// The analysis of the highest expression, with tables that say nothing: a chain's leaf is unresolved.
fn analyze(call: AnalyzeCondition, image: &[u8]) -> Analysed {
    let given = Given::empty(MOST_NUMBERED, 1);
    let mut analysed = Analysed {
        answer: 0,
        analysis: Analysis::default(),
        lists: [(); 2].map(|()| vec![0; 4 * MOST_NUMBERED]),
    };
    let [then_list, else_list] = &mut analysed.lists;
    let question = Question::new(image, &given, MOST_NUMBERED as u32 - 1, u32::MAX);
    analysed.answer = call(question, then_list, else_list, &mut analysed.analysis);
    analysed
}

/// All that a walk with just enough room leaves.
#[derive(PartialEq, Eq)]
struct Walked {
    answer: u32,
    walk: Walk,
    buffers: [Vec<u8>; 4],
}

/// The tables of the image's own, which are no part of the walk that is measured.
fn tables_of(image: &[u8]) -> Given {
    let image = image.to_vec();
    run_on(LARGE, move || own_tables(&image)).expect("tables of its own")
}

fn walk(call: NameDependencies, image: &[u8], given: &Given) -> Walked {
    let needs = dependency_need(image, given);
    let mut walked = Walked {
        answer: 0,
        walk: Walk::default(),
        buffers: needs.map(|need| vec![0; need as usize]),
    };
    let lent = walk_buffers(walked.buffers.each_mut().map(Vec::as_mut_slice));
    walked.answer = call(image, given, u32::MAX, lent, &mut walked.walk);
    walked
}

#[cfg(test)]
mod tests {
    use super::*;
    use crate::commands::BAD_USAGE;

    #[test]
    fn the_smallest_that_is_enough_is_found() {
        for enough in [4, 5, 37, 2047, 2048] {
            assert_eq!(smallest(MOST_PAGES, |pages| pages >= enough), enough);
        }
    }

    #[test]
    fn chains_of_every_nesting_do_with_a_usual_stack() {
        for call in Call::ALL {
            for chain in call.chains() {
                let kib = (chain.most_pages * PAGE_KIB).to_string();
                let answer = probe(call.name(), &chain.name, &kib);
                assert_eq!(answer, DONE, "{} {}", call.name(), chain.name);
            }
            assert_eq!(probe(call.name(), "nothing", "8192"), BAD_USAGE);
        }
        assert_eq!(probe("nothing", "list", "8192"), BAD_USAGE);
    }

    #[test]
    fn chains_of_conditions_are_analysed_to_their_end() {
        let chains = Call::AnalyzeCondition.chains();
        assert_eq!(chains.len(), CONDITION_NESTINGS.len());
        for chain in chains {
            let image = (chain.make)().encode();
            let analysed = analyze(second_reading::analyze_condition, &image);
            assert!(analysed.analysis.steps >= MOST_NUMBERED as u32);
        }
    }

    /// The nestings that a pass does not go down.
    fn not_entered(chains: &[Chain]) -> Vec<&'static str> {
        let names = NESTINGS.iter().map(|nesting| nesting.name);
        let is_left_out = |name: &&str| chains.iter().all(|chain| chain.name != *name);
        names.filter(is_left_out).collect()
    }

    #[test]
    fn chains_through_role_6_are_not_resolved_and_those_through_role_7_of_a_let_not_walked() {
        let resolved = not_entered(&Call::NameResolution.chains());
        assert_eq!(resolved, ["let, inherit from", "rec, inherit from"]);
        let walked = not_entered(&Call::NameDependencies.chains());
        assert_eq!(walked, ["let, base"]);
    }

    #[test]
    fn guards_are_walked_to_their_end_and_their_narrowings_are_in_force() {
        let chains = Call::NameDependencies.chains();
        let conditions = CONDITION_NESTINGS.len();
        assert_eq!(
            chains.len(),
            NESTINGS.len() - 1 + GUARDS.len() + 1 + conditions
        );
        for chain in &chains {
            let image = (chain.make)().encode();
            let [.., working] = dependency_need(&image, &tables_of(&image));
            let levels = working as usize / 4;
            let is_guard = GUARDS.iter().any(|guard| guard.name == chain.name);
            assert_eq!(levels > MOST_NUMBERED - 10, is_guard, "{}", chain.name);
        }
    }
}

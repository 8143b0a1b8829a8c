//! `dependencies`: the port's walk beside the original's, over the image's own tables and over any well-formed ones, with
//! budgets and buffers around what a walk needs, and broken tables. Narrowings are compared in the order of visits, so
//! also by binding, as the original keeps them.

use super::against::Against;
use super::arrows::{Arrows, of_walks};
use super::comparison::hex;
use super::extent::Extent;
use super::findings::{ANY, DAMAGED, Family, Findings, OWN, beside_second, by_rule};
use super::met::{IN_WALKS, Met};
use super::numbers::Numbers;
use super::report::Report;
use crate::answers::Dependencies;
use crate::arrows;
use crate::builtin_set;
use crate::generate::given::{self, table_breaks};
use crate::generate::{self, damage, grow::Texts, shapes, walks};
use crate::image::{MOST_NUMBERED, NONE, Tree};
use crate::lent::{FRESH, Lent};
use crate::original::passes::{Subject, Tables};
use crate::port::refusal::{BROKEN_GIVEN, OVER_BUDGET, TOO_SHORT};
use crate::port::{self, NameDependencies, Walk, own_tables, walk_buffers};
use crate::random::Random;
use crate::records::{Record, bytes, narrowing_bytes, record_of, sort, sort_of};
use crate::second_reading::{
    condition_counts, dependencies_told, dependency_steps, resolution_steps,
};
use crate::selections::Reader;
use crate::tables::{Given, entries};

pub const DEFAULT: Extent = Extent {
    count: 100_000,
    seed: 0x003d_9e11,
};
/// Of a longer walk only refusal 8 is asked; after a longer resolution there are no tables of its own.
const MOST_STEPS: u64 = 20_000;
/// Of a walk longer than this only some loans are tried.
const FEW_STEPS: u64 = 1000;
const SOME_LOANS: usize = 6;
/// The original copies all narrowings in force at every guard, so memory grows by the square.
const DEEPEST_GUARDS: usize = 3000;
/// So many of a hundred images are made for a `builtins` that may be another set, so many of the others for arrows, so many
/// of the others for the walk, so many of the rest have texts of any bytes, and so many of those without a `builtins` are
/// walked over any tables too.
const OWN_BUILTINS: usize = 10;
const ARROWS: usize = 8;
const MADE_FOR_WALKS: usize = 25;
const ANY_BYTES: usize = 5;
const ANY_TABLES: usize = 40;
/// Each answer and each sort must come once in so many images, or they prove too little.
const RAREST: usize = 100;

const ENDLESS: Family = beside_second("endless walks");
const BROKEN: Family = by_rule("tables that break their rule");

/// What the numbers hold before a call.
const FRESH_NUMBERS: Walk = Walk {
    steps: 0xa5a5_a5a5,
    edge_count: 0xa5a5_a5a6,
    narrowing_count: 0xa5a5_a5a7,
};

pub fn run(extent: Extent) -> Report {
    let mut comparison = Comparison::new(port::name_dependencies, extent.seed);
    comparison.compare_deep();
    while comparison.images[OWN] < extent.count {
        comparison.compare_next();
    }
    let rows = comparison.findings.rows("`name_dependencies`", extent.seed);
    Report::new(comparison.is_right(), rows)
}

/// The buffers in the order in which their lengths stand everywhere here.
const BUFFERS: [&str; 4] = ["edges", "narrowings", "name expressions", "working buffer"];

/// What is lent to a call besides what it is given.
#[derive(Clone, Copy)]
struct Loan {
    budget: u32,
    rooms: [usize; 4],
}

fn loan(budget: u32, rooms: [usize; 4]) -> Loan {
    Loan { budget, rooms }
}

impl Loan {
    fn describe(&self, given: &Given) -> String {
        let rooms = BUFFERS.iter().zip(self.rooms);
        let rooms: Vec<String> = rooms
            .map(|(name, room)| format!("{room} bytes of {name}"))
            .collect();
        format!(
            "budget {}, {}, resolutions {}, bindings {}",
            self.budget,
            rooms.join(", "),
            hex(&given.resolutions),
            hex(&given.bindings)
        )
    }
}

/// What a call must answer and leave.
struct Expected {
    answer: u32,
    walk: Walk,
    buffers: [Vec<u8>; 4],
}

impl Expected {
    /// After a refusal of what is given nothing is written.
    fn untouched(answer: u32, loan: Loan) -> Self {
        Self::filled(answer, loan, FRESH_NUMBERS, FRESH)
    }

    fn zero(answer: u32, loan: Loan) -> Self {
        Self::filled(answer, loan, Walk::default(), 0)
    }

    fn filled(answer: u32, loan: Loan, walk: Walk, byte: u8) -> Self {
        Expected {
            answer,
            walk,
            buffers: loan.rooms.map(|room| vec![byte; room]),
        }
    }
}

/// What a walk gives: edges, recorded narrowings and name expressions, and the working bytes that it needs.
struct Run {
    steps: u64,
    answers: [Vec<u8>; 3],
    working: usize,
}

impl From<Dependencies> for Run {
    fn from(walked: Dependencies) -> Self {
        Run {
            steps: walked.steps,
            answers: [
                bytes(&walked.edges),
                narrowing_bytes(&walked.narrowings),
                walked.exprs,
            ],
            working: 4 * walked.most_in_force,
        }
    }
}

impl Run {
    fn needs(&self) -> [usize; 4] {
        let [edges, narrowings, exprs] = self.answers.each_ref().map(Vec::len);
        [edges, narrowings, exprs, self.working]
    }

    fn expected(&self, loan: Loan) -> Expected {
        let needs = self.needs();
        if self.steps > loan.budget.into() {
            return Expected::zero(OVER_BUDGET, loan);
        }
        if (0..4).any(|place| loan.rooms[place] < needs[place]) {
            return Expected::zero(TOO_SHORT, loan);
        }
        let walk = Walk {
            steps: self.steps as u32,
            edge_count: needs[0] as u32 / 4,
            narrowing_count: needs[1] as u32 / 8,
        };
        let mut expected = Expected::filled(0, loan, walk, FRESH);
        for (buffer, answer) in expected.buffers.iter_mut().zip(&self.answers) {
            buffer[..answer.len()].copy_from_slice(answer);
        }
        expected.buffers[3].fill(0);
        expected
    }

    /// Loans around the need: with just enough steps and with one less each buffer long enough, a byte short and
    /// empty; and more, less or any of all. Of a long walk the first and some others.
    fn loans(&self, random: &mut Random) -> Vec<Loan> {
        let (steps, needs) = (self.steps as u32, self.needs());
        let more = needs.map(|need| need + random.below(9));
        let any = needs.map(|need| random.below(need + 2));
        let any_budget = random.below(2 * steps as usize) as u32;
        let mut loans = vec![
            loan(steps, needs),
            loan(steps - 1, needs),
            loan(u32::MAX, more),
            loan(0, more),
            loan(steps, [0; 4]),
            loan(any_budget, any),
        ];
        for (place, &need) in needs.iter().enumerate().filter(|(_, need)| **need > 0) {
            for room in [need - 1, 0] {
                let mut rooms = needs;
                rooms[place] = room;
                loans.extend([loan(steps, rooms), loan(steps - 1, rooms)]);
            }
        }
        if self.steps > FEW_STEPS {
            let last = loans.len() - 1;
            for place in 1..SOME_LOANS {
                loans.swap(place, random.between(place, last));
            }
            loans.truncate(SOME_LOANS);
        }
        loans
    }
}

/// An image and its tables, and copies that they must still equal after each call.
struct Asked<'a> {
    image: &'a [u8],
    given: &'a Given,
    kept_image: Vec<u8>,
    kept: Given,
}

impl<'a> Asked<'a> {
    fn new(image: &'a [u8], given: &'a Given) -> Self {
        Asked {
            image,
            given,
            kept_image: image.to_vec(),
            kept: given.clone(),
        }
    }
}

struct Comparison {
    call: NameDependencies,
    random: Random,
    /// Images walked beside the original, over their own tables and over any.
    images: [usize; 2],
    /// Walks over images whose texts are any bytes, and walks that are too long to be run.
    any_bytes: usize,
    endless: usize,
    /// Walks over own tables, and over any, in which a `builtins` is not the builtin set.
    another_set: [usize; 2],
    met: Met,
    /// Walks over own tables, and over any, that analyse an arrow.
    with_arrow: [usize; 2],
    arrows: Arrows,
    numbers: Numbers,
    /// Of the walks beside the original those in which a narrowing is in force, and the most in force.
    narrowed: usize,
    most_in_force: usize,
    /// What they write: edges, name expressions, and narrowings by sort.
    edges: usize,
    bound: usize,
    sorts: [usize; sort::COUNT],
    findings: Findings,
}

impl Comparison {
    fn new(call: NameDependencies, seed: u64) -> Self {
        Comparison {
            call,
            random: Random::new(seed),
            images: [0; 2],
            any_bytes: 0,
            endless: 0,
            another_set: [0; 2],
            met: Met::default(),
            with_arrow: [0; 2],
            arrows: Arrows::default(),
            numbers: Numbers::default(),
            narrowed: 0,
            most_in_force: 0,
            edges: 0,
            bound: 0,
            sorts: [0; sort::COUNT],
            findings: Findings::new(&[]),
        }
    }

    /// Chains of every nesting as deep as can be, and guards around each other.
    fn compare_deep(&mut self) {
        let chains = shapes::NESTINGS.iter().map(|n| n.chain(MOST_NUMBERED));
        let guards = shapes::GUARDS.iter().map(|g| g.chain(DEEPEST_GUARDS));
        let calls = shapes::conditional_calls(MOST_NUMBERED);
        for tree in chains.chain(guards).chain([calls]) {
            let image = tree.encode();
            self.compare_walk(&tree, Texts::Utf8, OWN, &image, &own_tables(&image));
        }
    }

    fn compare_next(&mut self) {
        let (tree, texts) = self.next_tree();
        let image = tree.encode();
        let any = given::tables(&mut self.random, &tree);
        let own = (resolution_steps(&image) <= MOST_STEPS).then(|| own_tables(&image));
        let has_set = builtin_set::references(&tree).next().is_some();
        let has_any = own.is_none() || has_set || self.random.chance(ANY_TABLES);
        let tables = [(OWN, own.as_ref()), (ANY, Some(&any).filter(|_| has_any))];
        for (tables, given) in tables {
            match given {
                Some(given) if dependency_steps(&image, given) > MOST_STEPS => {
                    self.compare_endless(&Asked::new(&image, given));
                }
                Some(given) => self.compare_walk(&tree, texts, tables, &image, given),
                None => {}
            }
        }
        self.compare_broken(&tree, &image, &any);
        self.compare_damaged(&tree, &any);
    }

    fn next_tree(&mut self) -> (Tree, Texts) {
        if self.random.chance(OWN_BUILTINS) {
            let tree = generate::own_builtins::tree(&mut self.random);
            return (tree, Texts::Utf8);
        }
        if self.random.chance(ARROWS) {
            return (generate::arrows::tree(&mut self.random), Texts::Utf8);
        }
        if self.random.chance(MADE_FOR_WALKS) {
            return (walks::stretched_tree(&mut self.random), Texts::Utf8);
        }
        let any_bytes = self.random.chance(ANY_BYTES);
        let texts = if any_bytes { Texts::Bytes } else { Texts::Utf8 };
        (generate::tree(&mut self.random, texts), texts)
    }

    fn compare_walk(
        &mut self,
        tree: &Tree,
        texts: Texts,
        tables: usize,
        image: &[u8],
        given: &Given,
    ) {
        let asked = Asked::new(image, given);
        let against = Against::of_walk(tree, texts, given);
        self.findings.enter(against.family(tables));
        let walked = match against {
            Against::Original => Subject::new(tree).walk_as_is(&Tables::given(given)),
            Against::ForNumbers => self.walk_with_numbers(tree, image, given),
            _ => dependencies_told(image, given),
        };
        self.count_by(against, tables, tree, given, &walked);
        if against != Against::ForTexts && against != Against::ForArrows {
            for called in Reader::new(tree, given).walk() {
                self.met.see(called, against.is_original());
            }
        }
        let run = Run::from(walked);
        for loan in run.loans(&mut self.random) {
            self.compare_call(&asked, loan, &run.expected(loan));
        }
    }

    /// Counts a walk by what it is held against.
    fn count_by(
        &mut self,
        against: Against,
        tables: usize,
        tree: &Tree,
        given: &Given,
        walked: &Dependencies,
    ) {
        match against {
            Against::Original | Against::ForNumbers => {
                self.images[tables] += 1;
                self.count(walked);
            }
            Against::ForTexts => self.any_bytes += 1,
            Against::ForSet => {
                self.another_set[tables] += 1;
                self.met.parted += usize::from(original_walk(tree, given) != *walked);
            }
            Against::ForArrows => {
                self.with_arrow[tables] += 1;
                let original = original_walk(tree, given);
                self.arrows.answer(original != *walked);
                // On these no condition bears.
                let edges = (&original.edges, &original.exprs);
                self.arrows.rest(edges == (&walked.edges, &walked.exprs));
                self.see_arrows(tree, given);
            }
        }
    }

    fn see_arrows(&mut self, tree: &Tree, given: &Given) {
        let records = condition_counts(&tree.encode(), given);
        for arrow in arrows::of_walk(tree) {
            self.arrows.see(&arrow, &records);
        }
    }

    fn walk_with_numbers(&mut self, tree: &Tree, image: &[u8], given: &Given) -> Dependencies {
        let walked = original_walk(tree, given);
        let records: Vec<Record> = walked.narrowings.iter().map(|&n| record_of(n)).collect();
        let second = || dependencies_told(image, given);
        self.numbers.expected(walked, records.into_iter(), second)
    }

    /// What a walk of the original comes to.
    fn count(&mut self, walked: &Dependencies) {
        self.narrowed += usize::from(walked.most_in_force > 0);
        self.most_in_force = self.most_in_force.max(walked.most_in_force);
        self.edges += walked.edges.len();
        let bound = entries(&walked.exprs).filter(|&e| u32::from(e) != NONE);
        self.bound += bound.count();
        for &narrowing in &walked.narrowings {
            self.sorts[sort_of(record_of(narrowing))] += 1;
        }
    }

    /// A walk that goes on longer than any of these budgets allow, whatever is lent.
    fn compare_endless(&mut self, asked: &Asked) {
        self.endless += 1;
        self.findings.enter(ENDLESS);
        for most in [0, 1000, MOST_STEPS] {
            let budget = self.random.below(most as usize + 1) as u32;
            let loan = self.some_loan(budget);
            self.compare_call(asked, loan, &Expected::zero(OVER_BUDGET, loan));
        }
    }

    fn compare_broken(&mut self, tree: &Tree, image: &[u8], given: &Given) {
        let tried = self.random.pick(table_breaks());
        let broken = tried.make(&mut self.random, tree, given, 0);
        if let Some((broken, _)) = broken {
            self.findings.enter(BROKEN);
            self.compare_refused(image, &broken, BROKEN_GIVEN);
        }
    }

    /// A damaged image with tables of the one it comes from, broken or not.
    fn compare_damaged(&mut self, tree: &Tree, given: &Given) {
        let Some((refusal, image)) = damage::refused(&mut self.random, tree) else {
            return;
        };
        let tried = self.random.pick(table_breaks());
        let broken = tried.make(&mut self.random, tree, given, 0);
        let broken = broken.filter(|_| self.random.chance(50));
        let given = broken.map_or_else(|| given.clone(), |(given, _)| given);
        self.findings.enter(DAMAGED);
        self.compare_refused(&image, &given, refusal);
    }

    fn compare_refused(&mut self, image: &[u8], given: &Given, refusal: u32) {
        let budget = *self.random.pick(&[0, 1, u32::MAX]);
        let loan = self.some_loan(budget);
        let expected = Expected::untouched(refusal, loan);
        self.compare_call(&Asked::new(image, given), loan, &expected);
    }

    fn some_loan(&mut self, budget: u32) -> Loan {
        loan(budget, [(); 4].map(|()| self.random.below(40)))
    }

    fn compare_call(&mut self, asked: &Asked, loan: Loan, expected: &Expected) {
        let mut lent = loan.rooms.map(Lent::new);
        let mut numbers = [FRESH_NUMBERS; 3];
        let buffers = walk_buffers(lent.each_mut().map(Lent::part));
        let (image, given) = (asked.image, asked.given);
        let answer = (self.call)(image, given, loan.budget, buffers, &mut numbers[1]);
        let left = [FRESH_NUMBERS, expected.walk, FRESH_NUMBERS];
        let holds = |place: usize| {
            let is_right = lent[place].holds(&expected.buffers[place]);
            (BUFFERS[place], is_right)
        };
        let [edges, narrowings, exprs, working] = [0, 1, 2, 3].map(holds);
        let parts = [
            ("numbers", numbers == left),
            edges,
            narrowings,
            exprs,
            working,
            ("image", asked.image == asked.kept_image),
            ("tables", *asked.given == asked.kept),
        ];
        let answers = [expected.answer, answer];
        let describe = || loan.describe(&asked.kept);
        self.findings
            .add(&asked.kept_image, answers, &parts, describe);
    }

    fn print(&self) {
        println!(
            "{} images walked over their own tables and {} over any, beside the original; beside the second reading {} \
             walks over texts of any bytes, with another `builtins` {} over own tables and {} over any, and with an \
             arrow {} and {}; {} endless walks",
            self.images[OWN],
            self.images[ANY],
            self.any_bytes,
            self.another_set[OWN],
            self.another_set[ANY],
            self.with_arrow[OWN],
            self.with_arrow[ANY],
            self.endless
        );
        println!(
            "{} walks with narrowings in force, at most {}; {} edges, {} name expressions, recorded narrowings by sort {:?}",
            self.narrowed, self.most_in_force, self.edges, self.bound, self.sorts
        );
    }

    /// Says what was seen, and whether all of it is right.
    fn is_right(&self) -> bool {
        let fewest = self.images[OWN] / RAREST;
        self.print();
        let is_met = self.met.is_enough(IN_WALKS, self.images[OWN]);
        let is_met = self.arrows.is_right(of_walks, self.images[OWN]) && is_met;
        let is_met = self.numbers.is_right(fewest) && is_met;
        let Some(refusals) = self.findings.refusals(fewest) else {
            return false;
        };
        if !is_met {
            return false;
        }
        if self.sorts.iter().any(|&count| count < fewest) {
            println!("FAILED: too few narrowings of a sort");
            return false;
        }
        println!(
            "no difference in {} walks, {} answers and the refusals {refusals}",
            [self.images, self.another_set, self.with_arrow]
                .iter()
                .flatten()
                .sum::<usize>()
                + self.any_bytes
                + self.endless,
            self.findings.answers()[0],
        );
        true
    }
}

/// With IsNumber where a record comes from a number literal.
fn original_walk(tree: &Tree, given: &Given) -> Dependencies {
    Subject::new(tree).name_dependencies(&Tables::given(given))
}

#[cfg(test)]
mod tests;

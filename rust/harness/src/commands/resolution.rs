//! `resolution`: the port's name resolution beside the original's, with budgets and buffers around what a run needs.

use super::extent::Extent;
use super::findings::{BYTES, DAMAGED, Family, Findings, NESTED, SHAPES, beside_second};
use super::report::Report;
use crate::generate::{self, damage, grow::Texts, shapes};
use crate::image::{MOST_NUMBERED, Tree};
use crate::lent::{FRESH, Lent};
use crate::original::passes::Subject;
use crate::port::refusal::{OVER_BUDGET, TOO_SHORT};
use crate::port::{self, NameResolution};
use crate::random::Random;
use crate::second_reading::{self, resolution_need, resolution_steps};
use crate::tables::entries;

pub const DEFAULT: Extent = Extent {
    count: 100_000,
    seed: 0x005c_0be5,
};
/// Sharing multiplies visits: of a longer run only refusal 8 is asked, and the original does not run.
const MOST_STEPS: u64 = 200_000;
/// So many of a hundred images have texts of any bytes.
const ANY_BYTES: usize = 5;
/// Each answer must come once in so many images, or they prove too little.
const RAREST: usize = 100;

const ENDLESS: Family = beside_second("endless runs");

/// What the steps hold before a call.
const FRESH_STEPS: u32 = 0xa5a5_a5a5;

pub fn run(extent: Extent) -> Report {
    let mut comparison = Comparison::new(port::name_resolution, extent.seed);
    for nesting in &shapes::NESTINGS {
        comparison.compare(&nesting.chain(MOST_NUMBERED), NESTED);
    }
    while comparison.images < extent.count {
        comparison.compare_next();
    }
    let rows = comparison
        .findings
        .rows("`compute_name_resolution`", extent.seed);
    Report::new(comparison.is_right(), rows)
}

/// What is lent to a call besides the image.
#[derive(Clone, Copy)]
struct Loan {
    budget: u32,
    table: usize,
    working: usize,
}

fn loan(budget: u32, table: usize, working: usize) -> Loan {
    Loan {
        budget,
        table,
        working,
    }
}

impl Loan {
    fn describe(&self) -> String {
        let Loan {
            budget,
            table,
            working,
        } = self;
        format!("budget {budget}, table of {table} bytes, working buffer of {working} bytes")
    }
}

/// What a call must answer and leave.
struct Expected {
    answer: u32,
    steps: u32,
    table: Vec<u8>,
    working: Vec<u8>,
}

impl Expected {
    /// After a refusal of the image nothing is written.
    fn untouched(answer: u32, loan: Loan) -> Self {
        Expected {
            answer,
            steps: FRESH_STEPS,
            table: vec![FRESH; loan.table],
            working: vec![FRESH; loan.working],
        }
    }

    fn zero(answer: u32, loan: Loan) -> Self {
        Expected {
            answer,
            steps: 0,
            table: vec![0; loan.table],
            working: vec![0; loan.working],
        }
    }
}

/// What a run on an accepted image gives, and the working bytes that it needs.
struct Run {
    table: Vec<u8>,
    steps: u64,
    working: usize,
}

impl Run {
    fn expected(&self, loan: Loan) -> Expected {
        if self.steps > loan.budget.into() {
            return Expected::zero(OVER_BUDGET, loan);
        }
        if loan.table < self.table.len() || loan.working < self.working {
            return Expected::zero(TOO_SHORT, loan);
        }
        let behind = vec![FRESH; loan.table - self.table.len()];
        Expected {
            answer: 0,
            steps: self.steps as u32,
            table: [&self.table[..], &behind].concat(),
            working: vec![0; loan.working],
        }
    }

    /// Loans around the need: just enough, more, a byte or a step less, nothing, and any.
    fn loans(&self, random: &mut Random) -> [Loan; 9] {
        let (steps, table, working) = (self.steps as u32, self.table.len(), self.working);
        let (more_table, more_working) = (table + random.below(20), working + random.below(20));
        let any_budget = random.below(2 * steps as usize) as u32;
        [
            loan(steps, table, working),
            loan(u32::MAX, more_table, more_working),
            loan(steps, table, working - 1),
            loan(u32::MAX, table - 1, working),
            loan(steps, 0, 0),
            loan(steps - 1, table, working),
            loan(steps - 1, table - 1, working - 1),
            loan(0, more_table, more_working),
            loan(
                any_budget,
                random.below(table + 2),
                random.below(working + 2),
            ),
        ]
    }
}

struct Comparison {
    call: NameResolution,
    random: Random,
    images: usize,
    /// Images of which a shared expression is visited again.
    shared: usize,
    /// Images whose runs are too long to be run.
    endless: usize,
    /// Images whose texts are any bytes.
    any_bytes: usize,
    /// Entries of the tables by tag.
    tags: [usize; 4],
    findings: Findings,
}

impl Comparison {
    fn new(call: NameResolution, seed: u64) -> Self {
        Comparison {
            call,
            random: Random::new(seed),
            images: 0,
            shared: 0,
            endless: 0,
            any_bytes: 0,
            tags: [0; 4],
            // No number or table is given to the call.
            findings: Findings::new(&[7]),
        }
    }

    fn compare_next(&mut self) {
        let any_bytes = self.random.chance(ANY_BYTES);
        let texts = if any_bytes { Texts::Bytes } else { Texts::Utf8 };
        let tree = generate::tree(&mut self.random, texts);
        if resolution_steps(&tree.encode()) > MOST_STEPS {
            self.compare_endless(&tree);
        } else if any_bytes {
            self.compare_any_bytes(&tree);
        } else {
            self.compare(&tree, SHAPES);
        }
        self.compare_damaged(&tree);
    }

    /// The image beside the original's run on it.
    fn compare(&mut self, tree: &Tree, family: Family) {
        self.findings.enter(family);
        let resolved = Subject::new(tree).name_resolution();
        self.images += 1;
        self.shared += usize::from(resolved.steps > resolved.visited as u64);
        for entry in entries(&resolved.table) {
            self.tags[usize::from(entry >> 14)] += 1;
        }
        let run = Run {
            table: resolved.table,
            steps: resolved.steps,
            working: 4 * tree.exprs.len() + 8 * resolved.scopes,
        };
        self.compare_run(&tree.encode(), &run);
    }

    /// The image beside the second reading, since the original takes UTF-8 texts only.
    fn compare_any_bytes(&mut self, tree: &Tree) {
        self.any_bytes += 1;
        self.findings.enter(BYTES);
        let image = tree.encode();
        let mut table = vec![0; 2 * tree.exprs.len()];
        let mut working = vec![0; resolution_need(&image) as usize];
        let mut steps = 0;
        second_reading::name_resolution(&image, u32::MAX, &mut table, &mut working, &mut steps);
        let run = Run {
            table,
            steps: steps.into(),
            working: working.len(),
        };
        self.compare_run(&image, &run);
    }

    fn compare_run(&mut self, image: &[u8], run: &Run) {
        for loan in run.loans(&mut self.random) {
            self.compare_call(image, loan, &run.expected(loan));
        }
    }

    /// A run that goes on longer than any of these budgets allow, whatever is lent.
    fn compare_endless(&mut self, tree: &Tree) {
        self.endless += 1;
        self.findings.enter(ENDLESS);
        let image = tree.encode();
        for most in [0, 1000, MOST_STEPS] {
            let budget = self.random.below(most as usize + 1) as u32;
            let loan = self.some_loan(budget, tree);
            let expected = Expected::zero(OVER_BUDGET, loan);
            self.compare_call(&image, loan, &expected);
        }
    }

    fn compare_damaged(&mut self, tree: &Tree) {
        if let Some((refusal, image)) = damage::refused(&mut self.random, tree) {
            let budget = *self.random.pick(&[0, 1, u32::MAX]);
            let loan = self.some_loan(budget, tree);
            self.findings.enter(DAMAGED);
            self.compare_call(&image, loan, &Expected::untouched(refusal, loan));
        }
    }

    /// Buffers of any length up to some bytes more than a tree of one scope needs.
    fn some_loan(&mut self, budget: u32, tree: &Tree) -> Loan {
        let exprs = tree.exprs.len();
        let table = self.random.below(2 * exprs + 10);
        loan(budget, table, self.random.below(4 * exprs + 20))
    }

    fn compare_call(&mut self, image: &[u8], loan: Loan, expected: &Expected) {
        let kept = image.to_vec();
        let (mut table, mut working) = (Lent::new(loan.table), Lent::new(loan.working));
        let mut steps = [FRESH_STEPS; 3];
        let (lent_table, lent_working) = (table.part(), working.part());
        let answer = (self.call)(image, loan.budget, lent_table, lent_working, &mut steps[1]);
        let lent_steps = [FRESH_STEPS, expected.steps, FRESH_STEPS];
        let parts = [
            ("steps", steps == lent_steps),
            ("table", table.holds(&expected.table)),
            ("working buffer", working.holds(&expected.working)),
            ("image", image == kept),
        ];
        let answers = [expected.answer, answer];
        self.findings
            .add(&kept, answers, &parts, || loan.describe());
    }

    /// Says what was seen, and whether all of it is right.
    fn is_right(&self) -> bool {
        let [none, definitions, builtins, withs] = self.tags;
        println!(
            "{} images beside the original, {} of which visit an expression again; {} with texts of any bytes \
             beside the second reading; {} of endless runs",
            self.images, self.shared, self.any_bytes, self.endless
        );
        println!(
            "entries: {none} none, {definitions} definitions, {builtins} builtins, {withs} withs"
        );
        let Some(refusals) = self.findings.refusals(self.images / RAREST) else {
            return false;
        };
        println!(
            "no difference in {} images, {} tables and the refusals {refusals}",
            self.images + self.any_bytes + self.endless,
            self.findings.answers()[0],
        );
        true
    }
}

#[cfg(test)]
mod tests {
    use super::*;
    use crate::large_stack::{LARGE, run_on};

    fn compared(call: NameResolution, images: usize) -> Comparison {
        let mut comparison = Comparison::new(call, DEFAULT.seed);
        while comparison.images < images {
            comparison.compare_next();
        }
        comparison
    }

    #[test]
    fn the_second_reading_differs_nowhere_and_every_answer_comes() {
        let ran = run_on(LARGE, || {
            let comparison = compared(second_reading::name_resolution, 2000);
            assert!(!comparison.findings.differs());
            assert_eq!(comparison.findings.rare(comparison.images / RAREST), []);
            assert!(comparison.shared > 400 && comparison.endless > 5);
            assert!(comparison.tags.iter().all(|&entries| entries > 1000));
        });
        assert!(ran.is_ok());
    }

    #[test]
    fn the_port_differs_nowhere() {
        let differs = run_on(LARGE, || {
            compared(port::name_resolution, 2000).findings.differs()
        });
        assert!(differs.is_ok_and(|differs| !differs));
    }

    /// Calls with one fault each.
    const WRONG: [(&str, NameResolution); 7] =
        [
            ("no budget", |image, _, table, working, steps| {
                second_reading::name_resolution(image, u32::MAX, table, working, steps)
            }),
            ("9 before 8", |image, budget, table, working, steps| {
                match second_reading::name_resolution(image, u32::MAX, table, working, steps) {
                    0 => second_reading::name_resolution(image, budget, table, working, steps),
                    refusal => refusal,
                }
            }),
            ("no working need", |image, budget, table, working, steps| {
                let long_enough = &mut vec![0; 1 << 20];
                let answer =
                    second_reading::name_resolution(image, budget, table, long_enough, steps);
                if !second_reading::is_of_image(answer) {
                    working.fill(0);
                }
                answer
            }),
            (
                "working bytes left",
                |image, budget, table, working, steps| {
                    let answer =
                        second_reading::name_resolution(image, budget, table, working, steps);
                    if answer == 0 {
                        working[0] = 1;
                    }
                    answer
                },
            ),
            (
                "bytes behind the answer",
                |image, budget, table, working, steps| {
                    let answer =
                        second_reading::name_resolution(image, budget, table, working, steps);
                    if answer == 0 && table.last() == Some(&FRESH) {
                        table[table.len() - 1] = 0;
                    }
                    answer
                },
            ),
            ("steps kept on 8", |image, budget, table, working, steps| {
                let before = *steps;
                let answer = second_reading::name_resolution(image, budget, table, working, steps);
                *steps = if answer == 8 { before } else { *steps };
                answer
            }),
            (
                "steps of a refused image",
                |image, budget, table, working, steps| {
                    *steps = 0;
                    second_reading::name_resolution(image, budget, table, working, steps)
                },
            ),
        ];

    #[test]
    fn each_fault_is_seen() {
        for (fault, call) in WRONG {
            let found = run_on(LARGE, move || compared(call, 100).findings.differs());
            assert!(found.unwrap_or(false), "{fault}");
        }
    }
}

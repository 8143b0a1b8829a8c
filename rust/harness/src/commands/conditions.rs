//! `conditions`: the port's analysis of every expression as a condition beside the original's, over its own tables and
//! over any well-formed ones, with budgets and buffers around what a run needs, and broken tables.

use super::against::Against;
use super::arrows::{Arrows, of_conditions};
use super::comparison::hex;
use super::extent::Extent;
use super::findings::{ANY, DAMAGED, Family, Findings, OWN, by_rule};
use super::met::{IN_CONDITIONS, Met};
use super::numbers::Numbers;
use super::report::Report;
use crate::answers::Condition;
use crate::arrows;
use crate::generate::given::{self, BREAKS};
use crate::generate::{self, damage, grow::Texts, shapes};
use crate::image::{MOST_NUMBERED, Tree};
use crate::lent::{FRESH, Lent};
use crate::original::passes::{Subject, Tables};
use crate::port::refusal::{BROKEN_GIVEN, OVER_BUDGET, TOO_SHORT};
use crate::port::{self, Analysis, AnalyzeCondition, Question, own_tables};
use crate::random::Random;
use crate::records::{self, Record, sort, sort_of};
use crate::second_reading::{condition_counts, condition_steps, condition_told, resolution_steps};
use crate::selections::Reader;
use crate::tables::Given;

pub const DEFAULT: Extent = Extent {
    count: 50_000,
    seed: 0x00c0_4d17,
};
/// Of a longer analysis only refusal 8 is asked; after a longer resolution there are no tables of its own.
const MOST_STEPS: u64 = 20_000;
/// Of a larger image only some expressions are asked as conditions.
const MOST_EXPRS: usize = 300;
const SOME: usize = 12;
/// The original copies its lists at every level, so its time grows by the square.
const DEEPEST_RECORDS: usize = 3000;
/// So many of a hundred images are made for a `builtins` that may be another set, so many of the others for arrows, so many
/// of the others for conditions, and so many of the rest have texts of any bytes.
const OWN_BUILTINS: usize = 10;
const ARROWS: usize = 8;
const MADE_FOR_CONDITIONS: usize = 25;
const ANY_BYTES: usize = 5;
/// Each answer and each sort must come once in so many images, or they prove too little.
const RAREST: usize = 100;

const BROKEN: Family = by_rule("tables or conditions that break their rule");

/// What the numbers hold before a call.
const FRESH_NUMBERS: Analysis = Analysis {
    steps: 0xa5a5_a5a5,
    then_count: 0xa5a5_a5a6,
    else_count: 0xa5a5_a5a7,
};

pub fn run(extent: Extent) -> Report {
    let mut comparison = Comparison::new(port::analyze_condition, extent.seed);
    comparison.compare_deep();
    while comparison.images < extent.count {
        comparison.compare_next();
    }
    let rows = comparison.findings.rows("`analyze_condition`", extent.seed);
    Report::new(comparison.is_right(), rows)
}

/// What is lent to a call besides what it is given.
#[derive(Clone, Copy)]
struct Loan {
    budget: u32,
    then_list: usize,
    else_list: usize,
}

fn loan(budget: u32, then_list: usize, else_list: usize) -> Loan {
    Loan {
        budget,
        then_list,
        else_list,
    }
}

/// What a call must answer and leave.
struct Expected {
    answer: u32,
    analysis: Analysis,
    then_list: Vec<u8>,
    else_list: Vec<u8>,
}

impl Expected {
    /// After a refusal of what is given nothing is written.
    fn untouched(answer: u32, loan: Loan) -> Self {
        Self::filled(answer, loan, FRESH_NUMBERS, FRESH)
    }

    fn zero(answer: u32, loan: Loan) -> Self {
        Self::filled(answer, loan, Analysis::default(), 0)
    }

    fn filled(answer: u32, loan: Loan, analysis: Analysis, byte: u8) -> Self {
        Expected {
            answer,
            analysis,
            then_list: vec![byte; loan.then_list],
            else_list: vec![byte; loan.else_list],
        }
    }
}

/// What the analysis of a condition gives.
struct Run {
    then_list: Vec<Record>,
    else_list: Vec<Record>,
    steps: u64,
}

impl From<Condition> for Run {
    fn from(told: Condition) -> Self {
        let Condition {
            then_list,
            else_list,
            steps,
        } = told;
        Run {
            then_list,
            else_list,
            steps,
        }
    }
}

impl Run {
    fn expected(&self, loan: Loan) -> Expected {
        if self.steps > loan.budget.into() {
            return Expected::zero(OVER_BUDGET, loan);
        }
        if loan.then_list < 4 * self.then_list.len() || loan.else_list < 4 * self.else_list.len() {
            return Expected::zero(TOO_SHORT, loan);
        }
        Expected {
            answer: 0,
            analysis: Analysis {
                steps: self.steps as u32,
                then_count: self.then_list.len() as u32,
                else_count: self.else_list.len() as u32,
            },
            then_list: written(&self.then_list, loan.then_list),
            else_list: written(&self.else_list, loan.else_list),
        }
    }

    fn is_empty(&self) -> bool {
        self.then_list.is_empty() && self.else_list.is_empty()
    }

    /// Loans around the need: just enough, more, a byte or a step less, nothing, and any. Where there are no records,
    /// just enough and one of the others.
    fn loans(&self, random: &mut Random) -> Vec<Loan> {
        let (steps, need) = (self.steps as u32, 4 * self.then_list.len());
        let (then_list, else_list) = (need, 4 * self.else_list.len());
        let (more_then, more_else) = (then_list + random.below(9), else_list + random.below(9));
        let any_budget = random.below(2 * steps as usize + 1) as u32;
        let (any_then, any_else) = (random.below(then_list + 2), random.below(else_list + 2));
        let mut loans = vec![
            loan(steps, then_list, else_list),
            loan(u32::MAX, more_then, more_else),
            loan(steps, then_list.saturating_sub(1), else_list),
            loan(u32::MAX, more_then, else_list.saturating_sub(1)),
            loan(steps, 0, 0),
            loan(steps - 1, then_list, else_list),
            loan(steps - 1, 0, else_list.saturating_sub(1)),
            loan(0, more_then, more_else),
            loan(any_budget, any_then, any_else),
        ];
        if self.is_empty() {
            let other = random.between(1, loans.len() - 1);
            loans.swap(1, other);
            loans.truncate(2);
        }
        loans
    }
}

/// The bytes of a lent list after its records are written.
fn written(records: &[Record], length: usize) -> Vec<u8> {
    let mut list = records::bytes(records);
    list.resize(length, FRESH);
    list
}

/// An image and its tables, and copies that they must still equal after each call.
struct Asked<'a> {
    image: &'a [u8],
    given: &'a Given,
    kept_image: Vec<u8>,
    kept: Given,
}

impl<'a> Asked<'a> {
    fn new(image: &'a [u8], given: &'a Given) -> Self {
        Asked {
            image,
            given,
            kept_image: image.to_vec(),
            kept: given.clone(),
        }
    }
}

struct Comparison {
    call: AnalyzeCondition,
    random: Random,
    /// Images of which every expression is asked, and larger ones of which some are.
    images: usize,
    larger: usize,
    /// Images whose texts are any bytes.
    any_bytes: usize,
    /// Images asked over own tables, and over any, in which a `builtins` is not the builtin set.
    another_set: [usize; 2],
    met: Met,
    arrows: Arrows,
    numbers: Numbers,
    /// Conditions asked over own tables, and over any.
    conditions: [usize; 2],
    /// Those of them that tell something, and those whose analysis is too long to be run.
    telling: usize,
    endless: usize,
    /// Records by sort.
    sorts: [usize; sort::COUNT],
    findings: Findings,
}

impl Comparison {
    fn new(call: AnalyzeCondition, seed: u64) -> Self {
        Comparison {
            call,
            random: Random::new(seed),
            images: 0,
            larger: 0,
            any_bytes: 0,
            another_set: [0; 2],
            met: Met::default(),
            arrows: Arrows::default(),
            numbers: Numbers::default(),
            conditions: [0; 2],
            telling: 0,
            endless: 0,
            sorts: [0; sort::COUNT],
            findings: Findings::new(&[]),
        }
    }

    /// Conditions nested as deep as can be, and such with as many records as levels.
    fn compare_deep(&mut self) {
        for nesting in &shapes::CONDITION_NESTINGS {
            self.compare_image(&nesting.chain(MOST_NUMBERED), Texts::Utf8);
            let tree = shapes::condition_chain(nesting, DEEPEST_RECORDS);
            self.compare_image(&tree, Texts::Utf8);
        }
    }

    fn compare_next(&mut self) {
        if self.random.chance(OWN_BUILTINS) {
            let tree = generate::own_builtins::tree(&mut self.random);
            return self.compare_image(&tree, Texts::Utf8);
        }
        if self.random.chance(ARROWS) {
            let tree = generate::arrows::tree(&mut self.random);
            return self.compare_image(&tree, Texts::Utf8);
        }
        if self.random.chance(MADE_FOR_CONDITIONS) {
            let tree = generate::conditions::tree(&mut self.random);
            return self.compare_image(&tree, Texts::Utf8);
        }
        let any_bytes = self.random.chance(ANY_BYTES);
        let texts = if any_bytes { Texts::Bytes } else { Texts::Utf8 };
        let tree = generate::tree(&mut self.random, texts);
        self.any_bytes += usize::from(any_bytes);
        self.compare_image(&tree, texts);
    }

    fn compare_image(&mut self, tree: &Tree, texts: Texts) {
        let image = tree.encode();
        let conditions = self.conditions_of(tree);
        let any = given::tables(&mut self.random, tree);
        let own = (resolution_steps(&image) <= MOST_STEPS).then(|| own_tables(&image));
        for (place, given) in [(OWN, own.as_ref()), (ANY, Some(&any))] {
            let Some(given) = given else { continue };
            let asked = Asked::new(&image, given);
            self.conditions[place] += conditions.len();
            let against = Against::of(tree, texts, given);
            self.another_set[place] += usize::from(against == Against::ForSet);
            // An image is counted for each of them.
            for (against, conditions) in against.of_conditions(tree, &conditions) {
                self.findings.enter(against.family(place));
                self.compare_conditions(&asked, tree, against, &conditions);
                if against == Against::ForArrows {
                    self.see_arrows(&asked, tree, &conditions);
                }
            }
            self.compare_broken(&asked, tree);
        }
        self.compare_damaged(tree, &any);
    }

    /// Every expression; of a larger image the highest and some others.
    fn conditions_of(&mut self, tree: &Tree) -> Vec<u32> {
        let count = tree.exprs.len();
        if count <= MOST_EXPRS {
            self.images += 1;
            return (0..count as u32).collect();
        }
        self.larger += 1;
        let highest = (count - SOME / 2..count).map(|e| e as u32);
        let others = (0..SOME / 2).map(|_| self.random.below(count) as u32);
        highest.chain(others).collect()
    }

    fn compare_conditions(
        &mut self,
        asked: &Asked,
        tree: &Tree,
        against: Against,
        conditions: &[u32],
    ) {
        let steps = condition_steps(asked.image);
        let tables = Tables::given(asked.given);
        let subject = (against != Against::ForTexts).then(|| Subject::new(tree));
        let reader = Reader::new(tree, asked.given);
        for &condition in conditions {
            if steps[condition as usize] > MOST_STEPS {
                self.compare_endless(asked, condition);
                continue;
            }
            let original = subject.as_ref().map(|subject| match against {
                Against::Original => subject.condition_as_is(&tables, condition),
                _ => subject.analyze_condition(&tables, condition),
            });
            let run = Run::from(self.told(asked, condition, against, original));
            self.count(&run);
            if let Some(called) = reader.condition(condition).filter(|_| subject.is_some()) {
                self.met.see(called, against.is_original());
            }
            for loan in run.loans(&mut self.random) {
                self.compare_call(asked, condition, loan, &run.expected(loan));
            }
        }
    }

    fn see_arrows(&mut self, asked: &Asked, tree: &Tree, conditions: &[u32]) {
        let records = condition_counts(asked.image, asked.given);
        for &condition in conditions {
            for arrow in arrows::of_condition(tree, condition) {
                self.arrows.see(&arrow, &records);
            }
        }
    }

    /// What is told by what the answer is held against, with what the original tells where it takes the texts.
    fn told(
        &mut self,
        asked: &Asked,
        condition: u32,
        against: Against,
        original: Option<Condition>,
    ) -> Condition {
        let second = || condition_told(asked.image, asked.given, condition);
        match original {
            Some(original) if against.is_original() => {
                let records = [original.then_list.clone(), original.else_list.clone()].concat();
                self.numbers.expected(original, records.into_iter(), second)
            }
            original => {
                let told = second();
                let is_other = original.is_some_and(|it| it != told);
                match against {
                    Against::ForArrows => self.arrows.answer(is_other),
                    _ => self.met.parted += usize::from(is_other),
                }
                told
            }
        }
    }

    fn count(&mut self, run: &Run) {
        self.telling += usize::from(!run.is_empty());
        for &record in run.then_list.iter().chain(&run.else_list) {
            self.sorts[sort_of(record)] += 1;
        }
    }

    /// An analysis that goes on longer than any of these budgets allow, whatever is lent.
    fn compare_endless(&mut self, asked: &Asked, condition: u32) {
        self.endless += 1;
        for most in [0, 1000, MOST_STEPS] {
            let budget = self.random.below(most as usize + 1) as u32;
            let loan = self.some_loan(budget);
            self.compare_call(asked, condition, loan, &Expected::zero(OVER_BUDGET, loan));
        }
    }

    fn compare_broken(&mut self, asked: &Asked, tree: &Tree) {
        for _ in 0..2 {
            let tried = self.random.pick(&BREAKS);
            let condition = self.random.below(tree.exprs.len()) as u32;
            let broken = tried.make(&mut self.random, tree, asked.given, condition);
            if let Some((given, condition)) = broken {
                self.findings.enter(BROKEN);
                self.compare_refused(asked.image, &given, condition, BROKEN_GIVEN);
            }
        }
    }

    /// A damaged image with tables of the one it comes from, broken or not.
    fn compare_damaged(&mut self, tree: &Tree, given: &Given) {
        let Some((refusal, image)) = damage::refused(&mut self.random, tree) else {
            return;
        };
        let tried = self.random.pick(&BREAKS);
        let broken = tried.make(&mut self.random, tree, given, 0);
        let broken = broken.filter(|_| self.random.chance(50));
        let (given, condition) = broken.unwrap_or_else(|| (given.clone(), 0));
        self.findings.enter(DAMAGED);
        self.compare_refused(&image, &given, condition, refusal);
    }

    fn compare_refused(&mut self, image: &[u8], given: &Given, condition: u32, refusal: u32) {
        let asked = Asked::new(image, given);
        let budget = *self.random.pick(&[0, 1, u32::MAX]);
        let loan = self.some_loan(budget);
        let expected = Expected::untouched(refusal, loan);
        self.compare_call(&asked, condition, loan, &expected);
    }

    fn some_loan(&mut self, budget: u32) -> Loan {
        loan(budget, self.random.below(20), self.random.below(20))
    }

    fn compare_call(&mut self, asked: &Asked, condition: u32, loan: Loan, expected: &Expected) {
        let question = Question::new(asked.image, asked.given, condition, loan.budget);
        let mut lists = [loan.then_list, loan.else_list].map(Lent::new);
        let mut numbers = [FRESH_NUMBERS; 3];
        let [then_list, else_list] = &mut lists;
        let (then_part, else_part) = (then_list.part(), else_list.part());
        let answer = (self.call)(question, then_part, else_part, &mut numbers[1]);
        let left = [FRESH_NUMBERS, expected.analysis, FRESH_NUMBERS];
        let parts = [
            ("numbers", numbers == left),
            ("then list", then_list.holds(&expected.then_list)),
            ("else list", else_list.holds(&expected.else_list)),
            ("image", asked.image == asked.kept_image),
            ("tables", *asked.given == asked.kept),
        ];
        let answers = [expected.answer, answer];
        let describe = || loan.describe(&asked.kept, condition);
        self.findings
            .add(&asked.kept_image, answers, &parts, describe);
    }

    /// Says what was seen, and whether all of it is right.
    fn is_right(&self) -> bool {
        let fewest = self.images / RAREST;
        println!(
            "{} images, every expression a condition, and some of {} larger ones; beside the second reading {} with \
             texts of any bytes, and with another `builtins` {} over own tables and {} over any; the others beside the \
             original, but for conditions with an arrow",
            self.images, self.larger, self.any_bytes, self.another_set[OWN], self.another_set[ANY]
        );
        println!(
            "{} conditions over own tables and {} over any; {} tell something, {} are endless; records by sort {:?}",
            self.conditions[0], self.conditions[1], self.telling, self.endless, self.sorts
        );
        let is_met = self.met.is_enough(IN_CONDITIONS, self.images);
        let is_met = self.arrows.is_right(of_conditions, self.images) && is_met;
        let is_met = self.numbers.is_right(fewest) && is_met;
        let Some(refusals) = self.findings.refusals(fewest) else {
            return false;
        };
        if !is_met {
            return false;
        }
        if self.sorts.iter().any(|&count| count < fewest) {
            println!("FAILED: too few records of a sort");
            return false;
        }
        println!(
            "no difference in {} images, {} conditions, {} answers and the refusals {refusals}",
            self.images + self.larger,
            self.conditions.iter().sum::<usize>(),
            self.findings.answers()[0],
        );
        true
    }
}

impl Loan {
    fn describe(&self, given: &Given, condition: u32) -> String {
        format!(
            "condition {condition}, budget {}, lists of {} and {} bytes, resolutions {}, bindings {}",
            self.budget,
            self.then_list,
            self.else_list,
            hex(&given.resolutions),
            hex(&given.bindings)
        )
    }
}

#[cfg(test)]
mod tests {
    use super::*;
    use crate::commands::met::turned;
    use crate::large_stack::{LARGE, run_on};
    use crate::second_reading::arrow::turned::{WRONG as WRONG_ARROWS, read_as};
    use crate::second_reading::{self, analyze_condition};
    use crate::selections::{ALIAS, HAS_ATTR, ONE_KEY, PREDICATE};

    fn compared(call: AnalyzeCondition, images: usize) -> Comparison {
        let mut comparison = Comparison::new(call, DEFAULT.seed);
        while comparison.images < images {
            comparison.compare_next();
        }
        comparison
    }

    #[test]
    fn the_second_reading_differs_nowhere_and_every_answer_and_sort_comes() {
        let ran = run_on(LARGE, || {
            let comparison = compared(analyze_condition, 1000);
            assert!(!comparison.findings.differs());
            assert_eq!(comparison.findings.rare(comparison.images / RAREST), []);
            assert!(comparison.sorts.iter().all(|&count| count > 50));
            assert!(comparison.numbers.is_right(300));
            assert!(comparison.endless > 5 && comparison.any_bytes > 20);
        });
        assert!(ran.is_ok());
    }

    #[test]
    fn the_port_differs_nowhere_and_not_at_depth() {
        let differs = run_on(LARGE, || {
            let mut comparison = compared(port::analyze_condition, 1000);
            comparison.compare_deep();
            comparison.findings.differs()
        });
        assert!(differs.is_ok_and(|differs| !differs));
    }

    /// The answer with one record in place of another, of whatever name.
    fn with_other(
        question: Question,
        lists: [&mut [u8]; 2],
        analysis: &mut Analysis,
        [old, new]: [Record; 2],
    ) -> u32 {
        let [then_list, else_list] = lists;
        let answer = analyze_condition(question, then_list, else_list, analysis);
        let counts = [analysis.then_count, analysis.else_count];
        for (list, count) in [then_list, else_list].into_iter().zip(counts) {
            let (records, _) = list.as_chunks_mut();
            for record in records.iter_mut().take(count as usize) {
                let told = u32::from_be_bytes(*record);
                if answer == 0 && told & 0x3_ffff == old {
                    *record = (told - old + new).to_be_bytes();
                }
            }
        }
        answer
    }

    const INT: Record = records::record(0, sort::IS_TYPE, records::ty::INT);
    const FLOAT: Record = records::record(0, sort::IS_TYPE, records::ty::FLOAT);
    const NUMBER: Record = records::record(0, sort::IS_NUMBER, 0);

    /// Calls with one fault each.
    const WRONG: [(&str, AnalyzeCondition); 12] = [
        ("isInt a number", |question, thens, elses, analysis| {
            with_other(question, [thens, elses], analysis, [INT, NUMBER])
        }),
        ("isFloat a number", |question, thens, elses, analysis| {
            with_other(question, [thens, elses], analysis, [FLOAT, NUMBER])
        }),
        ("a number an integer", |question, thens, elses, analysis| {
            with_other(question, [thens, elses], analysis, [NUMBER, INT])
        }),
        ("a number a float", |question, thens, elses, analysis| {
            with_other(question, [thens, elses], analysis, [NUMBER, FLOAT])
        }),
        ("no budget", |question, then_list, else_list, analysis| {
            let budget = u32::MAX;
            let question = Question { budget, ..question };
            analyze_condition(question, then_list, else_list, analysis)
        }),
        ("9 before 8", |question, then_list, else_list, analysis| {
            let budget = u32::MAX;
            let unbounded = Question { budget, ..question };
            match analyze_condition(unbounded, then_list, else_list, analysis) {
                0 => analyze_condition(question, then_list, else_list, analysis),
                refusal => refusal,
            }
        }),
        (
            "8 before 7",
            |question, then_list, else_list, analysis| match question.budget {
                0 if second_reading::check(question.image) == 0 => {
                    then_list.fill(0);
                    else_list.fill(0);
                    *analysis = Analysis::default();
                    OVER_BUDGET
                }
                _ => analyze_condition(question, then_list, else_list, analysis),
            },
        ),
        ("a list left", |question, then_list, else_list, analysis| {
            let kept = else_list.to_vec();
            let answer = analyze_condition(question, then_list, else_list, analysis);
            if answer == TOO_SHORT {
                else_list.copy_from_slice(&kept);
            }
            answer
        }),
        (
            "bytes behind the answer",
            |question, then_list, else_list, analysis| {
                let answer = analyze_condition(question, then_list, else_list, analysis);
                if let (0, Some(last)) = (answer, then_list.last_mut()) {
                    *last = if *last == FRESH { 0 } else { *last };
                }
                answer
            },
        ),
        (
            "numbers of refused tables",
            |question, then_list, else_list, analysis| {
                *analysis = Analysis::default();
                analyze_condition(question, then_list, else_list, analysis)
            },
        ),
        (
            "counts exchanged",
            |question, then_list, else_list, analysis| {
                let answer = analyze_condition(question, then_list, else_list, analysis);
                let Analysis {
                    then_count,
                    else_count,
                    ..
                } = analysis;
                if answer == 0 {
                    std::mem::swap(then_count, else_count);
                }
                answer
            },
        ),
        (
            "lists exchanged",
            |question, then_list, else_list, analysis| {
                analyze_condition(question, else_list, then_list, analysis)
            },
        ),
    ];

    /// What was seen of trees in which `builtins` may be another set.
    fn compared_sets(call: AnalyzeCondition, images: usize) -> Comparison {
        let mut comparison = Comparison::new(call, DEFAULT.seed);
        while comparison.images < images && !comparison.findings.differs() {
            let tree = generate::own_builtins::tree(&mut comparison.random);
            comparison.compare_image(&tree, Texts::Utf8);
        }
        comparison
    }

    #[test]
    fn each_way_to_call_what_builtins_has_is_met() {
        let ran = run_on(LARGE, || {
            let comparison = compared_sets(analyze_condition, 1000);
            assert_eq!(comparison.met.rare(IN_CONDITIONS, 10), []);
            assert!(comparison.another_set[OWN] > 300 && comparison.another_set[ANY] > 200);
            assert!(comparison.met.parted > 1000);
        });
        assert!(ran.is_ok());
    }

    /// With last keys of one set and path read the other way round.
    fn last_key_turned<const SET: usize, const PATH: usize>(
        question: Question,
        then_list: &mut [u8],
        else_list: &mut [u8],
        analysis: &mut Analysis,
    ) -> u32 {
        let given = given_to(question);
        let image = &turned::image(question.image, &given, [SET, PATH, PREDICATE]);
        let question = Question { image, ..question };
        analyze_condition(question, then_list, else_list, analysis)
    }

    /// With callees of one set and use found where there are none, and not found where there are.
    fn callee_turned<const SET: usize, const USE: usize>(
        question: Question,
        then_list: &mut [u8],
        else_list: &mut [u8],
        analysis: &mut Analysis,
    ) -> u32 {
        let given = turned::tables(question.image, &given_to(question), [SET, ONE_KEY, USE]);
        let resolutions = &given.resolutions;
        let question = Question {
            resolutions,
            ..question
        };
        analyze_condition(question, then_list, else_list, analysis)
    }

    fn given_to(question: Question) -> Given {
        Given {
            resolutions: question.resolutions.to_vec(),
            bindings: question.bindings.to_vec(),
        }
    }

    /// Each path, `hasAttr` and an alias, by what the set is.
    const fn turned_round<const SET: usize>() -> [AnalyzeCondition; 5] {
        [
            last_key_turned::<SET, 0>,
            last_key_turned::<SET, 1>,
            last_key_turned::<SET, 2>,
            callee_turned::<SET, HAS_ATTR>,
            callee_turned::<SET, ALIAS>,
        ]
    }

    const TURNED: [[AnalyzeCondition; 5]; 5] = [
        turned_round::<0>(),
        turned_round::<1>(),
        turned_round::<2>(),
        turned_round::<3>(),
        turned_round::<4>(),
    ];

    #[test]
    fn each_decision_on_what_builtins_has_is_seen_where_it_is_turned_round() {
        for (set, calls) in TURNED.iter().enumerate() {
            for (place, &call) in calls.iter().enumerate() {
                let found = run_on(LARGE, move || compared_sets(call, 1000).findings.differs());
                assert!(found.unwrap_or(false), "set {set}, fault {place}");
            }
        }
    }

    /// What was seen of trees with arrows.
    fn compared_arrows(call: AnalyzeCondition, images: usize) -> Comparison {
        let mut comparison = Comparison::new(call, DEFAULT.seed);
        while comparison.images < images && !comparison.findings.differs() {
            let tree = generate::arrows::tree(&mut comparison.random);
            comparison.compare_image(&tree, Texts::Utf8);
        }
        comparison
    }

    #[test]
    fn arrows_are_met_everywhere_and_no_condition_is_left_out_in_vain() {
        let ran = run_on(LARGE, || {
            let comparison = compared_arrows(analyze_condition, 1000);
            assert!(!comparison.findings.differs());
            assert_eq!(comparison.arrows.rare(of_conditions, 10), [""; 0]);
            assert!(comparison.arrows.is_right(of_conditions, 1000));
        });
        assert!(ran.is_ok());
    }

    /// With arrows read in one of the wrong ways.
    fn arrow_turned<const WAY: usize>(
        question: Question,
        then_list: &mut [u8],
        else_list: &mut [u8],
        analysis: &mut Analysis,
    ) -> u32 {
        read_as(WRONG_ARROWS[WAY].1, || {
            analyze_condition(question, then_list, else_list, analysis)
        })
    }

    const ARROWS_TURNED: [AnalyzeCondition; WRONG_ARROWS.len()] = [
        arrow_turned::<0>,
        arrow_turned::<1>,
        arrow_turned::<2>,
        arrow_turned::<3>,
        arrow_turned::<4>,
        arrow_turned::<5>,
        arrow_turned::<6>,
        arrow_turned::<7>,
        arrow_turned::<8>,
    ];

    #[test]
    fn each_decision_on_arrows_is_seen_where_it_is_turned_round() {
        for (call, (fault, _)) in ARROWS_TURNED.into_iter().zip(WRONG_ARROWS) {
            let found = run_on(LARGE, move || {
                compared_arrows(call, 1000).findings.differs()
            });
            assert!(found.unwrap_or(false), "{fault}");
        }
    }

    #[test]
    fn each_fault_is_seen() {
        for (fault, call) in WRONG {
            let found = run_on(LARGE, move || compared(call, 100).findings.differs());
            assert!(found.unwrap_or(false), "{fault}");
        }
    }
}

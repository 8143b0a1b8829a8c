//! `needs`: what the port says before a call, beside what the original's run comes to and the second reading: what a
//! resolution and a walk need, and how deep an image is. And the calls themselves, lent exactly what they are said to
//! need, and of each a step or a byte less.

mod asking;
mod beside;

use super::extent::Extent;
use super::findings::{
    ANOTHER_SET, ANY, ARROWS, BYTES, BYTES_WITH_TABLES, DAMAGED, Family, Findings, NESTED, OWN,
    SHAPES, SHAPES_WITH_TABLES, beside_second, by_need, by_rule,
};
use super::report::{Report, Row};
use crate::arrows;
use crate::builtin_set;
use crate::generate::given::{self, table_breaks};
use crate::generate::{self, damage, grow::Texts, shapes, walks};
use crate::image::{MOST_NUMBERED, Tree};
use crate::port::refusal::{BROKEN_GIVEN, OVER_BUDGET, TOO_SHORT};
use crate::port::{
    self, NameDependencies, NameResolution, ResolutionCounts, Walk, WalkCounts, own_tables,
    walk_buffers,
};
use crate::random::Random;
use crate::second_reading::{self, dependency_steps, needs, resolution_need, resolution_steps};
use crate::tables::Given;
use asking::{Ask, Asking, Question, Run};
use beside::Sample;

pub const DEFAULT: Extent = Extent {
    count: 100_000,
    seed: 0x004e_ed50,
};
/// The original makes no longer runs: of a longer one the need is told by the second reading, of a walk up to the last of
/// these alone, and beyond only refusal 8 is asked.
const LONGEST_RESOLUTION: u64 = 200_000;
const LONGEST_WALK: u64 = 20_000;
const LONGEST_COUNTED_WALK: u64 = 2_000_000;
/// A run that writes more is not made.
const MOST_ROOM: usize = 1 << 26;
/// The original copies all narrowings in force at every guard, so memory grows by the square.
const DEEPEST_GUARDS: usize = 3000;
/// Tests and bindings of which the product, the recorded narrowings, takes more than 32 bits.
const CROWDED: [usize; 2] = [16, 17];
/// The last doubling whose steps a budget can say, and the first whose steps none can.
const DOUBLINGS: [usize; 2] = [31, 32];
/// So many of a hundred images are made for a `builtins` that may be another set, so many of the others for arrows, so many
/// of the others for the walk, so many of the rest have texts of any bytes, and so many of all are walked over any
/// well-formed tables too.
const OWN_BUILTINS: usize = 10;
const MADE_FOR_ARROWS: usize = 8;
const MADE_FOR_WALKS: usize = 25;
const ANY_BYTES: usize = 5;
const ANY_TABLES: usize = 40;
/// Each answer must come once in so many images, or they prove too little.
const RAREST: usize = 100;

const LARGE: Family = beside_second("too large or long for the original");
const BROKEN: Family = by_rule("tables that break their rule");
const FLIPPED: Family = beside_second("flipped copies and noise");
const LENT_ITS_NEED: Family = by_need("lent what it is said to need");

/// What the numbers hold before a call.
const FRESH_LEVELS: u32 = 0xa5a5_a5a5;
const FRESH_RESOLUTION: ResolutionCounts = ResolutionCounts {
    steps: 0xa5a5_a5a5,
    scopes: 0xa5a5_a5a6,
};
const FRESH_WALK: WalkCounts = WalkCounts {
    steps: 0xa5a5_a5a5,
    edges: 0xa5a5_a5a6,
    narrowings: 0xa5a5_a5a7,
    most: 0xa5a5_a5a8,
};

pub fn run(extent: Extent) -> Report {
    let mut comparison = Comparison::new(PORT, extent.seed);
    comparison.compare_deep();
    comparison.compare_large();
    while comparison.seen.images < extent.count {
        comparison.compare_next();
    }
    let rows = comparison.rows(extent.seed);
    Report::new(comparison.is_right(), rows)
}

/// The calls that are compared.
#[derive(Clone, Copy)]
struct Calls {
    levels: Ask<u32>,
    resolution_need: Ask<ResolutionCounts>,
    dependencies_need: Ask<WalkCounts>,
    name_resolution: NameResolution,
    name_dependencies: NameDependencies,
}

const PORT: Calls = Calls {
    levels: |image, _, _, levels| port::levels(image, levels),
    resolution_need: |image, _, budget, need| port::resolution_need(image, budget, need),
    dependencies_need: port::dependencies_need,
    name_resolution: port::name_resolution,
    name_dependencies: port::name_dependencies,
};

const SECOND: Calls = Calls {
    levels: |image, _, _, levels| needs::levels(image, levels),
    resolution_need: |image, _, budget, need| needs::resolution_need(image, budget, need),
    dependencies_need: needs::dependencies_need,
    name_resolution: second_reading::name_resolution,
    name_dependencies: second_reading::name_dependencies,
};

/// Where an image comes from.
#[derive(Clone, Copy, PartialEq, Eq)]
enum Source {
    Nested,
    Shapes,
    /// Texts that the original does not take.
    Bytes,
    /// What the original would take too long for.
    Large,
}

impl Source {
    /// How its levels are counted: the original has none.
    fn levels(self) -> Family {
        match self {
            Source::Nested => beside_second("nested 16,383 deep"),
            Source::Shapes => beside_second("trees of all shapes"),
            Source::Bytes => BYTES,
            Source::Large => LARGE,
        }
    }

    fn resolution(self) -> Family {
        match self {
            Source::Nested => NESTED,
            Source::Shapes => SHAPES,
            Source::Bytes => BYTES,
            Source::Large => LARGE,
        }
    }

    /// How its walks are counted; with another `builtins`, and where an arrow is analysed, the original is not asked.
    fn walk(self, tables: usize, is_meant: bool, has_arrow: bool) -> Family {
        match self {
            Source::Bytes => BYTES_WITH_TABLES[tables],
            Source::Large => LARGE,
            _ if !is_meant => ANOTHER_SET[tables],
            _ if has_arrow => ARROWS[tables],
            _ => SHAPES_WITH_TABLES[tables],
        }
    }

    fn has_original(self) -> bool {
        matches!(self, Source::Nested | Source::Shapes)
    }
}

/// What the needs came to.
#[derive(Default)]
struct Seen {
    images: usize,
    deepest: u32,
    /// Images whose resolution makes more than the root, and the most scopes that one makes.
    scoped: usize,
    most_scopes: usize,
    walks: usize,
    /// Walks in which a `builtins` is not the builtin set.
    another_set: usize,
    /// Other walks that analyse an arrow.
    with_arrow: usize,
    /// Walks with edges, with recorded narrowings, and the most of them in force at a point and recorded.
    with_edges: usize,
    narrowed: usize,
    most_in_force: usize,
    most_recorded: usize,
}

struct Comparison {
    calls: Calls,
    random: Random,
    levels: Asking<u32>,
    resolution: Asking<ResolutionCounts>,
    walk: Asking<WalkCounts>,
    /// The calls lent what they are said to need.
    resolved: Findings,
    walked: Findings,
    seen: Seen,
}

impl Comparison {
    fn new(calls: Calls, seed: u64) -> Self {
        let Calls {
            levels,
            resolution_need,
            dependencies_need,
            ..
        } = calls;
        let lent = &[1, 2, 3, 4, 5, 6, 7, 10, 11];
        Comparison {
            calls,
            random: Random::new(seed),
            levels: Asking::new(levels, SECOND.levels, FRESH_LEVELS, &[7, 8, 9]),
            resolution: Asking::new(
                resolution_need,
                SECOND.resolution_need,
                FRESH_RESOLUTION,
                &[7, 9],
            ),
            walk: Asking::new(
                dependencies_need,
                SECOND.dependencies_need,
                FRESH_WALK,
                &[9],
            ),
            resolved: Findings::new(lent),
            walked: Findings::new(lent),
            seen: Seen::default(),
        }
    }

    /// Chains of every nesting as deep as can be, and guards around each other.
    fn compare_deep(&mut self) {
        for nesting in &shapes::NESTINGS {
            self.compare(&nesting.chain(MOST_NUMBERED), Source::Nested);
        }
        self.compare(&shapes::conditional_calls(MOST_NUMBERED), Source::Nested);
        for guard in &shapes::GUARDS {
            self.compare(&guard.chain(DEEPEST_GUARDS), Source::Shapes);
        }
    }

    /// What the original would take too long for, or too much memory.
    fn compare_large(&mut self) {
        for guard in &shapes::GUARDS {
            self.compare(&guard.chain(MOST_NUMBERED), Source::Large);
        }
        for levels in DOUBLINGS {
            self.compare(&shapes::doubling(levels), Source::Large);
        }
        let [tests, bindings] = CROWDED;
        self.compare(&shapes::crowded(tests, bindings), Source::Large);
        self.compare(&shapes::doubling(MOST_NUMBERED - 1), Source::Large);
        self.compare(&shapes::largest(), Source::Large);
    }

    fn compare_next(&mut self) {
        let (tree, source) = self.next_tree();
        self.compare(&tree, source);
        let any = given::tables(&mut self.random, &tree);
        self.compare_broken(&tree, &any);
        self.compare_turned_back(&tree, &any);
    }

    fn next_tree(&mut self) -> (Tree, Source) {
        if self.random.chance(OWN_BUILTINS) {
            let tree = generate::own_builtins::tree(&mut self.random);
            return (tree, Source::Shapes);
        }
        if self.random.chance(MADE_FOR_ARROWS) {
            let tree = generate::arrows::tree(&mut self.random);
            return (tree, Source::Shapes);
        }
        if self.random.chance(MADE_FOR_WALKS) {
            return (walks::stretched_tree(&mut self.random), Source::Shapes);
        }
        if self.random.chance(ANY_BYTES) {
            let tree = generate::tree(&mut self.random, Texts::Bytes);
            return (tree, Source::Bytes);
        }
        let tree = generate::tree(&mut self.random, Texts::Utf8);
        (tree, Source::Shapes)
    }

    fn compare(&mut self, tree: &Tree, source: Source) {
        let image = tree.encode();
        self.seen.images += 1;
        let nothing = Given::empty(0, 0);
        let question = Question::new(&image, &nothing);
        self.compare_levels(&question, source);
        self.compare_resolution(tree, &question, source);
        let any = given::tables(&mut self.random, tree);
        if is_resolved(&image) {
            let own = own_tables(&image);
            self.compare_walk(tree, &Question::new(&image, &own), source, OWN);
        }
        if self.random.chance(ANY_TABLES) || source == Source::Large {
            self.compare_walk(tree, &Question::new(&image, &any), source, ANY);
        }
    }

    fn compare_levels(&mut self, question: &Question, source: Source) {
        self.levels.findings.enter(source.levels());
        self.levels.ask_beside_second(question, 0);
        let mut levels = 0;
        (self.calls.levels)(question.image, question.given, 0, &mut levels);
        self.seen.deepest = self.seen.deepest.max(levels);
    }

    /// The need takes time by the image alone, so it is asked of runs of any length.
    fn compare_resolution(&mut self, tree: &Tree, question: &Question, source: Source) {
        let steps = resolution_steps(question.image);
        let is_long = steps > LONGEST_RESOLUTION;
        let source = if is_long { Source::Large } else { source };
        self.resolution.findings.enter(source.resolution());
        let need = beside::resolution(sample(tree, question, source));
        let budgets = self.budgets(steps);
        let numbers = need;
        let run = Run { steps, numbers };
        self.resolution.ask_run(question, run, &budgets);
        self.seen.scoped += usize::from(need.scopes > 1);
        self.seen.most_scopes = self.seen.most_scopes.max(need.scopes);
        if is_resolved(question.image) {
            self.resolve(tree, question);
        }
    }

    /// The steps, one more and one less, none, all and any, as far as a budget can say them.
    fn budgets(&mut self, steps: u64) -> Vec<u32> {
        let any = self
            .random
            .below(2 * steps.min(LONGEST_RESOLUTION) as usize);
        let around = [0, any as u64, steps - 1, steps, steps.saturating_add(1)];
        let around = around
            .into_iter()
            .filter_map(|budget| budget.try_into().ok());
        around.chain([u32::MAX]).collect()
    }

    fn compare_walk(&mut self, tree: &Tree, question: &Question, source: Source, tables: usize) {
        let steps = dependency_steps(question.image, question.given);
        if steps > LONGEST_COUNTED_WALK {
            return self.compare_endless(question);
        }
        let source = match steps > LONGEST_WALK {
            true => Source::Large,
            false => source,
        };
        let is_meant = builtin_set::is_meant(tree, question.given);
        let has_arrow = arrows::in_walk(tree);
        let family = source.walk(tables, is_meant, has_arrow);
        self.walk.findings.enter(family);
        self.seen.another_set += usize::from(!is_meant);
        self.seen.with_arrow += usize::from(is_meant && has_arrow);
        let mut sample = sample(tree, question, source);
        sample.original = sample.original.filter(|_| is_meant && !has_arrow);
        let need = beside::dependencies(sample, question.given);
        let budgets = self.budgets(steps);
        let numbers = need;
        self.walk
            .ask_run(question, Run { steps, numbers }, &budgets);
        self.see_walk(need);
        self.walk_over(tree, question);
    }

    /// A walk that goes on longer than any of these budgets allow.
    fn compare_endless(&mut self, question: &Question) {
        self.walk.findings.enter(LARGE);
        for most in [0, 1000, LONGEST_WALK] {
            let budget = self.random.below(most as usize + 1) as u32;
            self.walk.ask_beside_second(question, budget);
        }
    }

    fn see_walk(&mut self, need: WalkCounts) {
        let seen = &mut self.seen;
        seen.walks += 1;
        seen.with_edges += usize::from(need.edges > 0);
        seen.narrowed += usize::from(need.narrowings > 0);
        seen.most_in_force = seen.most_in_force.max(need.most);
        seen.most_recorded = seen.most_recorded.max(need.narrowings);
    }

    fn compare_broken(&mut self, tree: &Tree, given: &Given) {
        let tried = self.random.pick(table_breaks());
        let Some((broken, _)) = tried.make(&mut self.random, tree, given, 0) else {
            return;
        };
        let image = tree.encode();
        let budget = *self.random.pick(&[0, 1, u32::MAX]);
        self.walk.findings.enter(BROKEN);
        let question = Question::new(&image, &broken);
        self.walk.ask_refused(&question, budget, BROKEN_GIVEN);
    }

    /// A damaged image, one with a bit turned, and noise, with tables of the image that they come from.
    fn compare_turned_back(&mut self, tree: &Tree, given: &Given) {
        if let Some((refusal, image)) = damage::refused(&mut self.random, tree) {
            let question = Question::new(&image, given);
            let budget = *self.random.pick(&[0, 1, u32::MAX]);
            self.enter_all(DAMAGED);
            self.levels.ask_refused(&question, 0, refusal);
            self.resolution.ask_refused(&question, budget, refusal);
            self.walk.ask_refused(&question, budget, refusal);
        }
        let flipped = damage::flip(&mut self.random, &tree.encode());
        for image in [flipped, damage::noise(&mut self.random)] {
            let question = Question::new(&image, given);
            // Some are accepted, and a walk over one of them may be endless.
            let budget = self.random.below(LONGEST_WALK as usize) as u32;
            self.enter_all(FLIPPED);
            self.levels.ask_beside_second(&question, 0);
            self.resolution.ask_beside_second(&question, budget);
            self.walk.ask_beside_second(&question, budget);
        }
    }

    fn enter_all(&mut self, family: Family) {
        self.levels.findings.enter(family);
        self.resolution.findings.enter(family);
        self.walk.findings.enter(family);
    }

    /// The resolution with what the port says that it needs, a step less, and a byte less.
    fn resolve(&mut self, tree: &Tree, question: &Question) {
        let mut need = ResolutionCounts::default();
        (self.calls.resolution_need)(question.image, question.given, u32::MAX, &mut need);
        let exprs = tree.exprs.len();
        let (steps, working) = (need.steps, 4 * exprs + 8 * need.scopes);
        self.resolved.enter(LENT_ITS_NEED);
        for (budget, room, expected) in [
            (steps, working, 0),
            (steps.saturating_sub(1), working, OVER_BUDGET),
            (steps, working - 1, TOO_SHORT),
        ] {
            let (mut table, mut working) = (vec![0; 2 * exprs], vec![0; room]);
            let mut taken = 0;
            let call = self.calls.name_resolution;
            let answer = call(question.image, budget, &mut table, &mut working, &mut taken);
            let right = if expected == 0 { steps } else { 0 };
            let parts = [("steps", taken == right)];
            let describe = || question.describe(budget, &format!(", {room} working bytes"));
            let answers = [expected, answer];
            self.resolved.add(question.image, answers, &parts, describe);
        }
    }

    /// The walk with what the port says that it needs, a step less, and a byte less of each buffer that has any.
    fn walk_over(&mut self, tree: &Tree, question: &Question) {
        let mut need = WalkCounts::default();
        (self.calls.dependencies_need)(question.image, question.given, u32::MAX, &mut need);
        let names = tree.names.len();
        let rooms = [
            4 * need.edges,
            8 * need.narrowings,
            2 * names,
            4 * need.most,
        ];
        if rooms.iter().any(|&room| room > MOST_ROOM) {
            return;
        }
        self.walked.enter(LENT_ITS_NEED);
        let walk = Walk {
            steps: need.steps,
            edge_count: need.edges as u32,
            narrowing_count: need.narrowings as u32,
        };
        self.walk_with(question, need.steps, rooms, (0, walk));
        let fewer = need.steps.saturating_sub(1);
        self.walk_with(question, fewer, rooms, (OVER_BUDGET, Walk::default()));
        for place in (0..4).filter(|&place| rooms[place] > 0) {
            let mut short = rooms;
            short[place] -= 1;
            let expected = (TOO_SHORT, Walk::default());
            self.walk_with(question, need.steps, short, expected);
        }
    }

    fn walk_with(
        &mut self,
        question: &Question,
        budget: u32,
        rooms: [usize; 4],
        (expected, numbers): (u32, Walk),
    ) {
        let mut lent = rooms.map(|room| vec![0; room]);
        let buffers = walk_buffers(lent.each_mut().map(Vec::as_mut_slice));
        let mut walk = Walk::default();
        let (image, given) = (question.image, question.given);
        let answer = (self.calls.name_dependencies)(image, given, budget, buffers, &mut walk);
        let parts = [("numbers", walk == numbers)];
        let describe = || question.describe(budget, &format!(", buffers of {rooms:?} bytes"));
        self.walked.add(image, [expected, answer], &parts, describe);
    }

    fn rows(&self, seed: u64) -> Vec<Row> {
        self.all()
            .map(|(call, findings)| findings.rows(call, seed))
            .concat()
    }

    /// What is found, by call.
    fn all(&self) -> [(&'static str, &Findings); 5] {
        [
            ("`compute_levels`", &self.levels.findings),
            ("`resolution_need`", &self.resolution.findings),
            ("`dependencies_need`", &self.walk.findings),
            ("`compute_name_resolution`", &self.resolved),
            ("`name_dependencies`", &self.walked),
        ]
    }

    /// Says what was seen, and whether all of it is right.
    fn is_right(&self) -> bool {
        let fewest = self.seen.images / RAREST;
        self.seen.print();
        let mut is_right = self.seen.is_enough(fewest);
        for (call, findings) in self.all() {
            match findings.refusals(fewest) {
                Some(refusals) => {
                    let answers = findings.answers()[0];
                    println!(
                        "{call}: no difference in {answers} answers and the refusals {refusals}"
                    );
                }
                None => {
                    println!("FAILED: {call}");
                    is_right = false;
                }
            }
        }
        is_right
    }
}

/// Whether the resolution can be run: it takes time by the image alone, but memory by its scopes.
fn is_resolved(image: &[u8]) -> bool {
    resolution_steps(image) <= u32::MAX.into() && resolution_need(image) <= MOST_ROOM as u64
}

/// What the need of a run is taken from.
fn sample<'a>(tree: &'a Tree, question: &Question<'a>, source: Source) -> Sample<'a> {
    Sample {
        image: question.image,
        original: Some(tree).filter(|_| source.has_original()),
    }
}

impl Seen {
    fn print(&self) {
        println!(
            "{} images, at most {} levels deep; {} whose resolution makes scopes, at most {}",
            self.images, self.deepest, self.scoped, self.most_scopes
        );
        println!(
            "{} walks, {} with another `builtins`, {} others with an arrow, {} with edges, {} with recorded narrowings, at \
             most {}, and at most {} in force",
            self.walks,
            self.another_set,
            self.with_arrow,
            self.with_edges,
            self.narrowed,
            self.most_recorded,
            self.most_in_force
        );
    }

    /// Whether enough of the needs are not the least that they can be.
    fn is_enough(&self, fewest: usize) -> bool {
        let counts = [
            self.scoped,
            self.with_edges,
            self.narrowed,
            self.another_set,
            self.with_arrow,
        ];
        let is_enough = counts.iter().all(|&count| count >= fewest);
        if !is_enough {
            println!("FAILED: too few scopes, edges, narrowings, another `builtins` or arrows");
        }
        is_enough
    }
}

#[cfg(test)]
mod tests;

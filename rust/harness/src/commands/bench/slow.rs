//! The slow images: each call's time over that of the check of its image, and over the original's. A call cannot be
//! stopped, so each side is first tried once in a process of its own, which is ended where it takes too long.

use std::cell::RefCell;
use std::hint::black_box;
use std::io::Read;
use std::process::{Child, Command, Stdio};
use std::thread::sleep;
use std::time::{Duration, Instant};

use lang_ast::image::WalkNeed;

use super::rounds;
use crate::commands::report::grouped;
use crate::commands::{DONE, FAILED, usage};
use crate::generate::slow::{BOUNDED_BYTES, Family};
use crate::image::Tree;
#[cfg(original)]
use crate::original::lang_ast::nameres::{ModuleScopes, NameDependencies, compute_name_resolution};
#[cfg(original)]
use crate::original::passes::{Subject, Tables};
use crate::port::{self, Analysis, Question, Walk, own_tables, walk_buffers};
use crate::second_reading::{
    condition_steps, dependency_need, dependency_steps, resolution_need, resolution_steps,
};

/// How long a side may take for one call, the building of its image included.
const LIMIT: Duration = Duration::from_secs(5);
/// A side that takes longer is not measured by turns: its one call stands.
const SOON: Duration = Duration::from_millis(250);
const POLL: Duration = Duration::from_millis(2);
/// The budget where no run ends: that of the program survey.
const SMALL_BUDGET: u32 = 65_535;
/// Room for so many scopes is lent at most.
const MOST_SCOPES: u64 = 1 << 21;

#[derive(Clone, Copy, PartialEq, Eq)]
enum Call {
    Resolution,
    Condition,
    Walk,
}

impl Call {
    fn name(self) -> &'static str {
        match self {
            Call::Resolution => "resolution",
            Call::Condition => "condition",
            Call::Walk => "walk",
        }
    }
}

#[derive(Clone, Copy)]
enum Size {
    Bytes(usize),
    Count(usize),
}

struct Row {
    call: Call,
    family: &'static str,
    size: Size,
}

const fn bounded(family: &'static str) -> Row {
    Row {
        call: Call::Resolution,
        family,
        size: Size::Bytes(BOUNDED_BYTES),
    }
}

const fn counted(call: Call, family: &'static str, count: usize) -> Row {
    let size = Size::Count(count);
    Row { call, family, size }
}

const ROWS: [Row; 56] = [
    bounded("one name, last byte"),
    bounded("one name, first byte"),
    bounded("long names, last byte"),
    bounded("long names, first byte"),
    bounded("long names, a byte"),
    bounded("wide scope"),
    counted(Call::Resolution, "wide scope", 8_000),
    counted(Call::Resolution, "wide scope", 16_000),
    bounded("wide scope, beginnings"),
    counted(Call::Resolution, "wide scope, beginnings", 8_000),
    bounded("wide scope, ends"),
    counted(Call::Resolution, "wide scope, ends", 8_000),
    bounded("wide scope, a byte"),
    bounded("wide scope, last 8 bytes"),
    counted(Call::Resolution, "wide scope, last 8 bytes", 8_000),
    counted(Call::Resolution, "wide scope, last 8 bytes", 16_000),
    bounded("wide scope, sums"),
    counted(Call::Resolution, "wide scope, sums", 8_000),
    counted(Call::Resolution, "wide scope, sums", 16_000),
    bounded("keys, 40 in common"),
    counted(Call::Resolution, "keys, 40 in common", 8_000),
    bounded("keys of one hash, 40 in common"),
    counted(Call::Resolution, "keys of one hash, 40 in common", 8_000),
    bounded("keys twice, 40 in common"),
    bounded("keys, 400 in common"),
    counted(Call::Resolution, "keys, 400 in common", 2_500),
    bounded("keys of one hash, 400 in common"),
    counted(Call::Resolution, "keys of one hash, 400 in common", 2_500),
    bounded("keys twice, 400 in common"),
    bounded("keys, 4,000 in common"),
    counted(Call::Resolution, "keys, 4,000 in common", 260),
    bounded("keys of one hash, 4,000 in common"),
    counted(Call::Resolution, "keys of one hash, 4,000 in common", 260),
    bounded("keys twice, 4,000 in common"),
    bounded("scopes, outermost"),
    counted(Call::Resolution, "scopes, outermost", 8_000),
    bounded("scopes, each its own"),
    counted(Call::Resolution, "scopes, each its own", 8_000),
    bounded("pattern, 2^60 visits"),
    bounded("set, 2^60 visits"),
    counted(Call::Resolution, "pattern, 2^20 visits", 1_000),
    counted(Call::Resolution, "set, 2^20 visits", 1_000),
    bounded("falling names"),
    counted(Call::Resolution, "falling names", 16_000),
    bounded("full chains"),
    bounded("long texts, one bucket"),
    bounded("long texts, sorted"),
    bounded("long texts, many names"),
    counted(Call::Condition, "condition of 2^17 nodes", 1_000),
    counted(Call::Walk, "condition of 2^17 nodes", 1_000),
    counted(Call::Walk, "guard of 2^17 nodes", 1_000),
    counted(Call::Walk, "pattern, walked 2^10 times", 16_000),
    counted(Call::Walk, "set, walked 2^10 times", 16_000),
    counted(Call::Walk, "pattern, walked 2^14 times", 16_000),
    counted(Call::Walk, "set, walked 2^14 times", 16_000),
    counted(Call::Walk, "scopes, each its own", 8_000),
];

pub fn run() {
    println!(
        "slow images: time of a call over that of the check of its image, which is part of it, and over the original's; \
         the least times, and no more than {} s for one call",
        LIMIT.as_secs()
    );
    println!("| image | bytes | call | check | call over check | original over check | ratio |");
    println!("|---|---|---|---|---|---|---|");
    for row in &ROWS {
        println!("{}", row.line());
    }
    println!("bytes that rust/lang_ast lends to the walk, and that the run needs");
    for row in ROWS.iter().filter(|row| row.call == Call::Walk) {
        let [lent, need] = walk_room(&row.tree().encode()).map(|bytes| grouped(bytes as usize));
        println!("{}: {lent}, {need}", row.title());
    }
}

/// What the safe call lends to a walk, and what the run needs by the second reading.
fn walk_room(image: &[u8]) -> [u64; 2] {
    let lent = safe_need(image).expect("an accepted image whose run ends");
    let need = dependency_need(image, &own_tables(image));
    [lent.bytes() as u64, need.iter().sum()]
}

fn safe_need(image: &[u8]) -> Result<WalkNeed, lang_ast::Error> {
    let image = lang_ast::Image::check(image)?;
    let (resolution, indices) = (image.name_resolution(u32::MAX)?, image.module_indices()?);
    image.dependencies_need(&resolution, &indices, u32::MAX)
}

/// One call of one side of a row: prints its nanoseconds.
pub fn probe(call: &str, title: &str, side: &str) -> u8 {
    let is_asked = |row: &&Row| (row.call.name(), row.title().as_str()) == (call, title);
    let row = ROWS.iter().find(is_asked);
    let side = SIDES.into_iter().find(|known| known.name() == side);
    let (Some(row), Some(side)) = (row, side) else {
        return usage();
    };
    let tree = row.tree();
    let image = tree.encode();
    let Some(run) = row.side(side, &tree, &image) else {
        return FAILED;
    };
    let start = Instant::now();
    black_box(run());
    println!("{}", start.elapsed().as_nanos());
    DONE
}

#[derive(Clone, Copy, PartialEq, Eq)]
enum Side {
    Port,
    Original,
}

const SIDES: [Side; 2] = [Side::Port, Side::Original];

impl Side {
    fn name(self) -> &'static str {
        match self {
            Side::Port => "port",
            Side::Original => "original",
        }
    }
}

/// What came of one call.
#[derive(Clone, Copy, Debug, PartialEq)]
enum Outcome {
    Nanos(f64),
    OverLimit,
    /// The original has no budget, or is not at hand.
    LeftOut,
}

impl Outcome {
    fn is_soon(self) -> bool {
        matches!(self, Outcome::Nanos(nanos) if nanos <= SOON.as_nanos() as f64)
    }

    /// It over a time, as a table has it.
    fn over(self, time: f64) -> String {
        match self {
            Outcome::Nanos(nanos) => short(nanos / time),
            Outcome::OverLimit => format!("over {}", short(limit() / time)),
            Outcome::LeftOut => "left out".to_string(),
        }
    }
}

fn limit() -> f64 {
    LIMIT.as_nanos() as f64
}

/// The first over the second, as far as it is known.
fn ratio(port: Outcome, original: Outcome) -> String {
    match (port, original) {
        (_, Outcome::Nanos(nanos)) => port.over(nanos),
        (Outcome::Nanos(nanos), Outcome::OverLimit) => format!("below {}", short(nanos / limit())),
        _ => String::new(),
    }
}

/// A ratio in some three digits.
fn short(ratio: f64) -> String {
    match ratio {
        ..1.0 => format!("{ratio:.3}"),
        1.0..100.0 => format!("{ratio:.1}"),
        _ => grouped(ratio.round() as usize),
    }
}

type Run<'a> = Box<dyn Fn() -> u32 + 'a>;

impl Row {
    fn title(&self) -> String {
        let size = match self.size {
            Size::Bytes(bytes) => format!("{} KiB", bytes >> 10),
            Size::Count(count) => grouped(count),
        };
        format!("{}, {size}", self.family)
    }

    fn tree(&self) -> Tree {
        let family = Family::of(self.family).expect("a row is of a family");
        match self.size {
            Size::Bytes(bytes) => family.within(bytes),
            Size::Count(count) => family.tree(count),
        }
    }

    fn steps(&self, image: &[u8], entry: u32) -> u64 {
        match self.call {
            Call::Resolution => resolution_steps(image),
            Call::Condition => condition_steps(image)[entry as usize],
            Call::Walk => dependency_steps(image, &own_tables(image)),
        }
    }

    fn side<'a>(&self, side: Side, tree: &'a Tree, image: &'a [u8]) -> Option<Run<'a>> {
        let steps = self.steps(image, tree.entry);
        if side == Side::Original {
            let ends = steps <= u32::MAX.into();
            return if ends {
                self.original(tree, image)
            } else {
                None
            };
        }
        let budget = u32::try_from(steps).map_or(SMALL_BUDGET, |_| u32::MAX);
        Some(match self.call {
            Call::Resolution => resolution(image, tree.exprs.len(), budget),
            Call::Condition => condition(image, tree.entry, budget),
            Call::Walk => walk(image, budget),
        })
    }

    #[cfg(original)]
    fn original<'a>(&self, tree: &'a Tree, image: &'a [u8]) -> Option<Run<'a>> {
        let subject = Subject::new(tree);
        if self.call == Call::Resolution {
            return Some(Box::new(move || {
                let module = black_box(&subject.module);
                let scopes = ModuleScopes::new(module);
                black_box(compute_name_resolution(module, &scopes));
                0
            }));
        }
        let (tables, entry) = (Tables::given(&own_tables(image)), tree.entry);
        Some(match self.call {
            Call::Walk => Box::new(move || {
                let module = black_box(&subject.module);
                let walked = NameDependencies::new(module, &tables.resolutions, &tables.bindings);
                black_box(walked).edges.len() as u32
            }),
            _ => Box::new(move || {
                let info = subject.narrow(black_box(&tables), entry);
                info.then_branch.len() as u32
            }),
        })
    }

    #[cfg(not(original))]
    fn original<'a>(&self, _: &'a Tree, _: &'a [u8]) -> Option<Run<'a>> {
        None
    }

    fn line(&self) -> String {
        let tree = self.tree();
        let image = tree.encode();
        let tried = SIDES.map(|side| self.tried(side));
        let (check, [port, original]) = self.measured(tried, &tree, &image);
        let call = self.call.name();
        format!(
            "| {} | {} | {call} | {} µs | {} | {} | {} |",
            self.title(),
            grouped(image.len()),
            short(check / 1e3),
            port.over(check),
            original.over(check),
            ratio(port, original)
        )
    }

    /// One call in a process of its own.
    fn tried(&self, side: Side) -> Outcome {
        let program = std::env::current_exe().expect("the path of this program");
        let mut probe = Command::new(program);
        probe.args([
            "bench",
            "slow",
            self.call.name(),
            &self.title(),
            side.name(),
        ]);
        let child = probe.stdout(Stdio::piped()).spawn();
        outcome(child.expect("a process that tries"), LIMIT)
    }

    /// The check's time and each side's: by turns for those that end soon, as tried for the others.
    fn measured(&self, tried: [Outcome; 2], tree: &Tree, image: &[u8]) -> (f64, [Outcome; 2]) {
        let sides = [0, 1].map(|side| {
            let run = tried[side]
                .is_soon()
                .then(|| self.side(SIDES[side], tree, image));
            run.flatten().unwrap_or_else(|| Box::new(|| 0))
        });
        let check = || port::check(black_box(image));
        let rounds = rounds([&check, &*sides[0], &*sides[1]]);
        // The least: one call may take longer than a time slice of a loaded machine.
        let column = |side: usize| {
            rounds
                .iter()
                .map(|round| round[side])
                .fold(f64::MAX, f64::min)
        };
        let times = [0, 1].map(|side| match tried[side] {
            outcome if outcome.is_soon() => Outcome::Nanos(column(side + 1)),
            outcome => outcome,
        });
        (column(0), times)
    }
}

/// What the process prints, or that it took too long, and then it is ended.
fn outcome(mut child: Child, limit: Duration) -> Outcome {
    let start = Instant::now();
    while start.elapsed() < limit {
        match child.try_wait().expect("a process of this one") {
            Some(_) => return printed(&mut child),
            None => sleep(POLL),
        }
    }
    child.kill().expect("a process of this one");
    child.wait().expect("a process of this one");
    Outcome::OverLimit
}

fn printed(child: &mut Child) -> Outcome {
    let mut text = String::new();
    let stdout = child.stdout.as_mut().expect("its output is read here");
    stdout.read_to_string(&mut text).expect("a number");
    let nanos = text.trim().parse();
    nanos.map_or(Outcome::LeftOut, Outcome::Nanos)
}

fn resolution(image: &[u8], exprs: usize, budget: u32) -> Run<'_> {
    let most = 4 * exprs as u64 + 8 * MOST_SCOPES;
    let need = resolution_need(image).min(most) as usize;
    let lent = RefCell::new((vec![0; 2 * exprs], vec![0; need]));
    Box::new(move || {
        let (table, working) = &mut *lent.borrow_mut();
        port::name_resolution(black_box(image), budget, table, working, &mut 0)
    })
}

/// The condition of such a row tells nothing, so that no list needs room.
fn condition(image: &[u8], entry: u32, budget: u32) -> Run<'_> {
    let given = own_tables(image);
    Box::new(move || {
        let question = Question::new(black_box(image), &given, entry, budget);
        port::analyze_condition(question, &mut [], &mut [], &mut Analysis::default())
    })
}

fn walk(image: &[u8], budget: u32) -> Run<'_> {
    let given = own_tables(image);
    let needs = dependency_need(image, &given);
    let lent = RefCell::new(needs.map(|need| vec![0; need as usize]));
    Box::new(move || {
        let mut lent = lent.borrow_mut();
        let buffers = walk_buffers(lent.each_mut().map(Vec::as_mut_slice));
        let image = black_box(image);
        port::name_dependencies(image, &given, budget, buffers, &mut Walk::default())
    })
}

#[cfg(test)]
mod tests {
    use super::*;
    use crate::commands::BAD_USAGE;
    use crate::second_reading::check;

    #[test]
    fn every_row_is_accepted_and_has_its_title_alone_among_those_of_its_call() {
        for (number, row) in ROWS.iter().enumerate() {
            let title = row.title();
            let is_same = |other: &Row| other.call == row.call && other.title() == title;
            let found = ROWS.iter().position(is_same);
            assert_eq!(found, Some(number), "{title}");
            assert_eq!(check(&row.tree().encode()), 0, "{title}");
        }
        let title = ROWS[0].title();
        assert_eq!(probe("walk", &title, "port"), BAD_USAGE);
        assert_eq!(probe("resolution", "nothing", "port"), BAD_USAGE);
        assert_eq!(probe("resolution", &title, "nothing"), BAD_USAGE);
    }

    #[test]
    fn a_small_row_of_every_family_is_answered() {
        for row in &ROWS {
            let size = Size::Count(10);
            let row = Row { size, ..*row };
            let tree = row.tree();
            let image = tree.encode();
            let answer = row.side(Side::Port, &tree, &image).expect("the port")();
            let ends = row.steps(&image, tree.entry) <= u32::MAX.into();
            let expected = if ends { 0 } else { port::refusal::OVER_BUDGET };
            assert_eq!(answer, expected, "{}", row.title());
            let original = row.side(Side::Original, &tree, &image);
            assert_eq!(
                original.is_some(),
                ends && cfg!(original),
                "{}",
                row.title()
            );
        }
    }

    fn process(program: &str, words: &[&str]) -> Child {
        let mut command = Command::new(program);
        let child = command.args(words).stdout(Stdio::piped()).spawn();
        child.expect("a usual program")
    }

    #[test]
    fn what_takes_too_long_is_ended_and_said() {
        let start = Instant::now();
        let slow = outcome(process("sleep", &["30"]), Duration::from_millis(50));
        assert_eq!(slow, Outcome::OverLimit);
        assert!(start.elapsed() < Duration::from_secs(20));
        let soon = outcome(process("echo", &["12"]), LIMIT);
        assert_eq!(soon, Outcome::Nanos(12.0));
        assert_eq!(outcome(process("echo", &["x"]), LIMIT), Outcome::LeftOut);
    }

    #[test]
    fn a_walk_is_lent_what_it_needs() {
        for row in ROWS.iter().filter(|row| row.call == Call::Walk) {
            let row = Row {
                size: Size::Count(100),
                ..*row
            };
            let [lent, need] = walk_room(&row.tree().encode());
            assert_eq!(lent, need, "{}", row.title());
        }
        let guard = Family::of("guard of 2^17 nodes").expect("a family");
        let [lent, _] = walk_room(&guard.tree(1_000).encode());
        assert_eq!(lent, 2);
    }

    #[test]
    fn a_ratio_says_as_much_as_is_known() {
        let [one, two] = [1e9, 2e9].map(Outcome::Nanos);
        assert_eq!(ratio(one, two), "0.500");
        assert_eq!(ratio(Outcome::OverLimit, two), "over 2.5");
        assert_eq!(ratio(one, Outcome::OverLimit), "below 0.200");
        assert_eq!(ratio(one, Outcome::LeftOut), "");
        assert_eq!(Outcome::OverLimit.over(1e6), "over 5,000");
        assert_eq!(
            [12.34, 0.1234, 1234.5].map(short),
            ["12.3", "0.123", "1,235"]
        );
    }
}

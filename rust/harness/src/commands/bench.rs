//! `bench`: the port's time over the second reading's or the original's, measured by turns in one run.

#[cfg(original)]
mod beside_original;
#[cfg(original)]
mod conditions;
#[cfg(original)]
mod dependencies;
pub mod slow;
mod texts;

use std::fs;
use std::hint::black_box;
use std::time::{Duration, Instant};

use super::DONE;
use crate::generate::{guards, shapes, small};
use crate::image::{MOST_NUMBERED, Tree};
use crate::notation::survey_case;
use crate::random::Random;
use crate::{port, second_reading};

const ROUNDS: usize = 201;
/// A case that takes longer than this has fewer rounds, but never fewer than these.
const CASE_TIME: Duration = Duration::from_secs(2);
const FEWEST_ROUNDS: usize = 5;
/// How long one side of a round runs: so long that the clock's own cost does not count, and well below the time slices of a
/// loaded machine, so that other work falls into a few rounds and not by turns into one side of each.
const ROUND_TIME: Duration = Duration::from_micros(250);

/// The parts of the benchmark, by the call that each times.
const PARTS: &[(&str, fn())] = &[
    ("check", check),
    #[cfg(original)]
    ("indices", beside_original::indices),
    #[cfg(original)]
    ("resolution", beside_original::resolution),
    #[cfg(original)]
    ("conditions", conditions::run),
    #[cfg(original)]
    ("dependencies", dependencies::run),
    ("texts", texts::run),
    ("slow", slow::run),
];

/// Runs the parts with this name, all of them without one; none where there is no such part.
pub fn run(name: Option<&str>) -> Option<u8> {
    let parts = || {
        PARTS
            .iter()
            .filter(|part| name.is_none_or(|name| part.0 == name))
    };
    parts().next()?;
    println!("{}", processor());
    println!("medians of {ROUNDS} rounds, of fewer where a round takes long");
    parts().for_each(|part| part.1());
    Some(DONE)
}

/// The budget that README.md starts with: 4 steps an expression.
#[cfg(original)]
fn budget(tree: &Tree) -> u32 {
    4 * tree.exprs.len() as u32
}

/// What Linux says of the processor: docs/PERFORMANCE.md names it beside figures.
fn processor() -> String {
    let cpuinfo = fs::read_to_string("/proc/cpuinfo").unwrap_or_default();
    let fields = || cpuinfo.lines().filter_map(|line| line.split_once(':'));
    let field = |name: &str| {
        let mut named = fields().filter(|(key, _)| key.trim() == name);
        named.next().map_or("unknown", |(_, value)| value.trim())
    };
    let cores = fields()
        .filter(|(key, _)| key.trim() == "processor")
        .count();
    let [name, family, model] = ["model name", "cpu family", "model"].map(field);
    format!("{name}, family {family}, model {model}; {cores} processors")
}

fn check() {
    println!("check: time of the port over time of the second reading");
    for (name, tree) in cases() {
        let image = tree.encode();
        let measured = measure(
            || port::check(black_box(&image)),
            || second_reading::check(black_box(&image)),
        );
        println!("{}", measured.line(&name, image.len()));
    }
}

fn cases() -> Vec<(String, Tree)> {
    let mut random = Random::new(1);
    let mut cases = vec![
        ("smallest".to_string(), small::missing()),
        ("printed case".to_string(), survey_case()),
    ];
    for size in [30, 100, 300, 1000, 3000] {
        let tree = guards::tree(&mut random, size);
        cases.push((format!("program, {} exprs", tree.exprs.len()), tree));
    }
    for name in ["list", "apply, function", "let, value", "if, else"] {
        let nesting = shapes::NESTINGS.iter().find(|nesting| nesting.name == name);
        let chain = nesting.map(|nesting| nesting.chain(MOST_NUMBERED));
        cases.extend(chain.map(|tree| (format!("deep, {name}"), tree)));
    }
    cases.push(("wide set".to_string(), shapes::wide(&mut random, 8000)));
    cases.push(("wide pattern".to_string(), shapes::wide_pattern(8000)));
    cases.push(("long texts".to_string(), shapes::long_texts(250)));
    cases.push(("largest".to_string(), shapes::largest()));
    cases
}

/// Medians over the rounds: the ratio, and the nanoseconds of each side.
struct Measured {
    ratio: f64,
    first: f64,
    second: f64,
}

impl Measured {
    fn line(&self, name: &str, bytes: usize) -> String {
        let (first, second) = (self.first, self.second);
        let ratio = self.ratio;
        format!("{name:24} {bytes:8} bytes  ratio {ratio:6.2}  ({first:.0} ns over {second:.0} ns)")
    }
}

fn measure(first: impl Fn() -> u32, second: impl Fn() -> u32) -> Measured {
    let rounds = rounds([&first, &second]);
    Measured {
        ratio: median(rounds.iter().map(|[first, second]| first / second)),
        first: median(rounds.iter().map(|round| round[0])),
        second: median(rounds.iter().map(|round| round[1])),
    }
}

/// Times functions by turns, so that what disturbs one round disturbs all of them: nanoseconds a call.
fn rounds<const N: usize>(calls: [&dyn Fn() -> u32; N]) -> Vec<[f64; N]> {
    let counts = calls.map(|call| calls_a_round(&call));
    let mut rounds = Vec::new();
    let start = Instant::now();
    while rounds.len() < FEWEST_ROUNDS || rounds.len() < ROUNDS && start.elapsed() < CASE_TIME {
        rounds.push(std::array::from_fn(|side| time(&calls[side], counts[side])));
    }
    rounds
}

fn calls_a_round(call: &impl Fn() -> u32) -> u32 {
    let mut calls = 1;
    while time(call, calls) * f64::from(calls) < ROUND_TIME.as_nanos() as f64 {
        calls *= 2;
    }
    calls
}

/// Nanoseconds a call.
fn time(call: &impl Fn() -> u32, calls: u32) -> f64 {
    let start = Instant::now();
    for _ in 0..calls {
        black_box(call());
    }
    start.elapsed().as_nanos() as f64 / f64::from(calls)
}

fn median(values: impl Iterator<Item = f64>) -> f64 {
    let mut values: Vec<f64> = values.collect();
    values.sort_by(f64::total_cmp);
    values[values.len() / 2]
}

#[cfg(test)]
mod tests {
    use super::*;

    #[test]
    fn the_median_is_the_middle_value() {
        assert_eq!(median([5.0, 1.0, 9.0].into_iter()), 5.0);
    }

    #[test]
    fn a_part_that_is_not_there_is_none() {
        assert_eq!(run(Some("survey")), None);
    }

    #[test]
    fn every_case_is_accepted_and_named_once() {
        let cases = cases();
        assert_eq!(cases.len(), 15);
        for (name, tree) in &cases {
            assert_eq!(second_reading::check(&tree.encode()), 0, "{name}");
        }
    }

    #[test]
    fn a_slower_side_shows_in_the_ratio() {
        let work = |steps: u32| (0..steps).fold(0, |sum: u32, step| black_box(sum ^ step));
        let measured = measure(|| work(3000), || work(300));
        assert!(measured.ratio > 2.0);
    }
}

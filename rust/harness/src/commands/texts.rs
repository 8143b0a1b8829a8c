//! `texts`: the port's comparison of texts beside the second reading, both ways round and at any address.

use std::ops::Range;

use super::comparison::hex;
use super::extent::Extent;
use super::report::{Report, Row, grouped};
use crate::generate::texts::{self, FAMILIES};
use crate::port::{self, SameText};
use crate::random::Random;
use crate::second_reading::{self, ANSWERS};

/// Pairs from the seed; the families are compared as a whole besides.
pub const DEFAULT: Extent = Extent {
    count: 100_000,
    seed: 0x7e_875,
};
/// How many bytes of a text are printed.
const SHOWN: usize = 256;
/// Each way in which texts can be alike or not must come this often, or the pairs prove too little.
const FEWEST: usize = 10_000;

pub fn run(extent: Extent) -> Report {
    let mut comparison = Comparison::new(port::same_text);
    for family in &FAMILIES {
        comparison.enter(family.name, None);
        (family.pairs)(&mut |a, b| comparison.compare(a, b));
    }
    comparison.compare_addresses();
    comparison.compare_views();
    comparison.compare_any(extent);
    let is_right = comparison.is_right();
    Report::new(is_right, comparison.rows())
}

/// What a call says: its answer, and the pairs of bytes that it looked at.
#[derive(Clone, Copy, Debug, PartialEq, Eq)]
struct Told {
    answer: u32,
    looked: usize,
}

/// Before the call the pairs are a number that no call tells.
fn told(call: SameText, a: &[u8], b: &[u8]) -> Told {
    let mut looked = usize::MAX;
    let answer = call(a, b, &mut looked);
    Told { answer, looked }
}

fn both_ways(call: SameText, a: &[u8], b: &[u8]) -> [Told; 2] {
    [told(call, a, b), told(call, b, a)]
}

/// Texts on which the two readings part.
struct Difference {
    texts: [Vec<u8>; 2],
    expected: Told,
    /// There, and the other way round.
    told: [Told; 2],
    changed: bool,
}

/// What was counted of a family.
struct Counted {
    family: &'static str,
    pairs: usize,
    differences: usize,
    seed: Option<u64>,
}

struct Comparison {
    call: SameText,
    memory: [Memory; 2],
    counted: Vec<Counted>,
    /// Pairs so far: of different lengths, the same, with a byte that differs.
    ways: [usize; 3],
    smallest: Option<Difference>,
}

impl Comparison {
    fn new(call: SameText) -> Self {
        Comparison {
            call,
            memory: Default::default(),
            counted: Vec::new(),
            ways: [0; 3],
            smallest: None,
        }
    }

    /// Counts the pairs that come now for this family.
    fn enter(&mut self, family: &'static str, seed: Option<u64>) {
        self.counted.push(Counted {
            family,
            pairs: 0,
            differences: 0,
            seed,
        });
    }

    /// Compares a pair at addresses that go by its turn.
    fn compare(&mut self, a: &[u8], b: &[u8]) {
        let turn: usize = self.ways.iter().sum();
        self.compare_at(a, b, [turn % SHIFTS, turn / SHIFTS % SHIFTS]);
    }

    fn compare_at(&mut self, a: &[u8], b: &[u8], shifts: [usize; 2]) {
        let turn: usize = self.ways.iter().sum();
        let around = AROUND[turn % AROUND.len()];
        let [first, second] = &mut self.memory;
        first.lay(a, shifts[0], around[0]);
        second.lay(b, shifts[1], around[1]);
        let said = both_ways(self.call, first.text(), second.text());
        let changed = !first.holds(a) || !second.holds(b);
        self.add(a, b, said, changed);
    }

    /// Counts a pair, and keeps it if it differs and is smaller than what is known.
    fn add(&mut self, a: &[u8], b: &[u8], said: [Told; 2], changed: bool) {
        let expected = told(second_reading::same_text, a, b);
        let way = match expected.answer {
            _ if a.len() != b.len() => 0,
            1 => 1,
            _ => 2,
        };
        self.ways[way] += 1;
        let counted = self.counted.last_mut().expect("a family is entered first");
        counted.pairs += 1;
        if said == [expected; 2] && !changed {
            return;
        }
        counted.differences += 1;
        let length = |texts: &[Vec<u8>; 2]| texts[0].len() + texts[1].len();
        let is_smaller = |known: &Difference| a.len() + b.len() < length(&known.texts);
        if self.smallest.as_ref().is_none_or(is_smaller) {
            self.smallest = Some(Difference {
                texts: [a.to_vec(), b.to_vec()],
                expected,
                told: said,
                changed,
            });
        }
    }

    /// Some lengths at every two places behind a boundary: the same, and with a difference at either end.
    fn compare_addresses(&mut self) {
        self.enter("every two addresses", None);
        for length in BORDERS {
            let text = texts::text(length);
            let [mut first, mut last] = [text.clone(), text.clone()];
            first[0] ^= 1;
            last[length - 1] ^= 1;
            for place in 0..SHIFTS * SHIFTS {
                let shifts = [place % SHIFTS, place / SHIFTS];
                for other in [&text, &first, &last] {
                    self.compare_at(&text, other, shifts);
                }
            }
        }
    }

    /// Texts that are parts of one memory: of a repeated text, so that parts that overlap are the same, and of one with a
    /// byte that differs.
    fn compare_views(&mut self) {
        self.enter("two parts of one memory", None);
        for period in PERIODS {
            let text = texts::text(period);
            let mut memory: Vec<u8> = text.into_iter().cycle().take(VIEWED).collect();
            self.compare_parts(&memory);
            memory[VIEWED / 2] ^= 1;
            self.compare_parts(&memory);
        }
    }

    fn compare_parts(&mut self, memory: &[u8]) {
        for length in BORDERS.into_iter().chain([0]) {
            for place in 0..VIEWS * VIEWS {
                let starts = [place % VIEWS, place / VIEWS];
                let [a, b] = starts.map(|start| &memory[start..start + length]);
                self.add(a, b, both_ways(self.call, a, b), false);
            }
        }
    }

    fn compare_any(&mut self, extent: Extent) {
        self.enter("texts of any bytes", Some(extent.seed));
        let mut random = Random::new(extent.seed);
        for _ in 0..extent.count {
            let [a, b] = texts::any(&mut random);
            self.compare(&a, &b);
        }
    }

    fn rows(&self) -> Vec<Row> {
        let row = |counted: &Counted| {
            let mut answers = [0; ANSWERS];
            answers[0] = 2 * counted.pairs;
            Row {
                call: "`same_text`",
                generator: counted.family,
                beside: "the second reading",
                images: counted.pairs,
                answers,
                differences: counted.differences,
                seed: counted.seed,
            }
        };
        self.counted.iter().map(row).collect()
    }

    /// Says what was seen, and whether all of it is right.
    fn is_right(&self) -> bool {
        let [lengths, same, byte] = self.ways.map(grouped);
        println!(
            "pairs of texts, each both ways round: {same} the same, {lengths} of different lengths, {byte} with a byte \
             that differs"
        );
        if let Some(found) = &self.smallest {
            found.print();
            return false;
        }
        if self.ways.iter().any(|&pairs| pairs < FEWEST) {
            println!("FAILED: fewer than {FEWEST} of one of them");
            return false;
        }
        println!("no difference");
        true
    }
}

impl Difference {
    fn print(&self) {
        let say = |told: &Told| format!("{} after {} pairs", told.answer, told.looked);
        println!(
            "DIFFERENCE on texts of {} and {} bytes: second reading {}, port {}, the other way round {}{}",
            self.texts[0].len(),
            self.texts[1].len(),
            say(&self.expected),
            say(&self.told[0]),
            say(&self.told[1]),
            if self.changed { ", bytes changed" } else { "" }
        );
        self.texts.iter().for_each(|text| println!("{}", end(text)));
    }
}

/// A text in hex; of a long one its end, from which it is compared.
fn end(text: &[u8]) -> String {
    match text.len().checked_sub(SHOWN) {
        Some(left) if left > 0 => format!("{left} bytes, then {}", hex(&text[left..])),
        _ => hex(text),
    }
}

/// Lengths around those at which a reader of words or of blocks turns.
const BORDERS: [usize; 12] = [1, 7, 8, 9, 16, 63, 64, 65, 71, 72, 128, 129];
/// Texts are lent at each of so many addresses behind a boundary.
const SHIFTS: usize = 64;
/// What stands around both texts, by turns: the same, so that texts that are too long match, or not, so that they do not.
const AROUND: [[u8; 2]; 3] = [[0xa5, 0xa5], [0xa5, 0x5a], [0, 0xff]];
/// The repeated texts of which parts are compared, their memory, and where parts start.
const PERIODS: [usize; 7] = [1, 2, 3, 8, 13, 64, 65];
const VIEWED: usize = 200;
const VIEWS: usize = 40;

/// A text at an address that is asked for, with other bytes around it.
#[derive(Default)]
struct Memory {
    bytes: Vec<u8>,
    lent: Range<usize>,
    around: u8,
}

impl Memory {
    /// Lays a text down so many bytes behind a boundary.
    fn lay(&mut self, text: &[u8], shift: usize, around: u8) {
        self.bytes.clear();
        self.bytes.resize(text.len() + 4 * SHIFTS, around);
        let boundary = self.bytes.as_ptr().align_offset(SHIFTS);
        let start = boundary + SHIFTS + shift;
        self.lent = start..start + text.len();
        self.bytes[self.lent.clone()].copy_from_slice(text);
        self.around = around;
    }

    fn text(&self) -> &[u8] {
        &self.bytes[self.lent.clone()]
    }

    /// Whether the text stands there, and nothing around it has changed.
    fn holds(&self, text: &[u8]) -> bool {
        let Range { start, end } = self.lent;
        let mut around = self.bytes[..start].iter().chain(&self.bytes[end..]);
        self.text() == text && around.all(|&byte| byte == self.around)
    }
}

#[cfg(test)]
mod tests;

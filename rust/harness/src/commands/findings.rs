//! What a comparison of calls has found: how often each answer came, by where the images come from, and the smallest
//! difference.

use super::comparison::hex;
use super::report::Row;
use crate::second_reading::ANSWERS;

/// Where images come from, and what the answers on them are held against.
#[derive(Clone, Copy)]
pub struct Family {
    generator: &'static str,
    beside: &'static str,
}

/// Beside the original, for which the second reading stands where it is not at hand.
pub const fn beside_original(generator: &'static str) -> Family {
    let beside = match cfg!(original) {
        true => "the original",
        false => "the second reading",
    };
    Family { generator, beside }
}

/// Beside the original, but for the records from number literals, of which it tells the type.
const fn beside_original_but_numbers(generator: &'static str) -> Family {
    let beside = match cfg!(original) {
        true => "the original; IsNumber: the second reading",
        false => "the second reading",
    };
    Family { generator, beside }
}

pub const fn beside_second(generator: &'static str) -> Family {
    let beside = "the second reading";
    Family { generator, beside }
}

/// What is given breaks a rule on purpose, so the answer is known.
pub const fn by_rule(generator: &'static str) -> Family {
    let beside = "the rule that is broken";
    Family { generator, beside }
}

/// A call is lent what another said that it needs, or less, so the answer is known.
pub const fn by_need(generator: &'static str) -> Family {
    let beside = "the need told before";
    Family { generator, beside }
}

/// What several comparisons draw on.
pub const NESTED: Family = beside_original("nested 16,383 deep");
pub const SHAPES: Family = beside_original("trees of all shapes");
pub const BYTES: Family = beside_second("texts of any bytes");
pub const DAMAGED: Family = beside_second("damaged images");

/// The tables that a call is given: the image's own, or any that keep their rules.
pub const OWN: usize = 0;
pub const ANY: usize = 1;
pub const SHAPES_WITH_TABLES: [Family; 2] = [
    beside_original("trees of all shapes, own tables"),
    beside_original("trees of all shapes, any tables"),
];
/// Where == or != stands with a number literal: what its records say is document 02's, all else the original's.
pub const NUMBERS_WITH_TABLES: [Family; 2] = [
    beside_original_but_numbers("numbers compared, own tables"),
    beside_original_but_numbers("numbers compared, any tables"),
];
/// Where an arrow is analysed, of which the original tells nothing.
pub const ARROWS: [Family; 2] = [
    beside_second("arrows analysed, own tables"),
    beside_second("arrows analysed, any tables"),
];
pub const BYTES_WITH_TABLES: [Family; 2] = [
    beside_second("texts of any bytes, own tables"),
    beside_second("texts of any bytes, any tables"),
];
/// Where a reference spelt `builtins` is not the builtin set, which the original takes it for.
pub const ANOTHER_SET: [Family; 2] = [
    beside_second("another `builtins`, own tables"),
    beside_second("another `builtins`, any tables"),
];

/// What was counted of a family.
struct Counted {
    family: Family,
    images: usize,
    /// How often each answer was expected.
    answers: [usize; ANSWERS],
    differences: usize,
}

/// A call that answered or left something else than expected.
struct Difference {
    image: Vec<u8>,
    /// What else the call was given and lent.
    given: String,
    expected: u32,
    answered: u32,
    /// What is not as expected.
    parts: Vec<&'static str>,
}

pub struct Findings {
    /// Answers that the call never gives.
    never: &'static [usize],
    counted: Vec<Counted>,
    /// The place of the family that calls are counted for.
    current: usize,
    smallest: Option<Difference>,
}

impl Findings {
    pub fn new(never: &'static [usize]) -> Self {
        Findings {
            never,
            counted: Vec::new(),
            current: 0,
            smallest: None,
        }
    }

    /// Counts an image of the family, and the calls that come now for it.
    pub fn enter(&mut self, family: Family) {
        let mut known = self.counted.iter();
        let known = known.position(|counted| counted.family.generator == family.generator);
        self.current = known.unwrap_or(self.counted.len());
        if known.is_none() {
            self.counted.push(Counted {
                family,
                images: 0,
                answers: [0; ANSWERS],
                differences: 0,
            });
        }
        self.counted[self.current].images += 1;
    }

    /// Counts a call by its expected answer, and keeps it if it differs and is smaller than what is known. Each part is
    /// named and told to be right or not.
    pub fn add(
        &mut self,
        image: &[u8],
        [expected, answered]: [u32; 2],
        parts: &[(&'static str, bool)],
        given: impl FnOnce() -> String,
    ) {
        let counted = &mut self.counted[self.current];
        counted.answers[expected as usize] += 1;
        if expected == answered && parts.iter().all(|&(_, right)| right) {
            return;
        }
        counted.differences += 1;
        let is_smaller = |known: &Difference| image.len() < known.image.len();
        if !self.smallest.as_ref().is_none_or(is_smaller) {
            return;
        }
        let answer = [("answer", expected == answered)];
        let parts = answer.iter().chain(parts).filter(|(_, right)| !right);
        self.smallest = Some(Difference {
            image: image.to_vec(),
            given: given(),
            expected,
            answered,
            parts: parts.map(|&(part, _)| part).collect(),
        });
    }

    /// Whether a call differed.
    #[cfg(test)]
    pub fn differs(&self) -> bool {
        self.smallest.is_some()
    }

    /// How often each answer was expected, over all families.
    pub fn answers(&self) -> [usize; ANSWERS] {
        let of_all = |answer: usize| self.counted.iter().map(|c| c.answers[answer]).sum();
        std::array::from_fn(of_all)
    }

    /// Answers that came less often than this.
    pub fn rare(&self, fewest: usize) -> Vec<usize> {
        let answers = self.answers();
        let is_rare = |&answer: &usize| answers[answer] < fewest;
        self.possible().filter(is_rare).collect()
    }

    fn possible(&self) -> impl Iterator<Item = usize> {
        (0..ANSWERS).filter(|answer| !self.never.contains(answer))
    }

    /// How often each refusal came, if nothing differs and each came at least so often; else says what is wrong.
    pub fn refusals(&self, fewest: usize) -> Option<String> {
        if let Some(found) = &self.smallest {
            found.print();
            return None;
        }
        let rare = self.rare(fewest);
        if !rare.is_empty() {
            println!("FAILED: too few of the answers {rare:?}");
            return None;
        }
        let answers = self.answers();
        let refusals = self.possible().filter(|&number| number != 0);
        let refusals = refusals.map(|number| format!("{number}: {}", answers[number]));
        Some(refusals.collect::<Vec<String>>().join(", "))
    }

    /// A row for each family.
    pub fn rows(&self, call: &'static str, seed: u64) -> Vec<Row> {
        let row = |counted: &Counted| Row {
            call,
            generator: counted.family.generator,
            beside: counted.family.beside,
            images: counted.images,
            answers: counted.answers,
            differences: counted.differences,
            seed: Some(seed),
        };
        self.counted.iter().map(row).collect()
    }
}

impl Difference {
    fn print(&self) {
        println!(
            "DIFFERENCE of {}: expected answer {}, given {}",
            self.parts.join(", "),
            self.expected,
            self.answered
        );
        println!("{}, image", self.given);
        println!("{}", hex(&self.image));
    }
}

#[cfg(test)]
mod tests {
    use super::*;

    const ONE: Family = beside_original("one");
    const TWO: Family = beside_second("two");

    #[test]
    fn the_smallest_difference_is_kept_and_answers_are_counted() {
        let mut findings = Findings::new(&[7]);
        findings.enter(ONE);
        findings.add(&[1, 2], [8, 8], &[("steps", true)], String::new);
        assert!(!findings.differs());
        findings.add(&[1, 2], [8, 8], &[("steps", false)], String::new);
        findings.add(&[1], [0, 9], &[("steps", true)], String::new);
        findings.add(&[1, 2, 3], [0, 9], &[], String::new);
        let found = findings.smallest.as_ref().expect("three differ");
        assert_eq!(
            (&found.image[..], &found.parts[..]),
            (&[1][..], &["answer"][..])
        );
        assert_eq!(findings.rare(2), [1, 2, 3, 4, 5, 6, 9, 10, 11]);
        assert_eq!(findings.refusals(0), None);
        assert_eq!(findings.rows("call", 0)[0].differences, 3);
    }

    #[test]
    fn each_family_has_its_row() {
        let mut findings = Findings::new(&[]);
        for family in [ONE, TWO, ONE] {
            findings.enter(family);
            findings.add(&[], [0, 0], &[], String::new);
            findings.add(&[], [9, 9], &[], String::new);
        }
        let rows = findings.rows("call", 5);
        let seen = rows
            .iter()
            .map(|row| (row.generator, row.beside, row.images));
        let expected = [("one", ONE.beside, 2), ("two", "the second reading", 1)];
        assert!(seen.eq(expected));
        assert_eq!(rows[0].answers, [2, 0, 0, 0, 0, 0, 0, 0, 0, 2, 0, 0]);
        assert_eq!(findings.answers()[9], 3);
        assert!(
            rows.iter()
                .all(|row| (row.seed, row.differences) == (Some(5), 0))
        );
    }
}

//! `indices`: the port's binding index beside the original's, with every length of table around the need.

use super::extent::Extent;
use super::findings::{BYTES, DAMAGED, Family, Findings, NESTED, SHAPES};
use super::report::Report;
use crate::generate::{self, damage, grow::Texts, shapes};
use crate::image::{MOST_NUMBERED, NONE, Tree};
use crate::lent::{FRESH, Lent};
use crate::original::passes::Subject;
use crate::port::refusal::TOO_SHORT;
use crate::port::{self, ModuleIndices};
use crate::random::Random;
use crate::second_reading;
use crate::tables::entries;

pub const DEFAULT: Extent = Extent {
    count: 100_000,
    seed: 0x1d_ec5,
};
/// So many of a hundred images have texts of any bytes.
const ANY_BYTES: usize = 5;
/// Each answer must come once in so many images, or they prove too little.
const RAREST: usize = 100;

pub fn run(extent: Extent) -> Report {
    let mut comparison = Comparison::new(port::module_indices, extent.seed);
    for nesting in &shapes::NESTINGS {
        comparison.compare(&nesting.chain(MOST_NUMBERED), NESTED);
    }
    while comparison.images < extent.count {
        comparison.compare_next();
    }
    let rows = comparison
        .findings
        .rows("`compute_module_indices`", extent.seed);
    Report::new(comparison.is_right(), rows)
}

struct Comparison {
    call: ModuleIndices,
    random: Random,
    /// Images beside the original.
    images: usize,
    names: usize,
    bound: usize,
    findings: Findings,
}

impl Comparison {
    fn new(call: ModuleIndices, seed: u64) -> Self {
        Comparison {
            call,
            random: Random::new(seed),
            images: 0,
            names: 0,
            bound: 0,
            // No number or table is given to the call, and no budget.
            findings: Findings::new(&[7, 8]),
        }
    }

    fn compare_next(&mut self) {
        let any_bytes = self.random.chance(ANY_BYTES);
        let texts = if any_bytes { Texts::Bytes } else { Texts::Utf8 };
        let tree = generate::tree(&mut self.random, texts);
        if any_bytes {
            self.compare_any_bytes(&tree);
        } else {
            self.compare(&tree, SHAPES);
        }
        self.compare_damaged(&tree);
    }

    /// The image beside the original's index of it.
    fn compare(&mut self, tree: &Tree, family: Family) {
        self.findings.enter(family);
        let table = Subject::new(tree).module_indices();
        let bound = entries(&table).filter(|&e| u32::from(e) != NONE);
        self.images += 1;
        self.names += tree.names.len();
        self.bound += bound.count();
        self.compare_table(&tree.encode(), &table);
    }

    /// The image beside the second reading, since the original takes UTF-8 texts only.
    fn compare_any_bytes(&mut self, tree: &Tree) {
        self.findings.enter(BYTES);
        let image = tree.encode();
        let mut table = vec![0; 2 * tree.names.len()];
        second_reading::module_indices(&image, &mut table);
        self.compare_table(&image, &table);
    }

    /// Tables of the need, of more, a byte short, empty and of any length.
    fn compare_table(&mut self, image: &[u8], table: &[u8]) {
        let need = table.len();
        let (more, any) = (self.random.below(10), self.random.below(need + 1));
        for length in [need, need + more, need.saturating_sub(1), 0, any] {
            if length < need {
                self.compare_call(image, TOO_SHORT, &vec![0; length]);
            } else {
                let left = [table, &vec![FRESH; length - need]].concat();
                self.compare_call(image, 0, &left);
            }
        }
    }

    fn compare_damaged(&mut self, tree: &Tree) {
        if let Some((refusal, image)) = damage::refused(&mut self.random, tree) {
            let length = self.random.below(2 * tree.names.len() + 3);
            self.findings.enter(DAMAGED);
            self.compare_call(&image, refusal, &vec![FRESH; length]);
        }
    }

    /// A call with a fresh table, which must answer this and leave these bytes.
    fn compare_call(&mut self, image: &[u8], expected: u32, left: &[u8]) {
        let kept = image.to_vec();
        let mut lent = Lent::new(left.len());
        let answer = (self.call)(image, lent.part());
        let parts = [("table", lent.holds(left)), ("image", image == kept)];
        let describe = || format!("table of {} bytes", left.len());
        self.findings
            .add(&kept, [expected, answer], &parts, describe);
    }

    /// Says what was seen, and whether all of it is right.
    fn is_right(&self) -> bool {
        println!(
            "{} images beside the original, {} names, {} of them bound",
            self.images, self.names, self.bound
        );
        let Some(refusals) = self.findings.refusals(self.images / RAREST) else {
            return false;
        };
        let tables = self.findings.answers()[0];
        println!("no difference in {tables} tables and the refusals {refusals}");
        true
    }
}

#[cfg(test)]
mod tests {
    use super::*;
    use crate::large_stack::{LARGE, run_on};

    fn compared(call: ModuleIndices, images: usize) -> Comparison {
        let mut comparison = Comparison::new(call, DEFAULT.seed);
        while comparison.images < images {
            comparison.compare_next();
        }
        comparison
    }

    #[test]
    fn the_second_reading_and_the_port_differ_nowhere_and_every_answer_comes() {
        for call in [second_reading::module_indices, port::module_indices] {
            let ran = run_on(LARGE, move || {
                let comparison = compared(call, 2000);
                assert!(!comparison.findings.differs());
                assert_eq!(comparison.findings.rare(comparison.images / RAREST), []);
            });
            assert!(ran.is_ok());
        }
    }

    /// Calls with one fault each.
    const WRONG: [(&str, ModuleIndices); 4] = [
        ("nothing is too short", |image, table| {
            let answer = second_reading::module_indices(image, table);
            if answer == TOO_SHORT { 0 } else { answer }
        }),
        ("a short table left", |image, table| {
            let kept = table.to_vec();
            let answer = second_reading::module_indices(image, table);
            if answer == TOO_SHORT {
                table.copy_from_slice(&kept);
            }
            answer
        }),
        ("bytes behind the answer", |image, table| {
            let answer = second_reading::module_indices(image, table);
            if let (0, Some(last)) = (answer, table.last_mut()) {
                *last = if *last == FRESH { 0 } else { *last };
            }
            answer
        }),
        ("a table of a refused image", |image, table| {
            table.fill(0);
            second_reading::module_indices(image, table)
        }),
    ];

    #[test]
    fn each_fault_is_seen() {
        for (fault, call) in WRONG {
            let found = run_on(LARGE, move || compared(call, 100).findings.differs());
            assert!(found.unwrap_or(false), "{fault}");
        }
    }
}

//! `check`: the port's check beside the second reading on generated and damaged images.

use super::comparison::Comparison;
use super::extent::Extent;
use super::report::Report;
use crate::generate::damage::{DAMAGES, flip, noise};
use crate::generate::{self, grow::Texts, shapes};
use crate::image::MOST_NUMBERED;
use crate::port;
use crate::random::Random;

pub const DEFAULT: Extent = Extent {
    count: 150_000,
    seed: 0x1a46_5eed,
};
/// Every answer must have been hit this often, or the images prove too little.
const FEWEST_HITS: u64 = 1000;

pub fn run(extent: Extent) -> Report {
    let mut comparison = Comparison::new(port::check);
    compare_generated(&mut comparison, extent);
    println!("{} images compared", comparison.compared);
    for (answer, hits) in comparison.hits() {
        println!("answer {answer}: {hits}");
    }
    let generator = "trees of all shapes, damaged and flipped copies, noise";
    let rows = vec![comparison.row(generator, Some(extent.seed))];
    let rare = comparison.hits().any(|(_, hits)| hits < FEWEST_HITS);
    if !comparison.report() {
        return Report::new(false, rows);
    }
    if rare {
        println!("FAILED: an answer was hit fewer than {FEWEST_HITS} times");
    } else {
        println!("no difference");
    }
    Report::new(!rare, rows)
}

fn compare_generated(comparison: &mut Comparison, extent: Extent) {
    let mut random = Random::new(extent.seed);
    comparison.compare(&shapes::largest().encode());
    comparison.compare(&shapes::doubling(MOST_NUMBERED - 1).encode());
    for nesting in &shapes::NESTINGS {
        comparison.compare(&nesting.chain(MOST_NUMBERED).encode());
    }
    while comparison.compared < extent.count as u64 {
        compare_family(comparison, &mut random);
    }
}

/// A well-formed image, some damaged copies and some noise.
fn compare_family(comparison: &mut Comparison, random: &mut Random) {
    let tree = generate::tree(random, Texts::Bytes);
    let image = tree.encode();
    comparison.compare(&image);
    for _ in 0..8 {
        let damage = random.pick(&DAMAGES);
        if let Some(damaged) = (damage.make)(random, &tree) {
            comparison.compare(&damaged);
        }
    }
    for _ in 0..2 {
        comparison.compare(&flip(random, &image));
    }
    comparison.compare(&noise(random));
}

#[cfg(test)]
mod tests {
    use super::*;
    use crate::second_reading;

    #[test]
    fn a_run_hits_every_answer() {
        let mut comparison = Comparison::new(second_reading::check);
        let count = 3000;
        compare_generated(&mut comparison, Extent { count, ..DEFAULT });
        assert!(comparison.hits().all(|(_, hits)| hits > 20));
    }
}

//! How often what is compared analyses an arrow: by where it stands and by which of its sides tell what an arrow passes on.
//! The original counts fewer nodes of each, so what is left out beside it must be what it answers otherwise.

use crate::arrows::{ASKED, ASSERT, Arrow, CALL, IF, PLACES};

pub const SIDES: [&str; 4] = ["neither tells", "left tells", "right tells", "both tell"];

/// Each place with each of these must come once in so many images.
const RAREST: usize = 2000;

#[derive(Debug, Default)]
pub struct Arrows {
    /// Answers that are the second reading's alone, and those of them that the original gives as well.
    answers: usize,
    kept: usize,
    /// Those in which the original parts in what no arrow bears on.
    parted: usize,
    /// By the place and by the sides that tell.
    counts: [[usize; SIDES.len()]; PLACES.len()],
    /// With one expression on both sides.
    twice: usize,
}

/// The places of a condition that is asked, and of a walk.
pub fn of_conditions(place: usize) -> bool {
    ![IF, ASSERT, CALL].contains(&place)
}

pub fn of_walks(place: usize) -> bool {
    place != ASKED
}

impl Arrows {
    /// Counts an answer, and whether the original gives another.
    pub fn answer(&mut self, is_other: bool) {
        self.answers += 1;
        self.kept += usize::from(!is_other);
    }

    /// Counts whether the original has all else of an answer alike.
    pub fn rest(&mut self, is_alike: bool) {
        self.parted += usize::from(!is_alike);
    }

    /// Counts an arrow, where expressions as conditions have so many records.
    pub fn see(&mut self, arrow: &Arrow, records: &[[u64; 2]]) {
        let [left, right] = arrow.sides.map(|side| records[side as usize]);
        let sides = usize::from(left[0] > 0) + 2 * usize::from(right[1] > 0);
        self.counts[arrow.place][sides] += 1;
        self.twice += usize::from(arrow.sides[0] == arrow.sides[1]);
    }

    /// Those of these places that came less often than this.
    pub fn rare(&self, is_of: fn(usize) -> bool, fewest: usize) -> Vec<String> {
        let places = (0..PLACES.len()).filter(|&place| is_of(place));
        let each = places.flat_map(|place| (0..SIDES.len()).map(move |sides| (place, sides)));
        let rare = each.filter(|&(place, sides)| self.counts[place][sides] < fewest);
        let named = rare.map(|(place, sides)| {
            let count = self.counts[place][sides];
            format!("{}, {}: {count}", PLACES[place], SIDES[sides])
        });
        let twice = (self.twice < fewest).then(|| format!("one side twice: {}", self.twice));
        named.chain(twice).collect()
    }

    /// Says what came, and whether each of these places came often enough in so many images and nothing was left out in vain.
    pub fn is_right(&self, is_of: fn(usize) -> bool, images: usize) -> bool {
        let sums = self.counts.iter().map(|sides| sides.iter().sum());
        let sums: Vec<(&str, usize)> = PLACES.into_iter().zip(sums).collect();
        println!(
            "{} answers with arrows, which by their places are {sums:?}; {} have one side twice",
            self.answers, self.twice
        );
        let rare = self.rare(is_of, images / RAREST);
        if !rare.is_empty() {
            println!("FAILED: too few arrows: {rare:?}");
        }
        if self.kept > 0 {
            println!("FAILED: {} of them the original gives too", self.kept);
        }
        if self.parted > 0 {
            println!("FAILED: in {} of them it parts elsewhere", self.parted);
        }
        rare.is_empty() && self.kept + self.parted == 0
    }
}

#[cfg(test)]
mod tests {
    use super::*;

    #[test]
    fn what_is_rare_or_left_out_in_vain_is_seen() {
        let mut arrows = Arrows::default();
        assert_eq!(arrows.rare(of_conditions, 1).len(), 8 * 4 + 1);
        assert_eq!(arrows.rare(of_walks, 1).len(), 10 * 4 + 1);
        arrows.counts = [[2; 4]; 11];
        arrows.twice = 2;
        arrows.answer(true);
        assert!(arrows.is_right(of_walks, 4000) && !arrows.is_right(of_walks, 6000));
        arrows.rest(true);
        assert!(arrows.is_right(of_walks, 4000));
        arrows.rest(false);
        assert!(!arrows.is_right(of_walks, 4000));
        arrows.parted = 0;
        arrows.answer(false);
        assert!(!arrows.is_right(of_walks, 4000));
    }

    #[test]
    fn a_side_tells_by_the_list_that_the_arrow_has_of_it() {
        let place = crate::arrows::CALL;
        let records = [[1, 0], [0, 1], [0, 0]];
        let mut arrows = Arrows::default();
        for sides in [[1, 0], [0, 2], [2, 1], [0, 1], [0, 0]] {
            arrows.see(&Arrow { sides, place }, &records);
        }
        assert_eq!(arrows.counts[place], [1, 2, 1, 1]);
        assert_eq!(arrows.twice, 1);
    }
}

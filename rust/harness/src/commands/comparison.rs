//! Asks the port and the second reading about the same images and keeps the smallest difference.

use super::report::Row;
use crate::image::Fields;
use crate::second_reading::{self, ANSWERS, is_of_image};

/// Room in front of an image, so that it can be lent at any alignment.
const SHIFTS: usize = 8;
/// What stands around a lent image, and must stand there afterwards.
const AROUND: [u8; SHIFTS] = [0xa5; SHIFTS];

/// An image on which the two readings part.
pub struct Difference {
    pub image: Vec<u8>,
    pub expected: u32,
    pub answered: u32,
    pub changed: bool,
}

pub struct Comparison {
    port: fn(&[u8]) -> u32,
    buffer: Vec<u8>,
    pub compared: u64,
    /// How often the second reading gave each answer.
    outcomes: [u64; ANSWERS],
    differences: usize,
    pub smallest: Option<Difference>,
}

impl Comparison {
    pub fn new(port: fn(&[u8]) -> u32) -> Self {
        Comparison {
            port,
            buffer: Vec::new(),
            compared: 0,
            outcomes: [0; ANSWERS],
            differences: 0,
            smallest: None,
        }
    }

    /// Compares one image, lent at an alignment that goes by its turn.
    pub fn compare(&mut self, image: &[u8]) {
        let shift = self.compared as usize % SHIFTS;
        let difference = self.difference(image, shift);
        self.compared += 1;
        self.outcomes[difference.expected as usize] += 1;
        self.differences += usize::from(difference.is_one());
        let length = image.len();
        let is_smaller = |kept: &Difference| length < kept.image.len();
        if difference.is_one() && self.smallest.as_ref().is_none_or(is_smaller) {
            let image = image.to_vec();
            self.smallest = Some(Difference {
                image,
                ..difference
            });
        }
    }

    /// The answers that `check` has, each with how often the second reading gave it.
    pub fn hits(&self) -> impl Iterator<Item = (usize, u64)> {
        let counted = self.outcomes.iter().copied().enumerate();
        counted.filter(|&(answer, _)| answer == 0 || is_of_image(answer as u32))
    }

    /// What was compared so far.
    pub fn row(&self, generator: &'static str, seed: Option<u64>) -> Row {
        Row {
            call: "`check`",
            generator,
            beside: "the second reading",
            images: self.compared as usize,
            answers: self.outcomes.map(|hits| hits as usize),
            differences: self.differences,
            seed,
        }
    }

    /// What the two readings say; the image itself is left out.
    fn difference(&mut self, image: &[u8], shift: usize) -> Difference {
        self.buffer.clear();
        self.buffer.extend_from_slice(&AROUND[..shift]);
        self.buffer.extend_from_slice(image);
        self.buffer.extend_from_slice(&AROUND);
        let lent = shift..shift + image.len();
        let answered = (self.port)(&self.buffer[lent.clone()]);
        let untouched = self.buffer[..shift] == AROUND[..shift]
            && self.buffer[lent.clone()] == *image
            && self.buffer[lent.end..] == AROUND;
        Difference {
            image: Vec::new(),
            expected: second_reading::check(image),
            answered,
            changed: !untouched,
        }
    }

    /// Makes the smallest difference smaller as long as a part can go and it stays one.
    pub fn shrink(&mut self) {
        while let Some(kept) = &self.smallest {
            let candidates = smaller_images(&kept.image);
            let before = kept.image.len();
            candidates.iter().for_each(|image| self.compare(image));
            if self.smallest.as_ref().map(|kept| kept.image.len()) == Some(before) {
                return;
            }
        }
    }

    /// Prints the difference, if there is one, and says whether there is none.
    pub fn report(&mut self) -> bool {
        self.shrink();
        let Some(found) = &self.smallest else {
            return true;
        };
        println!(
            "DIFFERENCE on {} bytes: second reading {}, port {}{}",
            found.image.len(),
            found.expected,
            found.answered,
            if found.changed { ", bytes changed" } else { "" }
        );
        println!("{}", hex(&found.image));
        false
    }
}

impl Difference {
    fn is_one(&self) -> bool {
        self.expected != self.answered || self.changed
    }
}

/// A table is cut by one of these parts of its length, or by its last record.
const PARTS: [usize; 4] = [2, 8, 64, usize::MAX];

/// Images with a part less.
fn smaller_images(image: &[u8]) -> Vec<Vec<u8>> {
    let halves = [image.len() / 2, image.len().saturating_sub(1)];
    let mut smaller: Vec<Vec<u8>> = halves.map(|length| image[..length].to_vec()).into();
    let Some(fields) = Fields::decode(image) else {
        return smaller;
    };
    for table in 0..5 {
        smaller.extend(PARTS.map(|part| shortened(&fields, table, part)));
    }
    smaller
}

/// The fields with one table cut by a part of its length, at least by one.
fn shortened(fields: &Fields, table: usize, part: usize) -> Vec<u8> {
    let mut fields = fields.clone();
    let cut = |length: usize| length.saturating_sub((length / part).max(1));
    match table {
        0 => fields.exprs.truncate(cut(fields.exprs.len())),
        1 => fields.names.truncate(cut(fields.names.len())),
        2 => fields.texts.truncate(cut(fields.texts.len())),
        3 => fields.items.truncate(cut(fields.items.len())),
        _ => fields.bytes.truncate(cut(fields.bytes.len())),
    }
    // The items and bytes of what went go too, so that runs still use all there is.
    let items = fields.exprs.iter().map(|e| (e.first + e.count) as usize);
    fields.items.truncate(items.max().unwrap_or(0));
    let bytes = fields.texts.iter().map(|t| (t.first + t.length) as usize);
    fields.bytes.truncate(bytes.max().unwrap_or(0));
    fields.recount();
    let last = fields.header.exprs.saturating_sub(1);
    fields.header.entry = fields.header.entry.min(last);
    fields.encode()
}

pub fn hex(bytes: &[u8]) -> String {
    bytes.iter().map(|byte| format!("{byte:02x}")).collect()
}

#[cfg(test)]
mod tests {
    use super::*;
    use crate::notation::survey_case;

    #[test]
    fn equal_readings_differ_nowhere() {
        let mut comparison = Comparison::new(second_reading::check);
        comparison.compare(&survey_case().encode());
        comparison.compare(&[]);
        assert!(comparison.smallest.is_none());
        assert_eq!(comparison.compared, 2);
        let hits = comparison.hits().map(|(_, hits)| hits);
        assert!(hits.eq([1, 1, 0, 0, 0, 0, 0, 0, 0]));
        let row = comparison.row("two", Some(7));
        assert_eq!(row.answers, [1, 1, 0, 0, 0, 0, 0, 0, 0, 0, 0, 0]);
        assert_eq!((row.images, row.differences, row.seed), (2, 0, Some(7)));
    }

    #[test]
    fn a_wrong_port_is_found_and_the_image_shrunk() {
        let mut comparison = Comparison::new(|_| 1);
        comparison.compare(&survey_case().encode());
        assert_eq!(comparison.row("one", None).differences, 1);
        comparison.shrink();
        let found = comparison.smallest.expect("the readings part");
        assert_eq!((found.expected, found.answered), (2, 1));
        assert_eq!(found.image, [0; 12]);
    }
}

//! Records from number literals. The original has the literal's type in their place, so they are held against the second
//! reading alone; it must have all else as the original has it.

use crate::records::{Record, sort, sort_of};

#[derive(Debug, Default)]
pub struct Numbers {
    /// Records from number literals, and how many answers beside the original have one.
    records: usize,
    answers: usize,
    /// Answers that the second reading gives otherwise.
    parted: usize,
}

impl Numbers {
    /// What is expected of an answer that the original gives with these records, IsNumber put in: the second reading's where
    /// there is one from a number literal.
    pub fn expected<T: PartialEq>(
        &mut self,
        original: T,
        records: impl Iterator<Item = Record>,
        second: impl FnOnce() -> T,
    ) -> T {
        let is_number = |record: &Record| sort_of(*record) == sort::IS_NUMBER as usize;
        let count = records.filter(is_number).count();
        if count == 0 {
            return original;
        }
        let second = second();
        self.records += count;
        self.answers += 1;
        self.parted += usize::from(original != second);
        second
    }

    /// Says what came, and whether the two readings have all else alike and enough came.
    pub fn is_right(&self, fewest: usize) -> bool {
        println!(
            "{} records from number literals in {} answers are held against the second reading, all else against the \
             original",
            self.records, self.answers
        );
        if self.parted > 0 {
            println!(
                "FAILED: in {} of them the two readings part elsewhere",
                self.parted
            );
        } else if self.answers < fewest {
            println!("FAILED: too few of them");
        }
        self.parted == 0 && self.answers >= fewest
    }
}

#[cfg(test)]
mod tests {
    use super::*;
    use crate::records::{record, ty};

    #[test]
    fn the_second_reading_counts_where_there_is_a_number_and_must_be_alike() {
        let number = record(3, sort::IS_NUMBER, 0);
        let other = record(3, sort::IS_TYPE, ty::INT);
        let mut numbers = Numbers::default();
        let mut expected = |original: &[Record], second: &[Record]| {
            let records = original.to_vec().into_iter();
            numbers.expected(original.to_vec(), records, || second.to_vec())
        };
        assert_eq!(expected(&[other], &[number]), [other]);
        assert_eq!(
            expected(&[number, other], &[number, other]),
            [number, other]
        );
        assert_eq!((numbers.records, numbers.answers), (1, 1));
        assert!(numbers.is_right(1) && !numbers.is_right(2));
        let mut expected = |second: &[Record]| {
            numbers.expected(vec![number], [number].into_iter(), || second.to_vec())
        };
        assert_eq!(expected(&[other]), [other]);
        assert!(!numbers.is_right(1));
    }
}

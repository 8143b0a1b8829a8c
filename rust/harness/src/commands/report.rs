//! What a command comes to, and the table of it in the form that the pages have.

use super::{DONE, FAILED};
use crate::second_reading::ANSWERS;

/// Calls of one kind on images of one kind.
#[derive(Clone, Debug, PartialEq, Eq)]
pub struct Row {
    pub call: &'static str,
    /// Where the images come from, and what the answers on them are held against.
    pub generator: &'static str,
    pub beside: &'static str,
    pub images: usize,
    /// How often each answer was expected: 0 an answer, the others a refusal.
    pub answers: [usize; ANSWERS],
    pub differences: usize,
    pub seed: Option<u64>,
}

/// An exit status, and what was compared.
#[derive(Debug, Default, PartialEq, Eq)]
pub struct Report {
    pub status: u8,
    pub rows: Vec<Row>,
}

impl Report {
    pub fn new(is_right: bool, rows: Vec<Row>) -> Self {
        let status = if is_right { DONE } else { FAILED };
        Report { status, rows }
    }

    /// Takes another in: a failure outweighs all else.
    pub fn add(&mut self, other: Report) {
        self.rows.extend(other.rows);
        if self.status != FAILED && other.status != DONE {
            self.status = other.status;
        }
    }

    pub fn table(&self) -> String {
        let titles =
            "| call | images | beside | how many | answers | refusals | differences | seed |";
        let mut lines = vec![
            titles.to_string(),
            "|---|---|---|---|---|---|---|---|".to_string(),
        ];
        lines.extend(self.rows.iter().map(Row::line));
        lines.join("\n")
    }
}

impl Row {
    fn line(&self) -> String {
        let cells = [
            self.call.to_string(),
            self.generator.to_string(),
            self.beside.to_string(),
            grouped(self.images),
            grouped(self.answers[0]),
            self.refusals(),
            grouped(self.differences),
            self.seed
                .map_or("none".to_string(), |seed| format!("{seed:#x}")),
        ];
        format!("| {} |", cells.join(" | "))
    }

    /// The refusals that came, each with how often.
    fn refusals(&self) -> String {
        let refusals = (1..ANSWERS).filter(|&number| self.answers[number] > 0);
        let refusals =
            refusals.map(|number| format!("{number}: {}", grouped(self.answers[number])));
        let refusals: Vec<String> = refusals.collect();
        if refusals.is_empty() {
            return "none".to_string();
        }
        refusals.join("; ")
    }
}

/// A number with a comma before every three digits.
pub fn grouped(number: usize) -> String {
    let digits = number.to_string();
    let mut text = String::new();
    for (place, digit) in digits.char_indices() {
        if place > 0 && (digits.len() - place).is_multiple_of(3) {
            text.push(',');
        }
        text.push(digit);
    }
    text
}

#[cfg(test)]
mod tests {
    use super::*;

    fn row(seed: Option<u64>) -> Row {
        Row {
            call: "`check`",
            generator: "noise",
            beside: "the second reading",
            images: 1_234_567,
            answers: [1000, 999, 0, 0, 0, 0, 0, 0, 0, 12, 0, 7],
            differences: 0,
            seed,
        }
    }

    #[test]
    fn a_table_has_a_line_for_each_row() {
        let report = Report::new(true, vec![row(Some(0x1a)), row(None)]);
        let table = report.table();
        let lines: Vec<&str> = table.lines().collect();
        let first = "| `check` | noise | the second reading | 1,234,567 | 1,000 | 1: 999; 9: 12; 11: 7 | 0 | 0x1a |";
        assert_eq!(lines[2], first);
        assert!(lines[3].ends_with("| 0 | none |"));
        let bars = lines.iter().map(|line| line.matches('|').count());
        assert!(bars.eq([9; 4]));
    }

    #[test]
    fn digits_stand_in_threes() {
        let numbers = [0, 12, 123, 1234, 123_456, 1_234_567].map(grouped);
        assert_eq!(numbers, ["0", "12", "123", "1,234", "123,456", "1,234,567"]);
    }

    #[test]
    fn a_failure_outweighs_a_missing_original() {
        let with_status = |status| Report {
            status,
            rows: vec![row(None)],
        };
        let whole = |statuses: &[u8]| {
            let mut whole = Report::default();
            statuses
                .iter()
                .for_each(|&status| whole.add(with_status(status)));
            (whole.status, whole.rows.len())
        };
        assert_eq!(whole(&[DONE, DONE]), (DONE, 2));
        assert_eq!(whole(&[DONE, 3, DONE]), (3, 3));
        assert_eq!(whole(&[FAILED, 3]), (FAILED, 2));
        assert_eq!(whole(&[3, FAILED, DONE]), (FAILED, 3));
    }
}

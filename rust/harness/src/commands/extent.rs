//! How much a command does: how many images, and from which seed.

#[derive(Clone, Copy, Debug, PartialEq, Eq)]
pub struct Extent {
    pub count: usize,
    pub seed: u64,
}

impl Extent {
    /// What the words behind a command ask for, perhaps a count and perhaps a seed; what they leave out is as given.
    pub fn parse(self, words: &[&str]) -> Option<Self> {
        let (count, seed) = match *words {
            [] => (self.count, self.seed),
            [count] => (count.parse().ok()?, self.seed),
            [count, seed] => (count.parse().ok()?, number(seed)?),
            _ => return None,
        };
        Some(Extent { count, seed })
    }
}

/// A number in decimal, or in hexadecimal as tables print seeds.
pub fn number(word: &str) -> Option<u64> {
    match word.strip_prefix("0x") {
        Some(digits) => u64::from_str_radix(digits, 16).ok(),
        None => word.parse().ok(),
    }
}

#[cfg(test)]
mod tests {
    use super::*;

    #[test]
    fn words_say_count_and_seed() {
        let default = Extent { count: 3, seed: 4 };
        let parse = |words: &[&str]| default.parse(words).map(|e| (e.count, e.seed));
        assert_eq!(parse(&[]), Some((3, 4)));
        assert_eq!(parse(&["5"]), Some((5, 4)));
        assert_eq!(parse(&["5", "10"]), Some((5, 10)));
        assert_eq!(parse(&["5", "0x10"]), Some((5, 16)));
        for wrong in [&["x"][..], &["5", "x"], &["5", "0x"], &["5", "6", "7"]] {
            assert_eq!(parse(wrong), None);
        }
    }
}

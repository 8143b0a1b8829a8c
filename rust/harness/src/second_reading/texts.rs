//! The comparison of texts a second time, from document 02, order 3: "Compare lengths first, then bytes from the last to
//! the first", and how many pairs of bytes that looks at.

const SAME: u32 = 1;
const OTHER: u32 = 0;

/// Whether the texts are the same, with the pairs of bytes that were looked at.
pub fn same_text(a: &[u8], b: &[u8], looked: &mut usize) -> u32 {
    if a.len() != b.len() {
        // "none where lengths differ"
        *looked = 0;
        return OTHER;
    }
    let mut pairs = a.iter().rev().zip(b.iter().rev());
    match pairs.position(|(a, b)| a != b) {
        // "those from the end up to and with the first that differs"
        Some(before) => {
            *looked = before + 1;
            OTHER
        }
        // "all where the texts are equal"
        None => {
            *looked = a.len();
            SAME
        }
    }
}

#[cfg(test)]
mod tests {
    use super::*;

    fn told(a: &[u8], b: &[u8]) -> (u32, usize) {
        let mut looked = 7;
        (same_text(a, b, &mut looked), looked)
    }

    #[test]
    fn each_sentence_of_the_description_holds() {
        assert_eq!(told(b"", b""), (1, 0));
        assert_eq!(told(b"depot1", b"depot12"), (0, 0));
        assert_eq!(told(b"depot1", b""), (0, 0));
        assert_eq!(told(b"depot1", b"depot1"), (1, 6));
        assert_eq!(told(b"depot1", b"depot2"), (0, 1));
        assert_eq!(told(b"depot1", b"desot1"), (0, 4));
        assert_eq!(told(b"depot1", b"Depot1"), (0, 6));
    }
}

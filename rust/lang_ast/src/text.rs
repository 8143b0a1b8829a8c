//! The comparison of texts, from the back.

use crate::raw;

/// Whether two texts are the same, and how many pairs of bytes that took.
#[derive(Clone, Copy, Debug, PartialEq, Eq, Hash)]
#[non_exhaustive]
pub struct Comparison {
    /// Whether the texts have the same bytes.
    pub same: bool,
    /// The pairs of bytes that were looked at: none where the lengths differ, all where the texts are the same, otherwise
    /// those from the end up to and with the first that differs.
    pub looked: usize,
}

/// Compares two texts, any bytes: their lengths first, then their bytes from the last to the first. What both have in
/// front of the first difference from the end is not gone through, so keys with a long common beginning are soon told
/// apart. It needs no image, no room and the same stack for all texts, and is never refused.
///
/// The bytes are fetched from the end in blocks of at most 64 of each text, so at most 63 pairs beyond those that count
/// are fetched, all of them in the block of the last one that does.
///
/// ```
/// use lang_ast::same_text;
///
/// // The keys of one depot part in their last byte, and one pair of bytes tells.
/// let told = same_text(b"depot4711.gate.north.tariff1", b"depot4711.gate.north.tariff2");
/// assert_eq!((told.same, told.looked), (false, 1));
/// // The fourth from the end differs.
/// let told = same_text(b"isBool", b"isTool");
/// assert_eq!((told.same, told.looked), (false, 4));
/// // The same texts are looked at as a whole, texts of different lengths not at all.
/// let told = same_text(b"builtins", b"builtins");
/// assert_eq!((told.same, told.looked), (true, 8));
/// let told = same_text(b"builtin", b"builtins");
/// assert_eq!((told.same, told.looked), (false, 0));
/// ```
#[must_use]
pub fn same_text(a: &[u8], b: &[u8]) -> Comparison {
    let mut looked = 0;
    let same = raw::same_text(a, b, &mut looked) == 1;
    Comparison { same, looked }
}

#[cfg(test)]
mod tests {
    use super::same_text;

    fn told(a: &[u8], b: &[u8]) -> (bool, usize) {
        let [there, back] = [same_text(a, b), same_text(b, a)];
        assert_eq!(there, back);
        (there.same, there.looked)
    }

    #[test]
    fn texts_of_different_lengths_are_not_looked_at() {
        assert_eq!(told(b"", b""), (true, 0));
        assert_eq!(told(b"", b"a"), (false, 0));
        assert_eq!(told(b"tariff", b"tariffs"), (false, 0));
        assert_eq!(told(b"xtariff", b"tariff"), (false, 0));
    }

    #[test]
    fn the_pairs_from_the_end_up_to_the_first_difference_count() {
        for length in 1..300 {
            let text = vec![b'k'; length];
            assert_eq!(told(&text, &text.clone()), (true, length));
            for place in 0..length {
                let mut other = text.clone();
                other[place] ^= 0x80;
                assert_eq!(told(&text, &other), (false, length - place));
                // What differs in front of it does not count.
                other[..place].fill(0);
                assert_eq!(told(&text, &other), (false, length - place));
            }
        }
    }

    #[test]
    fn a_text_and_a_part_of_it_may_be_compared() {
        let text = b"tariff.tariff.tariff";
        assert_eq!(told(text, text), (true, 20));
        assert_eq!(told(&text[7..13], &text[14..]), (true, 6));
        assert_eq!(told(&text[..7], &text[7..14]), (true, 7));
        assert_eq!(told(&text[..6], &text[1..7]), (false, 1));
    }

    #[test]
    fn any_bytes_are_texts() {
        for [a, b] in [[0, 1], [0x7f, 0xff], [0x80, 0]] {
            assert_eq!(told(&[a, 0, 0xff], &[b, 0, 0xff]), (false, 3));
        }
    }
}

//! Pairs of texts of the list.

use std::collections::BTreeSet;

use crate::generate::texts::text;
use crate::generate::words::{CONDITIONALS, GLOBALS, PREDICATES};
use crate::recorded::{Case, call};
use crate::tables::Given;

/// Around a word, a block and two blocks.
const LENGTHS: [usize; 10] = [1, 7, 8, 9, 63, 64, 65, 127, 128, 129];

pub fn cases() -> Vec<Case> {
    let mut cases = vec![case(b"", b""), case(b"", b"x"), case(b"x", b"")];
    for length in LENGTHS {
        let longer = text(length + 1);
        let [front, end] = [&longer[..length], &longer[1..]];
        cases.extend([case(front, front), case(front, &longer), case(end, &longer)]);
        let places = BTreeSet::from([0, length / 2, length - 1]);
        let others = places.into_iter().map(|place| differing(front, place));
        cases.extend(others.map(|other| case(front, &other)));
    }
    for word in fixed_words() {
        let other = differing(word, word.len() / 2);
        cases.extend([case(word, word), case(word, &other)]);
    }
    cases
}

/// The words that the passes look for.
fn fixed_words() -> BTreeSet<&'static [u8]> {
    let words = GLOBALS.into_iter().chain(PREDICATES).chain(CONDITIONALS);
    words.chain(["hasAttr"]).map(str::as_bytes).collect()
}

/// The text with another byte at this place.
fn differing(text: &[u8], place: usize) -> Vec<u8> {
    let mut other = text.to_vec();
    other[place] ^= 1;
    other
}

fn case(text: &[u8], other: &[u8]) -> Case {
    let asked = Case {
        call: call::SAME_TEXT,
        image: text.to_vec(),
        given: Given {
            resolutions: other.to_vec(),
            bindings: Vec::new(),
        },
        ..Case::default()
    };
    asked.second_reading()
}

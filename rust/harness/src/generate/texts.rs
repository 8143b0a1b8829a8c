//! Pairs of texts by what they have in common, for the comparison of texts.

use std::collections::BTreeSet;

use super::words::{CONDITIONALS, GLOBALS, LOCALS, OTHERS, PREDICATES, SHADOWED};
use crate::image::{LONGEST_TEXT, MOST_RUN};
use crate::random::Random;

/// What takes the pairs, one at a time.
pub type Take<'a> = &'a mut dyn FnMut(&[u8], &[u8]);

pub struct Family {
    pub name: &'static str,
    pub pairs: fn(Take),
}

const fn family(name: &'static str, pairs: fn(Take)) -> Family {
    Family { name, pairs }
}

pub const FAMILIES: [Family; 7] = [
    family("every two texts of up to 5 of 3 letters", small),
    family("every two bytes", bytes),
    family("every two lengths up to 200", lengths),
    family("a byte differs, every place up to 200", one_byte),
    family("two bytes differ, every two up to 140", two_bytes),
    family("long beginnings and ends, up to 2^20 - 1", long),
    family("fixed words and what is nearly one", words),
];

/// The longest texts that are compared with every length and with a difference at every place.
const ALL_PLACES: usize = 200;
const ALL_TWO_PLACES: usize = 140;
/// What is done to a byte that shall differ: in the lowest bit, in the highest, in all.
const CHANGES: [u8; 3] = [0x01, 0x80, 0xff];

/// So many bytes, the same ones each time.
pub fn text(length: usize) -> Vec<u8> {
    let mut random = Random::new(0x7e87);
    (0..length).map(|_| random.word() as u8).collect()
}

fn small(take: Take) {
    let mut texts = vec![vec![]];
    let mut shorter = texts.clone();
    for _ in 0..5 {
        let longer = |text: &Vec<u8>| [0, b'a', 0xff].map(|letter| [&text[..], &[letter]].concat());
        shorter = shorter.iter().flat_map(longer).collect();
        texts.extend_from_slice(&shorter);
    }
    every_two(&texts, take);
}

fn every_two(texts: &[Vec<u8>], take: Take) {
    for a in texts {
        texts.iter().for_each(|b| take(a, b));
    }
}

fn bytes(take: Take) {
    let texts: Vec<Vec<u8>> = (0..=255).map(|byte| vec![byte]).collect();
    every_two(&texts, take);
}

/// Beginnings and ends of one text: they differ in nothing but their lengths.
fn lengths(take: Take) {
    let text = text(ALL_PLACES);
    for a in 0..=ALL_PLACES {
        for b in 0..=ALL_PLACES {
            take(&text[..a], &text[..b]);
            take(&text[ALL_PLACES - a..], &text[ALL_PLACES - b..]);
        }
    }
}

fn one_byte(take: Take) {
    for length in 1..=ALL_PLACES {
        let text = text(length);
        let mut other = text.clone();
        for place in 0..length {
            for change in CHANGES {
                other[place] ^= change;
                take(&text, &other);
                other[place] ^= change;
            }
        }
    }
}

/// With each two changes by turns, so that neither hides the other.
fn two_bytes(take: Take) {
    let mut turn = 0;
    for length in 2..=ALL_TWO_PLACES {
        let text = text(length);
        for first in 0..length {
            for second in first + 1..length {
                let mut other = text.clone();
                other[first] ^= CHANGES[turn % 3];
                other[second] ^= CHANGES[turn / 3 % 3];
                take(&text, &other);
                turn += 1;
            }
        }
    }
}

/// Places from the end around those at which a reader of words or of blocks turns.
const FROM_END: [usize; 12] = [1, 2, 7, 8, 9, 63, 64, 65, 72, 73, 128, 129];

fn long(take: Take) {
    let powers = (8..20).map(|power| 1 << power);
    let around = powers.flat_map(|length: usize| [length - 1, length, length + 1]);
    for length in around.chain([MOST_RUN]) {
        let text = text(length);
        take(&text, &text.clone());
        let places = [length / 2, length - 8, length - 1, length];
        for from_end in FROM_END.into_iter().chain(places) {
            differing_at(&text, length - from_end, take);
        }
    }
}

/// Beside the text one that differs at this place alone, one that begins to differ there, and one that differs up to it.
fn differing_at(text: &[u8], place: usize, take: Take) {
    for (start, end) in [(place, place + 1), (place, text.len()), (0, place + 1)] {
        let mut other = text.to_vec();
        other[start..end].iter_mut().for_each(|byte| *byte ^= 0x20);
        take(text, &other);
    }
}

/// The words that the passes look for, and others that programs have.
fn fixed() -> Vec<Vec<u8>> {
    let lists: [&[&str]; 6] = [
        &GLOBALS,
        &PREDICATES,
        &CONDITIONALS,
        &LOCALS,
        &SHADOWED,
        &OTHERS,
    ];
    let words: BTreeSet<&str> = lists.concat().into_iter().collect();
    words.into_iter().map(|word| word.into()).collect()
}

fn words(take: Take) {
    let fixed = fixed();
    every_two(&fixed, take);
    for word in &fixed {
        take(word, b"");
        for place in 0..word.len() {
            nearly(word, place).iter().for_each(|near| take(word, near));
        }
    }
}

/// The word with a byte changed, left out or doubled, and cut off before and behind it.
fn nearly(word: &[u8], place: usize) -> Vec<Vec<u8>> {
    let (before, behind) = (&word[..place], &word[place + 1..]);
    let byte = word[place];
    let mut near: Vec<Vec<u8>> = CHANGES
        .map(|change| [before, &[byte ^ change], behind].concat())
        .into();
    near.push([before, behind].concat());
    near.push([before, &[byte, byte], behind].concat());
    near.extend([before.to_vec(), behind.to_vec()]);
    near
}

/// A pair from a seed: two texts of few letters, or a text beside a changed, a cut or the same one.
pub fn any(random: &mut Random) -> [Vec<u8>; 2] {
    let length = random.size(LONGEST_TEXT);
    let letters = random.between(1, 256);
    let [a, other] = [(); 2].map(|()| few(random, length, letters));
    let mut b = a.clone();
    match random.below(5) {
        0 => b = other,
        1 => b.truncate(random.below(length + 1)),
        2 => drop(b.drain(..random.below(length + 1))),
        3 => (0..random.between(1, 3)).for_each(|_| turn_a_bit(random, &mut b)),
        _ => {}
    }
    [a, b]
}

fn few(random: &mut Random, length: usize, letters: usize) -> Vec<u8> {
    (0..length).map(|_| random.below(letters) as u8).collect()
}

fn turn_a_bit(random: &mut Random, text: &mut [u8]) {
    if !text.is_empty() {
        text[random.below(text.len())] ^= 1 << random.below(8);
    }
}

#[cfg(test)]
mod tests {
    use super::*;

    /// How many pairs a family has, and the longest text.
    fn counted(name: &str) -> (usize, usize) {
        let family = FAMILIES.iter().find(|family| family.name.starts_with(name));
        let (mut pairs, mut longest) = (0, 0);
        (family.expect("a family").pairs)(&mut |a, b| {
            pairs += 1;
            longest = longest.max(a.len()).max(b.len());
        });
        (pairs, longest)
    }

    #[test]
    fn the_families_are_as_large_as_they_say() {
        assert_eq!(counted("every two texts"), (364 * 364, 5));
        assert_eq!(counted("every two bytes"), (256 * 256, 1));
        assert_eq!(counted("every two lengths"), (2 * 201 * 201, 200));
        assert_eq!(counted("a byte differs"), (3 * 20_100, 200));
        assert_eq!(counted("two bytes differ"), (141 * 140 * 139 / 6, 140));
        assert_eq!(counted("long"), (37 * 49, (1 << 20) - 1));
        assert!(counted("fixed").0 > 3_000);
    }

    #[test]
    fn a_pair_that_shall_differ_does() {
        let differs = |pairs: fn(Take)| {
            let mut all = true;
            pairs(&mut |a, b| all &= a.len() == b.len() && a != b);
            all
        };
        assert!(differs(one_byte) && differs(two_bytes));
        let mut same = 0;
        long(&mut |a, b| same += usize::from(a == b));
        assert_eq!(same, 37);
    }

    #[test]
    fn pairs_from_a_seed_are_of_all_sorts() {
        let mut random = Random::new(1);
        let pairs: Vec<[Vec<u8>; 2]> = (0..1000).map(|_| any(&mut random)).collect();
        let count = |is: fn(&[Vec<u8>; 2]) -> bool| pairs.iter().filter(|pair| is(pair)).count();
        assert!(count(|[a, b]| a == b) > 100);
        assert!(count(|[a, b]| a.len() != b.len()) > 100);
        assert!(count(|[a, b]| a.len() == b.len() && a != b) > 100);
        assert!(count(|[a, _]| a.len() > 1000) > 20);
    }
}

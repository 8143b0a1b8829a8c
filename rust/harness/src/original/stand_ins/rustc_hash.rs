//! Hash maps with the hashing of rustc-hash, version 2: words are added and multiplied, bytes are
//! first folded into one word.

use std::collections::{HashMap, HashSet};
use std::hash::{BuildHasherDefault, Hasher};

pub type FxHashMap<K, V> = HashMap<K, V, BuildHasherDefault<FxHasher>>;
pub type FxHashSet<T> = HashSet<T, BuildHasherDefault<FxHasher>>;

/// The factor of the polynomial.
const FACTOR: u64 = 0xf135_7aea_2e62_a9c5;
/// Digits of pi, from which the folding of bytes starts.
const START: [u64; 2] = [0x243f_6a88_85a3_08d3, 0x1319_8a2e_0370_7344];
const BLOCK_START: u64 = 0xa409_3822_299f_31d0;
/// The last step moves the best bits to where the tables look.
const TURN: u32 = 26;

#[derive(Default, Clone, Copy)]
pub struct FxHasher {
    sum: u64,
}

impl FxHasher {
    fn add(&mut self, word: u64) {
        self.sum = self.sum.wrapping_add(word).wrapping_mul(FACTOR);
    }
}

impl Hasher for FxHasher {
    fn write(&mut self, bytes: &[u8]) {
        self.add(fold_bytes(bytes));
    }

    fn write_u8(&mut self, word: u8) {
        self.add(word.into());
    }

    fn write_u32(&mut self, word: u32) {
        self.add(word.into());
    }

    fn write_u64(&mut self, word: u64) {
        self.add(word);
    }

    fn write_usize(&mut self, word: usize) {
        self.add(word as u64);
    }

    fn finish(&self) -> u64 {
        self.sum.rotate_left(TURN)
    }
}

/// Both halves of the product, laid over each other.
fn mix(one: u64, two: u64) -> u64 {
    let product = u128::from(one) * u128::from(two);
    product as u64 ^ (product >> 64) as u64
}

fn word(bytes: &[u8; 8]) -> u64 {
    u64::from_le_bytes(*bytes)
}

fn half_word(bytes: &[u8; 4]) -> u64 {
    u32::from_le_bytes(*bytes).into()
}

/// Up to 16 bytes go in as two words, which overlap where there are fewer.
fn two_words(bytes: &[u8]) -> [u64; 2] {
    if let (Some(first), Some(last)) = (bytes.first_chunk(), bytes.last_chunk()) {
        return [word(first), word(last)];
    }
    if let (Some(first), Some(last)) = (bytes.first_chunk(), bytes.last_chunk()) {
        return [half_word(first), half_word(last)];
    }
    match bytes {
        [] => [0, 0],
        [first, .., last] => {
            let middle = bytes[bytes.len() / 2];
            [u64::from(*first), u64::from(*last) << 8 | u64::from(middle)]
        }
        [only] => [u64::from(*only), u64::from(*only) << 8 | u64::from(*only)],
    }
}

fn fold_bytes(bytes: &[u8]) -> u64 {
    let [mut one, mut two] = START;
    let mut rest = bytes;
    while rest.len() > 16 {
        let [first, second] = two_words(&rest[..16]);
        (one, two) = (two, mix(one ^ first, BLOCK_START ^ second));
        rest = &rest[16..];
    }
    // What is left of a long text goes in together with the bytes before it.
    let last = if bytes.len() > 16 {
        &bytes[bytes.len() - 16..]
    } else {
        bytes
    };
    let [first, second] = two_words(last);
    mix(one ^ first, two ^ second) ^ bytes.len() as u64
}

#[cfg(test)]
mod tests {
    use super::*;
    use std::hash::Hash;

    fn hash(value: impl Hash) -> u64 {
        let mut hasher = FxHasher::default();
        value.hash(&mut hasher);
        hasher.finish()
    }

    fn hash_bytes(bytes: &[u8]) -> u64 {
        let mut hasher = FxHasher::default();
        hasher.write(bytes);
        hasher.finish()
    }

    #[test]
    fn hashes_are_those_that_the_crate_publishes() {
        assert_eq!(hash(0usize), 0);
        assert_eq!(hash(1usize), 12157901119326311915);
        assert_eq!(hash(1u32), 12157901119326311915);
        assert_eq!(hash_bytes(b""), 17606491139363777937);
        assert_eq!(hash_bytes(b"uwu"), 7168164714682931527);
        let text = b"These are some bytes for testing rustc_hash.";
        assert_eq!(hash_bytes(text), 2349210501944688211);
    }

    #[test]
    fn every_length_is_told_apart() {
        let text = "abcdefghijklmnopqrstuvwxyz0123456789abcdefghijklmnopqrstuvwxyz";
        let hashes: HashSet<u64> = (0..text.len()).map(|end| hash(&text[..end])).collect();
        assert_eq!(hashes.len(), text.len());
    }

    #[test]
    fn every_byte_counts() {
        for length in [1, 3, 4, 7, 8, 15, 16, 17, 31, 32, 33, 40] {
            let plain = vec![b'a'; length];
            for place in 0..length {
                let mut other = plain.clone();
                other[place] = b'b';
                assert_ne!(fold_bytes(&plain), fold_bytes(&other), "{length} {place}");
            }
        }
    }
}

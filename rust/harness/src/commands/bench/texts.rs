//! The comparison of texts over Rust's `==`, which compares lengths and then bytes from the first to the last.

use std::hint::black_box;

use super::measure;
use crate::generate::texts::text;
use crate::port;

/// Keys as profiles have them, and the lengths of the long beginnings.
const LENGTHS: [usize; 5] = [8, 16, 40, 400, 4000];

pub fn run() {
    println!("same_text: time of the port, which counts pairs, over time of == in Rust");
    for (name, [a, b]) in cases() {
        let measured = measure(
            || port::same_text(black_box(&a), black_box(&b), &mut 0),
            || u32::from(black_box(&a) == black_box(&b)),
        );
        println!("{}", measured.line(&name, a.len()));
    }
}

/// Of each length a text beside the same one, and beside those that differ in one place or in their lengths.
fn cases() -> Vec<(String, [Vec<u8>; 2])> {
    let mut cases = Vec::new();
    for length in LENGTHS {
        let text = text(length);
        let differing = |place: usize| {
            let mut other = text.clone();
            other[place] ^= 1;
            other
        };
        let others = [
            ("same", text.clone()),
            ("last byte differs", differing(length - 1)),
            ("middle byte differs", differing(length / 2)),
            ("first byte differs", differing(0)),
            ("a byte shorter", text[1..].to_vec()),
        ];
        let case = |(name, other)| (format!("{length}, {name}"), [text.clone(), other]);
        cases.extend(others.map(case));
    }
    cases
}

#[cfg(test)]
mod tests {
    use super::*;
    use crate::second_reading::same_text;

    #[test]
    fn every_case_is_what_its_name_says() {
        let cases = cases();
        assert_eq!(cases.len(), 5 * LENGTHS.len());
        for (name, [a, b]) in &cases {
            let mut looked = 0;
            let answer = same_text(a, b, &mut looked);
            let length = a.len();
            let expected = match name.split_once(", ").expect("a length and a name").1 {
                "same" => (1, length),
                "last byte differs" => (0, 1),
                "middle byte differs" => (0, length - length / 2),
                "first byte differs" => (0, length),
                _ => (0, 0),
            };
            assert_eq!((answer, looked), expected, "{name}");
        }
    }
}

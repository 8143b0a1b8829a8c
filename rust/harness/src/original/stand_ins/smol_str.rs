//! Strings that hold up to 23 bytes in place and share longer ones. Each keeps the number that its text has in an
//! image, which takes no part in comparing or hashing: copies then tell which of several equal texts they are.

use std::fmt;
use std::hash::{Hash, Hasher};
use std::ops::Deref;
use std::sync::Arc;

const INLINE_BYTES: usize = 23;
/// The number of a text that is in no image.
const UNNUMBERED: u32 = u32::MAX;

/// The number stands in both forms, where it takes no room of its own.
#[derive(Clone)]
enum Text {
    Inline {
        length: u8,
        bytes: [u8; INLINE_BYTES],
        number: u32,
    },
    Shared {
        text: Arc<str>,
        number: u32,
    },
}

#[derive(Clone)]
pub struct SmolStr(Text);

impl SmolStr {
    pub fn new(text: &str) -> Self {
        Self::numbered(text, UNNUMBERED)
    }

    /// The text that has this number in its image.
    pub fn numbered(text: &str, number: u32) -> Self {
        let length = text.len();
        if length > INLINE_BYTES {
            let text = text.into();
            return SmolStr(Text::Shared { text, number });
        }
        let mut bytes = [0; INLINE_BYTES];
        bytes[..length].copy_from_slice(text.as_bytes());
        SmolStr(Text::Inline {
            length: length as u8,
            bytes,
            number,
        })
    }

    pub fn number(&self) -> u32 {
        match self.0 {
            Text::Inline { number, .. } | Text::Shared { number, .. } => number,
        }
    }

    fn as_bytes(&self) -> &[u8] {
        match &self.0 {
            Text::Inline { length, bytes, .. } => &bytes[..usize::from(*length)],
            Text::Shared { text, .. } => text.as_bytes(),
        }
    }

    /// Without unsafe code an inline text is looked through here; comparing and hashing need not.
    pub fn as_str(&self) -> &str {
        match &self.0 {
            Text::Inline { .. } => str::from_utf8(self.as_bytes()).expect("made from a str"),
            Text::Shared { text, .. } => text,
        }
    }
}

impl From<&str> for SmolStr {
    fn from(text: &str) -> Self {
        SmolStr::new(text)
    }
}

impl Deref for SmolStr {
    type Target = str;
    fn deref(&self) -> &str {
        self.as_str()
    }
}

impl fmt::Debug for SmolStr {
    fn fmt(&self, f: &mut fmt::Formatter<'_>) -> fmt::Result {
        self.as_str().fmt(f)
    }
}

/// As a `str` is hashed: its bytes and a closing one.
impl Hash for SmolStr {
    fn hash<H: Hasher>(&self, state: &mut H) {
        state.write(self.as_bytes());
        state.write_u8(0xff);
    }
}

impl PartialEq for SmolStr {
    fn eq(&self, other: &Self) -> bool {
        self.as_bytes() == other.as_bytes()
    }
}

impl Eq for SmolStr {}

impl PartialEq<str> for SmolStr {
    fn eq(&self, other: &str) -> bool {
        self.as_bytes() == other.as_bytes()
    }
}

impl PartialEq<SmolStr> for str {
    fn eq(&self, other: &SmolStr) -> bool {
        other == self
    }
}

#[cfg(test)]
mod tests {
    use super::*;

    #[test]
    fn texts_of_all_lengths_come_back() {
        for length in [0, 1, 22, 23, 24, 4095] {
            let text = "k".repeat(length);
            let small = SmolStr::new(&text);
            assert_eq!(small.as_str(), text);
            assert!(small == *text.as_str() && small == small.clone());
            let is_inline = matches!(small.0, Text::Inline { .. });
            assert_eq!(is_inline, length <= INLINE_BYTES);
        }
    }

    #[test]
    fn a_number_stays_with_copies_and_takes_no_part_in_comparing() {
        for text in ["f", &"k".repeat(30)] {
            let (one, two) = (SmolStr::numbered(text, 3), SmolStr::numbered(text, 7));
            assert!(one == two && one == SmolStr::new(text));
            assert_eq!((one.clone().number(), two.clone().number()), (3, 7));
        }
        assert_eq!(size_of::<SmolStr>(), 32);
    }

    #[test]
    fn it_hashes_like_a_str() {
        use crate::original::stand_ins::rustc_hash::FxHasher;
        let (mut one, mut two) = (FxHasher::default(), FxHasher::default());
        SmolStr::new("größe").hash(&mut one);
        "größe".hash(&mut two);
        assert_eq!(one.finish(), two.finish());
    }
}

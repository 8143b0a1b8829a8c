//! Buffers lent to the port, with bytes around them that it must not touch.

/// How many bytes stand before and behind a lent buffer.
const AROUND: usize = 8;
/// What stands there, and in a fresh buffer: a value that no answer leaves by chance everywhere.
pub const FRESH: u8 = 0xa5;

pub struct Lent {
    bytes: Vec<u8>,
}

impl Lent {
    pub fn new(length: usize) -> Self {
        Lent {
            bytes: vec![FRESH; length + 2 * AROUND],
        }
    }

    /// The part that is lent.
    pub fn part(&mut self) -> &mut [u8] {
        let end = self.bytes.len() - AROUND;
        &mut self.bytes[AROUND..end]
    }

    /// Whether the lent part holds these bytes, and nothing around it has changed.
    pub fn holds(&self, expected: &[u8]) -> bool {
        let end = self.bytes.len() - AROUND;
        let (before, rest) = self.bytes.split_at(AROUND);
        let (part, behind) = rest.split_at(end - AROUND);
        part == expected && before.iter().chain(behind).all(|&byte| byte == FRESH)
    }
}

#[cfg(test)]
mod tests {
    use super::*;

    #[test]
    fn a_byte_written_around_the_part_is_seen() {
        let mut lent = Lent::new(2);
        lent.part().copy_from_slice(&[1, 2]);
        assert!(lent.holds(&[1, 2]));
        assert!(!lent.holds(&[1, 3]));
        lent.bytes[AROUND - 1] = 0;
        assert!(!lent.holds(&[1, 2]));
    }
}

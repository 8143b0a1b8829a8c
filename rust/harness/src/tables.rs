//! Tables of 16-bit entries, most significant byte first, and what those of a resolution table say.

use crate::image::NONE;

/// Tags of the entries of a resolution table, above a value of 14 bits; 0 is none.
pub const DEFINITION: u16 = 1;
pub const BUILTIN: u16 = 2;
pub const WITH: u16 = 3;

/// The two tables that conditions are given: 2 bytes an expression, and 2 bytes a name.
#[derive(Clone, Debug, PartialEq, Eq)]
pub struct Given {
    pub resolutions: Vec<u8>,
    pub bindings: Vec<u8>,
}

impl Given {
    /// Tables that resolve and bind nothing.
    pub fn empty(exprs: usize, names: usize) -> Self {
        Given {
            resolutions: vec![0; 2 * exprs],
            bindings: table(std::iter::repeat_n(NONE as u16, names)),
        }
    }
}

/// An entry of a resolution table.
pub fn resolution(tag: u16, value: u32) -> u16 {
    tag << 14 | value as u16
}

/// The 16-bit entries of a table.
pub fn entries(table: &[u8]) -> impl Iterator<Item = u16> {
    let (entries, _) = table.as_chunks();
    entries.iter().map(|&entry| u16::from_be_bytes(entry))
}

pub fn table(entries: impl Iterator<Item = u16>) -> Vec<u8> {
    entries.flat_map(u16::to_be_bytes).collect()
}

#[cfg(test)]
mod tests {
    use super::*;

    #[test]
    fn entries_come_back_from_their_bytes() {
        let written = [resolution(WITH, 0x3fff), 0, resolution(BUILTIN, 2)];
        let bytes = table(written.into_iter());
        assert_eq!(bytes, [255, 255, 0, 0, 128, 2]);
        assert_eq!(entries(&bytes).collect::<Vec<u16>>(), written);
    }
}

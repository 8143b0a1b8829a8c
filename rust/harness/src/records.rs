//! Records of narrowings in 32 bits: name 14, sort 4, value 14. And what a walk writes of names.

pub type Record = u32;

/// An edge between names in 32 bits: from 14, to 14, zero 4.
pub type Edge = u32;

/// A narrowing in force at a binding in 64 bits: binding 14, zero 18, record 32.
pub type Narrowing = u64;

pub mod sort {
    pub const IS_TYPE: u32 = 0;
    pub const IS_NOT_TYPE: u32 = 1;
    pub const HAS_FIELD: u32 = 2;
    pub const NOT_HAS_FIELD: u32 = 3;
    pub const IS_ATTR_SET: u32 = 4;
    pub const IS_LIST: u32 = 5;
    pub const IS_FUNCTION: u32 = 6;
    /// An integer or a float: of a comparison with a number literal (document 02, order 5).
    pub const IS_NUMBER: u32 = 7;
    pub const COUNT: usize = 8;
}

/// The values of the two sorts that speak of a type.
pub mod ty {
    pub const NULL: u32 = 0;
    pub const BOOL: u32 = 1;
    pub const INT: u32 = 2;
    pub const FLOAT: u32 = 3;
    pub const STRING: u32 = 4;
    pub const PATH: u32 = 5;
}

pub const fn record(name: u32, sort: u32, value: u32) -> Record {
    name << 18 | sort << 14 | value
}

pub fn sort_of(record: Record) -> usize {
    (record >> 14 & 0xf) as usize
}

pub fn edge(from: u32, to: u32) -> Edge {
    from << 18 | to << 4
}

pub fn narrowing(binding: u32, record: Record) -> Narrowing {
    u64::from(binding) << 50 | u64::from(record)
}

pub fn binding_of(narrowing: Narrowing) -> u32 {
    (narrowing >> 50) as u32
}

pub fn record_of(narrowing: Narrowing) -> Record {
    narrowing as u32
}

/// A list of records or edges as it is written, most significant byte first.
pub fn bytes(records: &[u32]) -> Vec<u8> {
    records.iter().copied().flat_map(u32::to_be_bytes).collect()
}

pub fn narrowing_bytes(narrowings: &[Narrowing]) -> Vec<u8> {
    let narrowings = narrowings.iter().copied();
    narrowings.flat_map(u64::to_be_bytes).collect()
}

/// The edges that these bytes are.
pub fn edges(bytes: &[u8]) -> Vec<Edge> {
    let (edges, _) = bytes.as_chunks();
    edges.iter().copied().map(u32::from_be_bytes).collect()
}

pub fn narrowings(bytes: &[u8]) -> Vec<Narrowing> {
    let (narrowings, _) = bytes.as_chunks();
    narrowings.iter().copied().map(u64::from_be_bytes).collect()
}

#[cfg(test)]
mod tests {
    use super::*;

    #[test]
    fn fields_stand_most_significant_first() {
        let widest = record(16383, sort::IS_FUNCTION, 0);
        assert_eq!(bytes(&[widest]), [255, 253, 128, 0]);
        assert_eq!(sort_of(widest), 6);
        let number = record(2, sort::IS_NUMBER, 0);
        assert_eq!(bytes(&[number]), [0, 9, 192, 0]);
        assert_eq!(sort_of(number), 7);
        let key = record(1, sort::HAS_FIELD, 16383);
        assert_eq!(bytes(&[key, 2]), [0, 4, 191, 255, 0, 0, 0, 2]);
        assert_eq!(bytes(&[edge(16383, 1)]), [255, 252, 0, 16]);
        assert_eq!(edges(&[255, 252, 0, 16]), [edge(16383, 1)]);
        let recorded = narrowing(16383, key);
        let written = narrowing_bytes(&[recorded]);
        assert_eq!(written, [255, 252, 0, 0, 0, 4, 191, 255]);
        assert_eq!(narrowings(&written), [recorded]);
        assert_eq!((binding_of(recorded), record_of(recorded)), (16383, key));
    }
}

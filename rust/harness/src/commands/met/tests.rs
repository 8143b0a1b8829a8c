//! What is rare.

use super::*;

#[test]
fn what_is_rare_is_named() {
    let mut met = Met::default();
    assert_eq!(met.rare(IN_WALKS, 1).len(), 5 * (3 * 3 + 1));
    assert_eq!(met.rare(IN_CONDITIONS, 1).len(), 5 * (3 * 2 + 1));
    met.counts = [[[7; 4]; 3]; 5];
    met.parted = 150;
    assert!(met.is_enough(IN_WALKS, 15_000) && !met.is_enough(IN_CONDITIONS, 16_000));
    met.parted = 149;
    assert!(!met.is_enough(IN_WALKS, 15_000));
}

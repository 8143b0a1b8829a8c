//! Generators with fixed seeds: well-formed trees of all kinds and shapes, and damaged copies.

pub mod arrows;
pub mod change;
pub mod conditions;
pub mod damage;
pub mod given;
pub mod grow;
pub mod guards;
pub mod modules;
pub mod own_builtins;
pub mod shapes;
pub mod slow;
pub mod small;
pub mod texts;
pub mod walks;
pub mod words;

use crate::image::{MOST_NUMBERED, Tree};
use crate::random::Random;
use grow::Texts;

/// A tree of some generator. Most are small; a few are as deep or wide as an image can be.
pub fn tree(random: &mut Random, texts: Texts) -> Tree {
    match random.below(1000) {
        0..=12 => large_tree(random, texts),
        13..=40 => random.pick(&shapes::NESTINGS).chain(random.between(1, 60)),
        41..=60 => shapes::guard_chain(random.below(40)),
        61..=70 => shapes::doubling(random.below(70)),
        71..=400 => {
            let size = random.between(2, 90);
            guards::tree(random, size)
        }
        401..=500 => {
            let (size, width) = (random.between(4, 90), random.between(1, 12));
            modules::tree(random, size, width)
        }
        _ => {
            let size = random.between(1, 60);
            grow::tree(random, size, texts)
        }
    }
}

fn large_tree(random: &mut Random, texts: Texts) -> Tree {
    match random.below(13) {
        0..=3 => {
            let nesting = random.pick(&shapes::NESTINGS);
            nesting.chain(random.between(1, MOST_NUMBERED))
        }
        4..=5 => {
            let size = random.size(MOST_NUMBERED);
            grow::tree(random, size, texts)
        }
        6..=8 => {
            let count = random.between(1, 2000);
            shapes::wide(random, count)
        }
        9 => shapes::wide_pattern(random.between(1, 2000)),
        10 => shapes::long_texts(random.between(1, 200)),
        11 => {
            let size = random.between(100, 3000);
            guards::tree(random, size)
        }
        _ => {
            let size = random.between(100, 3000);
            modules::tree(random, size, size / 10)
        }
    }
}

#[cfg(test)]
mod tests {
    use super::*;
    use crate::image::{LONGEST_TEXT, MOST_RUN, NONE, kind, role};
    use crate::second_reading::check;

    #[test]
    fn generated_trees_are_accepted_and_come_back() {
        let mut random = Random::new(7);
        for _ in 0..2000 {
            let tree = tree(&mut random, Texts::Bytes);
            let image = tree.encode();
            assert_eq!(check(&image), 0);
            assert_eq!(Tree::decode(&image), tree);
        }
    }

    #[test]
    fn generated_trees_have_all_kinds_and_roles() {
        let mut random = Random::new(8);
        let trees: Vec<Tree> = (0..500).map(|_| tree(&mut random, Texts::Bytes)).collect();
        let exprs = || trees.iter().flat_map(|tree| &tree.exprs);
        for kind in 0..kind::COUNT {
            assert!(exprs().any(|e| e.kind == kind), "kind {kind}");
        }
        for role in 0..=role::PARAMETER {
            let mut items = exprs().flat_map(|e| &e.items);
            assert!(items.any(|item| item.role == role), "role {role}");
        }
    }

    /// Whether some value stands twice.
    fn repeats<T: Ord>(values: impl Iterator<Item = T>) -> bool {
        let mut values: Vec<T> = values.collect();
        values.sort();
        values.windows(2).any(|pair| pair[0] == pair[1])
    }

    #[test]
    fn generated_trees_have_what_is_odd_but_allowed() {
        let mut random = Random::new(10);
        let trees: Vec<Tree> = (0..500).map(|_| tree(&mut random, Texts::Bytes)).collect();
        let some = |odd: fn(&Tree) -> bool| trees.iter().any(odd);
        assert!(some(|tree| repeats(owned(tree))), "shared");
        assert!(some(has_unreached), "unreachable");
        assert!(
            some(|tree| tree.entry + 1 < tree.exprs.len() as u32),
            "entry"
        );
        assert!(some(|tree| repeats(bound(tree))), "bound twice");
        assert!(some(|tree| repeats(tree.texts.iter())), "equal texts");
        for length in [0, LONGEST_TEXT] {
            let texts = || trees.iter().flat_map(|tree| &tree.texts);
            assert!(texts().any(|text| text.len() == length), "{length}");
        }
        let is_utf8 = |text: &Vec<u8>| str::from_utf8(text).is_ok();
        assert!(
            trees.iter().any(|tree| !tree.texts.iter().all(is_utf8)),
            "no UTF-8"
        );
    }

    /// Whether something below the entry is not reached from it.
    fn has_unreached(tree: &Tree) -> bool {
        let mut reached = vec![false; tree.entry as usize + 1];
        reached[tree.entry as usize] = true;
        for e in (0..reached.len()).rev() {
            if reached[e] {
                let items = tree.exprs[e].items.iter();
                let below = items.map(|item| item.expr).filter(|&expr| expr != NONE);
                below.for_each(|expr| reached[expr as usize] = true);
            }
        }
        reached.contains(&false)
    }

    fn owned(tree: &Tree) -> impl Iterator<Item = u32> {
        let items = tree.exprs.iter().flat_map(|e| &e.items);
        items.map(|item| item.expr).filter(|&expr| expr != NONE)
    }

    fn bound(tree: &Tree) -> impl Iterator<Item = u32> {
        let items = tree.exprs.iter().flat_map(|e| &e.items);
        items.map(|item| item.name).filter(|&name| name != NONE)
    }

    #[test]
    fn utf8_trees_have_utf8_texts() {
        let mut random = Random::new(12);
        for _ in 0..500 {
            let tree = tree(&mut random, Texts::Utf8);
            assert!(tree.texts.iter().all(|text| str::from_utf8(text).is_ok()));
        }
    }

    #[test]
    fn chains_of_every_nesting_are_accepted_at_full_depth() {
        for nesting in &shapes::NESTINGS {
            let tree = nesting.chain(MOST_NUMBERED);
            assert_eq!(tree.exprs.len(), MOST_NUMBERED);
            assert_eq!(check(&tree.encode()), 0, "{}", nesting.name);
        }
    }

    #[test]
    fn the_largest_image_has_every_count_at_its_highest() {
        let fields = shapes::largest().fields();
        assert_eq!(fields.exprs.len(), MOST_NUMBERED);
        assert_eq!(fields.names.len(), MOST_NUMBERED);
        assert_eq!(fields.texts.len(), MOST_NUMBERED);
        assert_eq!(fields.items.len(), MOST_RUN);
        assert_eq!(fields.bytes.len(), MOST_RUN);
        assert_eq!(check(&fields.encode()), 0);
    }

    #[test]
    fn other_shapes_are_accepted() {
        let mut random = Random::new(9);
        assert_eq!(check(&shapes::wide(&mut random, 5000).encode()), 0);
        assert_eq!(check(&shapes::wide_pattern(3000).encode()), 0);
        assert_eq!(check(&shapes::long_texts(250).encode()), 0);
        assert_eq!(check(&shapes::guard_chain(1000).encode()), 0);
        for guard in &shapes::GUARDS {
            let tree = guard.chain(MOST_NUMBERED);
            assert_eq!(tree.exprs.len(), MOST_NUMBERED);
            assert_eq!(check(&tree.encode()), 0, "{}", guard.name);
        }
        assert_eq!(check(&shapes::conditional_calls(MOST_NUMBERED).encode()), 0);
        for nesting in &shapes::CONDITION_NESTINGS {
            assert_eq!(check(&shapes::condition_chain(nesting, 1000).encode()), 0);
            let tree = shapes::guarded_by_chain(nesting, MOST_NUMBERED);
            assert_eq!(tree.exprs.len(), MOST_NUMBERED);
            assert_eq!(check(&tree.encode()), 0);
        }
        assert_eq!(check(&shapes::doubling(16382).encode()), 0);
    }

    #[test]
    fn doubling_doubles_the_visits_and_they_are_counted_up_to_the_most() {
        assert_eq!(shapes::doubling(10).visits()[10], (1 << 11) - 1);
        assert_eq!(shapes::doubling(100).visits()[100], u64::MAX);
    }
}

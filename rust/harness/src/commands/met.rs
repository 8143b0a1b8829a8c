//! How often what is compared meets selections from a reference spelt `builtins`: by what that resolves to, by the path, and
//! by what is called.

use crate::selections::{
    ALIAS, CONDITIONAL, HAS_ATTR, MEANT, ONE_KEY, PATHS, PREDICATE, SETS, Selected, USES,
};

/// The uses of a selection that a condition has alone, and those that a walk has.
pub const IN_CONDITIONS: &[usize] = &[PREDICATE, HAS_ATTR, ALIAS];
pub const IN_WALKS: &[usize] = &[PREDICATE, HAS_ATTR, ALIAS, CONDITIONAL];

/// Each use must come once in so many images, and so often the original must answer otherwise.
const RAREST_USE: usize = 2000;
const RAREST_PARTED: usize = 100;

#[derive(Debug, Default)]
pub struct Met {
    /// What the original answers otherwise, since a `builtins` is not the builtin set.
    pub parted: usize,
    /// By the set, the path and the use.
    counts: [[[usize; USES.len()]; PATHS.len()]; SETS.len()],
}

impl Met {
    /// Counts a selection that a call uses. One from the builtin set counts where all are that: there the original is asked.
    pub fn see(&mut self, (selected, used): (Selected, usize), is_meant: bool) {
        if (selected.set == MEANT) == is_meant {
            self.counts[selected.set][selected.path][used] += 1;
        }
    }

    /// How often each of these uses came, by the set and the path.
    fn uses(&self, uses: &[usize]) -> Vec<(String, usize)> {
        let mut counted = Vec::new();
        for (set, paths) in SETS.iter().zip(&self.counts) {
            for (place, path) in PATHS.iter().enumerate() {
                // An alias leads to a selection of one key.
                let uses = uses
                    .iter()
                    .filter(|&&used| used != ALIAS || place == ONE_KEY);
                counted.extend(uses.map(|&used| {
                    let name = format!("{set}, {path}, {}", USES[used]);
                    (name, paths[place][used])
                }));
            }
        }
        counted
    }

    /// Those that came less often than this.
    pub fn rare(&self, uses: &[usize], fewest: usize) -> Vec<(String, usize)> {
        let counted = self.uses(uses).into_iter();
        counted.filter(|(_, count)| *count < fewest).collect()
    }

    /// Says what came, and whether each of these uses came often enough in so many images.
    pub fn is_enough(&self, uses: &[usize], images: usize) -> bool {
        let sums = self.counts.iter().map(|paths| paths.iter().flatten().sum());
        let sums: Vec<(&str, usize)> = SETS.into_iter().zip(sums).collect();
        println!(
            "calls of what is selected from a `builtins`, by what that is: {sums:?}; the original answers otherwise {} \
             times",
            self.parted
        );
        let rare = self.rare(uses, images / RAREST_USE);
        let is_enough = rare.is_empty() && self.parted >= images / RAREST_PARTED;
        if !is_enough {
            println!("FAILED: too few calls of what is selected from a `builtins`: {rare:?}");
        }
        is_enough
    }
}

#[cfg(test)]
pub mod turned;

#[cfg(test)]
mod tests;

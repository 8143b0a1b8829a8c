//! What a resolution and a walk need, and how deep an image is, a second time.
//!
//! Needs are the sums that the second readings of both calls make. Levels are found from the entry down: owners have
//! higher numbers than their parts, so every way to an expression is known when its turn comes.

use super::conditions::Asked;
use super::dependencies::dependency_counts;
use super::resolution::resolution_counts;
use super::{ACCEPTED, Image, check};
use crate::image::NONE;
use crate::port::refusal::{BROKEN_GIVEN, OVER_BUDGET};
use crate::port::{ResolutionCounts, WalkCounts};
use crate::tables::Given;

/// The answer's number, with the levels left as the call leaves them.
pub fn levels(image: &[u8], levels: &mut u32) -> u32 {
    let refusal = check(image);
    if refusal == ACCEPTED {
        *levels = Image::accepted(image).levels();
    }
    refusal
}

impl Image<'_> {
    fn levels(&self) -> u32 {
        // The expressions on the longest way from the entry to each, 0 where none leads to it.
        let mut longest = vec![0; self.exprs.len()];
        longest[self.entry as usize] = 1;
        for e in (0..=self.entry).rev() {
            let here = longest[e as usize];
            let parts = self.items(e).filter(|item| here > 0 && item.expr != NONE);
            for part in parts {
                let below = &mut longest[part.expr as usize];
                *below = (here + 1).max(*below);
            }
        }
        longest.into_iter().fold(0, u32::max)
    }
}

/// The answer's number, with the need left as the call leaves it.
pub fn resolution_need(image: &[u8], budget: u32, need: &mut ResolutionCounts) -> u32 {
    let refusal = check(image);
    if refusal != ACCEPTED {
        return refusal;
    }
    let [steps, scopes] = resolution_counts(image);
    if steps > budget.into() {
        *need = ResolutionCounts::default();
        return OVER_BUDGET;
    }
    *need = ResolutionCounts {
        steps: steps as u32,
        scopes: scopes as usize,
    };
    ACCEPTED
}

/// The answer's number, with the need left as the call leaves it.
pub fn dependencies_need(image: &[u8], given: &Given, budget: u32, need: &mut WalkCounts) -> u32 {
    let refusal = check(image);
    if refusal != ACCEPTED {
        return refusal;
    }
    let asked = Asked::new(image, &given.resolutions, &given.bindings);
    if !asked.tables_hold() {
        return BROKEN_GIVEN;
    }
    let [steps, edges, narrowings, most] = dependency_counts(asked);
    if steps > budget.into() {
        *need = WalkCounts::default();
        return OVER_BUDGET;
    }
    *need = WalkCounts {
        steps: steps as u32,
        edges: edges as usize,
        narrowings: narrowings as usize,
        most: most as usize,
    };
    ACCEPTED
}

#[cfg(test)]
mod tests;

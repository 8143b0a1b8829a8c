//! What a run comes to: by the original where it is at hand and takes the image, else by the second reading.

use crate::image::Tree;
#[cfg(original)]
use crate::original::passes::{Subject, Tables};
use crate::port::{ResolutionCounts, WalkCounts};
use crate::second_reading::needs;
use crate::tables::Given;

/// An accepted image, and its tree where the original takes it.
#[derive(Clone, Copy)]
pub struct Sample<'a> {
    pub image: &'a [u8],
    pub original: Option<&'a Tree>,
}

/// What the resolution needs, of a run that any budget allows.
pub fn resolution(sample: Sample) -> ResolutionCounts {
    let original = sample.original.and_then(original_resolution);
    original.unwrap_or_else(|| {
        let mut need = ResolutionCounts::default();
        needs::resolution_need(sample.image, u32::MAX, &mut need);
        need
    })
}

/// What the walk needs, of a run that any budget allows.
pub fn dependencies(sample: Sample, given: &Given) -> WalkCounts {
    let original = sample.original;
    let original = original.and_then(|tree| original_dependencies(tree, given));
    original.unwrap_or_else(|| {
        let mut need = WalkCounts::default();
        needs::dependencies_need(sample.image, given, u32::MAX, &mut need);
        need
    })
}

#[cfg(original)]
fn original_resolution(tree: &Tree) -> Option<ResolutionCounts> {
    let resolved = Subject::new(tree).name_resolution();
    Some(ResolutionCounts {
        steps: resolved.steps as u32,
        scopes: resolved.scopes,
    })
}

#[cfg(original)]
fn original_dependencies(tree: &Tree, given: &Given) -> Option<WalkCounts> {
    let walked = Subject::new(tree).walk_as_is(&Tables::given(given));
    Some(WalkCounts {
        steps: walked.steps as u32,
        edges: walked.edges.len(),
        narrowings: walked.narrowings.len(),
        most: walked.most_in_force,
    })
}

#[cfg(not(original))]
fn original_resolution(_: &Tree) -> Option<ResolutionCounts> {
    None
}

#[cfg(not(original))]
fn original_dependencies(_: &Tree, _: &Given) -> Option<WalkCounts> {
    None
}

//! The port's exported calls with their numbers: 0, or the number of the refusal.

use lang_ast::raw::{self, Tables};
pub use lang_ast::raw::{Analysis, ResolutionCounts, Walk, WalkBuffers, WalkCounts};

use crate::image::Fields;
use crate::second_reading;
use crate::tables::Given;

/// The numbers of refusals that do not speak of the image.
pub mod refusal {
    pub const BROKEN_GIVEN: u32 = 7;
    pub const OVER_BUDGET: u32 = 8;
    pub const TOO_SHORT: u32 = 9;
}

fn number(answer: Result<(), lang_ast::Refusal>) -> u32 {
    answer.map_or_else(|refusal| refusal.number(), |()| 0)
}

/// Whether an image is accepted.
pub fn check(image: &[u8]) -> u32 {
    number(raw::check(image))
}

/// How deep an image is, in expressions.
pub fn levels(image: &[u8], levels: &mut u32) -> u32 {
    number(raw::levels(image, levels))
}

/// What the resolution of an image needs, without running it.
pub fn resolution_need(image: &[u8], budget: u32, need: &mut ResolutionCounts) -> u32 {
    number(raw::resolution_need(image, budget, need))
}

/// What the walk over an image with these tables needs.
pub fn dependencies_need(image: &[u8], given: &Given, budget: u32, need: &mut WalkCounts) -> u32 {
    number(raw::dependencies_need(image, tables(given), budget, need))
}

/// The form of the call that compares texts: both, and where the pairs that it looked at are written.
pub type SameText = fn(&[u8], &[u8], &mut usize) -> u32;

/// Whether two texts are the same, 1 or 0.
pub fn same_text(a: &[u8], b: &[u8], looked: &mut usize) -> u32 {
    raw::same_text(a, b, looked)
}

fn tables(given: &Given) -> Tables<'_> {
    Tables {
        resolutions: &given.resolutions,
        bindings: &given.bindings,
    }
}

/// The form of the call that indexes bindings: image, table.
pub type ModuleIndices = fn(&[u8], &mut [u8]) -> u32;

/// The binding table of an image, 2 bytes a name.
pub fn module_indices(image: &[u8], table: &mut [u8]) -> u32 {
    number(raw::module_indices(image, table))
}

/// The form of the call that resolves names: image, budget, table, working buffer, steps.
pub type NameResolution = fn(&[u8], u32, &mut [u8], &mut [u8], &mut u32) -> u32;

/// The resolution table of an image, 2 bytes an expression, and the run's steps.
pub fn name_resolution(
    image: &[u8],
    budget: u32,
    table: &mut [u8],
    working: &mut [u8],
    steps: &mut u32,
) -> u32 {
    number(raw::name_resolution(image, budget, table, working, steps))
}

/// The tables of the port's own calls on an accepted image whose run ends.
pub fn own_tables(image: &[u8]) -> Given {
    let counts = Fields::decode(image).expect("an accepted image").header;
    let mut given = Given {
        resolutions: vec![0; 2 * counts.exprs as usize],
        bindings: vec![0; 2 * counts.names as usize],
    };
    let mut working = vec![0; second_reading::resolution_need(image) as usize];
    let resolutions = &mut given.resolutions;
    let resolved = name_resolution(image, u32::MAX, resolutions, &mut working, &mut 0);
    let indexed = module_indices(image, &mut given.bindings);
    assert_eq!((resolved, indexed), (0, 0), "an accepted image");
    given
}

/// What the call that analyses a condition is given.
#[derive(Clone, Copy)]
pub struct Question<'a> {
    pub image: &'a [u8],
    pub resolutions: &'a [u8],
    pub bindings: &'a [u8],
    pub condition: u32,
    pub budget: u32,
}

impl<'a> Question<'a> {
    pub fn new(image: &'a [u8], given: &'a Given, condition: u32, budget: u32) -> Self {
        Question {
            image,
            resolutions: &given.resolutions,
            bindings: &given.bindings,
            condition,
            budget,
        }
    }
}

/// The form of the call that analyses a condition: what it is given, then list, else list, numbers.
pub type AnalyzeCondition = fn(Question, &mut [u8], &mut [u8], &mut Analysis) -> u32;

/// The records of a condition, 4 bytes each, for both ways it can come out.
pub fn analyze_condition(
    question: Question,
    then_list: &mut [u8],
    else_list: &mut [u8],
    analysis: &mut Analysis,
) -> u32 {
    let tables = Tables {
        resolutions: question.resolutions,
        bindings: question.bindings,
    };
    number(raw::analyze_condition(
        question.image,
        tables,
        question.condition,
        question.budget,
        then_list,
        else_list,
        analysis,
    ))
}

/// The form of the walk: image, tables, budget, what is lent to it, numbers.
pub type NameDependencies = fn(&[u8], &Given, u32, WalkBuffers, &mut Walk) -> u32;

/// Edges between names, the narrowings in force at bindings and the expression of each name.
pub fn name_dependencies(
    image: &[u8],
    given: &Given,
    budget: u32,
    buffers: WalkBuffers,
    walk: &mut Walk,
) -> u32 {
    let tables = tables(given);
    number(raw::name_dependencies(image, tables, budget, buffers, walk))
}

/// Lends parts in the order edges, narrowings, name expressions, working buffer.
pub fn walk_buffers([edges, narrowings, exprs, working]: [&mut [u8]; 4]) -> WalkBuffers<'_> {
    WalkBuffers {
        edges,
        narrowings,
        exprs,
        working,
    }
}

#[cfg(test)]
mod tests {
    use super::*;
    use crate::notation::survey_case;
    use crate::own_builtins;
    use crate::records::{Record, bytes};
    use crate::second_reading::dependencies_told;
    use crate::starred::cases;
    use crate::survey_text::{printed_resolution, resolve_lines};

    #[test]
    fn an_answer_has_its_number() {
        let image = survey_case().encode();
        assert_eq!(check(&image), 0);
        assert_eq!(check(&image[..11]), 1);
    }

    /// Whether a condition gives these lists, in buffers that are just long enough.
    fn gives(image: &[u8], given: &Given, condition: u32, lists: [&[Record]; 2]) -> bool {
        let lists = lists.map(bytes);
        let mut written = lists.each_ref().map(|list| vec![1; list.len()]);
        let [then_list, else_list] = &mut written;
        let mut analysis = Analysis::default();
        let question = Question::new(image, given, condition, u32::MAX);
        let answer = analyze_condition(question, then_list, else_list, &mut analysis);
        let counts = [analysis.then_count, analysis.else_count];
        (answer, &written) == (0, &lists) && counts == lists.map(|list| list.len() as u32 / 4)
    }

    #[test]
    fn the_listed_conditions_give_what_is_listed() {
        for case in cases() {
            let lists = [&case.then_list[..], &case.else_list];
            let image = case.tree.encode();
            let is_right = gives(&image, &case.given, case.condition, lists);
            assert!(is_right, "{}", case.name);
        }
    }

    #[test]
    fn selections_from_what_is_spelt_builtins_count_by_what_it_resolves_to() {
        for case in own_builtins::cases() {
            let image = case.tree.encode();
            for (condition, lists) in case.conditions() {
                let lists = lists.each_ref().map(Vec::as_slice);
                let is_right = gives(&image, &case.given, condition, lists);
                assert!(is_right, "{}: {condition}", case.name);
            }
            let expected = dependencies_told(&image, &case.given);
            assert_eq!(expected.narrowings, case.narrowings(), "{}", case.name);
            let mut need = WalkCounts::default();
            let answer = dependencies_need(&image, &case.given, u32::MAX, &mut need);
            let told = [u64::from(need.steps), need.narrowings as u64];
            let counts = [expected.steps, expected.narrowings.len() as u64];
            assert_eq!((answer, told), (0, counts), "{}", case.name);
        }
    }

    #[test]
    fn the_printed_case_is_resolved_as_printed() {
        let image = include_bytes!("../../../examples/printed.image");
        assert_eq!(image[..], survey_case().encode());
        let (mut table, mut working, mut steps) = ([1; 18], [1; 60], 0);
        let answer = name_resolution(image, 9, &mut table, &mut working, &mut steps);
        assert_eq!((answer, working), (0, [0; 60]));
        assert_eq!(resolve_lines(steps.into(), &table), printed_resolution());
    }
}

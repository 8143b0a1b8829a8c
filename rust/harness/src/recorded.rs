//! Recorded answers: a case, and the list of them that the repository keeps, `crates/replay/stdin`. `crates/replay/src/cases.rt`
//! reads the same format; `commands/record.rs` says how the list is made.
//!
//! A number has 4 bytes, the most significant first. The list is the number of its cases and the cases, one behind the other.
//! A case is 15 numbers: the call, condition and budget; the lengths of image, resolutions and bindings; the lengths of the
//! four lent buffers in the order of the call's parameters; the refusal or 0, the steps and three counts. Then come the bytes of
//! image, resolutions and bindings, and what each lent buffer holds after the call, which was filled with `FRESH` before.
//! What a call is not given or lent has no bytes, and a number that it is not given or does not answer is 0. The two texts of
//! `same_text` stand where other calls have image and resolutions, and its answer, 1 or 0, and the pairs that it looked at are
//! the first two counts.

use crate::lent::FRESH;
use crate::port::{Analysis, Question, ResolutionCounts, Walk, WalkCounts, walk_buffers};
use crate::second_reading::{self, needs};
use crate::tables::Given;

/// The calls by their numbers.
pub mod call {
    use std::ops::Range;

    pub const CHECK: u32 = 0;
    pub const INDEX: u32 = 1;
    pub const RESOLUTION: u32 = 2;
    pub const CONDITION: u32 = 3;
    pub const WALK: u32 = 4;
    pub const LEVELS: u32 = 5;
    pub const RESOLUTION_NEED: u32 = 6;
    pub const WALK_NEED: u32 = 7;
    pub const SAME_TEXT: u32 = 8;
    pub const COUNT: usize = 9;
    /// Those that read an image.
    pub const OF_IMAGES: Range<u32> = CHECK..SAME_TEXT;
    pub const NAMES: [&str; COUNT] = [
        "check",
        "compute_module_indices",
        "compute_name_resolution",
        "analyze_condition",
        "name_dependencies",
        "compute_levels",
        "resolution_need",
        "dependencies_need",
        "same_text",
    ];

    /// Whether it is given tables.
    pub fn takes_tables(call: u32) -> bool {
        matches!(call, CONDITION | WALK | WALK_NEED)
    }

    pub fn takes_budget(call: u32) -> bool {
        call == RESOLUTION || call == RESOLUTION_NEED || takes_tables(call)
    }
}

/// How many buffers each call is lent.
pub const LENT: [usize; call::COUNT] = [0, 1, 2, 2, 4, 0, 0, 0, 0];

/// The steps and three counts.
pub type Numbers = [u32; 4];

const NUMBERS: usize = 15;

#[derive(Clone, Debug, PartialEq, Eq)]
pub struct Case {
    pub call: u32,
    pub image: Vec<u8>,
    pub given: Given,
    pub condition: u32,
    pub budget: u32,
    pub refusal: u32,
    pub numbers: Numbers,
    pub buffers: [Vec<u8>; 4],
}

impl Default for Case {
    fn default() -> Self {
        Case {
            call: call::CHECK,
            image: Vec::new(),
            given: Given::empty(0, 0),
            condition: 0,
            budget: 0,
            refusal: 0,
            numbers: [0; 4],
            buffers: [const { Vec::new() }; 4],
        }
    }
}

impl Case {
    /// What is given, and what is lent.
    fn parts(&self) -> [&[u8]; 7] {
        let Given {
            resolutions,
            bindings,
        } = &self.given;
        let [first, second, third, fourth] = &self.buffers;
        [
            &self.image,
            resolutions,
            bindings,
            first,
            second,
            third,
            fourth,
        ]
    }

    pub fn bytes(&self) -> Vec<u8> {
        let lengths = self.parts().map(|part| part.len() as u32);
        let asked = [self.call, self.condition, self.budget];
        let answered = [self.refusal].into_iter().chain(self.numbers);
        let numbers = asked.into_iter().chain(lengths).chain(answered);
        let mut bytes: Vec<u8> = numbers.flat_map(u32::to_be_bytes).collect();
        bytes.extend(self.parts().concat());
        bytes
    }

    /// Takes a case off the front.
    fn read(rest: &mut &[u8]) -> Option<Case> {
        let numbers = read_numbers::<NUMBERS>(rest)?;
        let mut part = |place: usize| {
            let (part, behind) = rest.split_at_checked(numbers[place] as usize)?;
            *rest = behind;
            Some(part.to_vec())
        };
        Some(Case {
            call: numbers[0],
            condition: numbers[1],
            budget: numbers[2],
            image: part(3)?,
            given: Given {
                resolutions: part(4)?,
                bindings: part(5)?,
            },
            buffers: [part(6)?, part(7)?, part(8)?, part(9)?],
            refusal: numbers[10],
            numbers: [numbers[11], numbers[12], numbers[13], numbers[14]],
        })
    }

    /// The case with the second reading's answer and what it leaves; of the index it knows the refusals of the image alone.
    pub fn second_reading(&self) -> Case {
        let mut case = self.clone();
        let lent = &mut case.buffers;
        lent.iter_mut().for_each(|buffer| buffer.fill(FRESH));
        (case.refusal, case.numbers) = match self.call {
            call::CHECK | call::INDEX => (second_reading::check(&self.image), [0; 4]),
            call::RESOLUTION => self.second_resolution(lent),
            call::CONDITION => self.second_condition(lent),
            call::WALK => self.second_walk(lent),
            call::LEVELS => self.second_levels(),
            call::RESOLUTION_NEED => self.second_resolution_need(),
            call::WALK_NEED => self.second_walk_need(),
            _ => self.second_same_text(),
        };
        case
    }

    fn second_resolution(&self, [table, working, ..]: &mut [Vec<u8>; 4]) -> (u32, Numbers) {
        let mut steps = 0;
        let (image, budget) = (&self.image, self.budget);
        let answer = second_reading::name_resolution(image, budget, table, working, &mut steps);
        (answer, [steps, 0, 0, 0])
    }

    fn second_condition(&self, [then_list, else_list, ..]: &mut [Vec<u8>; 4]) -> (u32, Numbers) {
        let question = Question::new(&self.image, &self.given, self.condition, self.budget);
        let mut told = Analysis::default();
        let answer = second_reading::analyze_condition(question, then_list, else_list, &mut told);
        (answer, [told.steps, told.then_count, told.else_count, 0])
    }

    fn second_walk(&self, lent: &mut [Vec<u8>; 4]) -> (u32, Numbers) {
        let buffers = walk_buffers(lent.each_mut().map(Vec::as_mut_slice));
        let mut walk = Walk::default();
        let (image, given) = (&self.image, &self.given);
        let answer =
            second_reading::name_dependencies(image, given, self.budget, buffers, &mut walk);
        (
            answer,
            [walk.steps, walk.edge_count, walk.narrowing_count, 0],
        )
    }

    fn second_levels(&self) -> (u32, Numbers) {
        let mut levels = 0;
        let answer = needs::levels(&self.image, &mut levels);
        (answer, [0, levels, 0, 0])
    }

    fn second_resolution_need(&self) -> (u32, Numbers) {
        let mut need = ResolutionCounts::default();
        let answer = needs::resolution_need(&self.image, self.budget, &mut need);
        (answer, [need.steps, need.scopes as u32, 0, 0])
    }

    fn second_walk_need(&self) -> (u32, Numbers) {
        let mut need = WalkCounts::default();
        let answer = needs::dependencies_need(&self.image, &self.given, self.budget, &mut need);
        let counts = [need.edges, need.narrowings, need.most];
        let [edges, narrowings, most] = counts.map(|count| count as u32);
        (answer, [need.steps, edges, narrowings, most])
    }

    fn second_same_text(&self) -> (u32, Numbers) {
        let mut looked = 0;
        let [text, other, ..] = self.parts();
        let answer = second_reading::same_text(text, other, &mut looked);
        (0, [0, answer, looked as u32, 0])
    }
}

fn read_numbers<const N: usize>(rest: &mut &[u8]) -> Option<[u32; N]> {
    let (numbers, behind) = rest.split_at_checked(4 * N)?;
    *rest = behind;
    let (numbers, _) = numbers.as_chunks();
    Some(std::array::from_fn(|place| {
        u32::from_be_bytes(numbers[place])
    }))
}

pub fn write_list(cases: &[Case]) -> Vec<u8> {
    let mut list = (cases.len() as u32).to_be_bytes().to_vec();
    list.extend(cases.iter().flat_map(Case::bytes));
    list
}

/// The cases of a list that is whole.
pub fn read_list(list: &[u8]) -> Option<Vec<Case>> {
    let mut rest = list;
    let [count] = read_numbers(&mut rest)?;
    let cases: Option<Vec<Case>> = (0..count).map(|_| Case::read(&mut rest)).collect();
    cases.filter(|_| rest.is_empty())
}

#[cfg(test)]
mod coverage;

#[cfg(test)]
mod tests {
    use super::*;

    #[test]
    fn a_list_comes_back_unless_it_is_cut_off_or_longer() {
        let case = Case {
            call: call::WALK,
            image: vec![1, 2, 3],
            given: Given::empty(2, 1),
            condition: 7,
            budget: u32::MAX,
            refusal: 9,
            numbers: [4, 5, 6, 7],
            buffers: [vec![8], vec![], vec![9, 10], vec![11]],
        };
        let cases = vec![case, Case::default()];
        let mut list = write_list(&cases);
        assert_eq!(list.len(), 4 + 2 * 60 + 3 + 6 + 4);
        assert_eq!(read_list(&list), Some(cases));
        assert_eq!(read_list(&list[..list.len() - 1]), None);
        list.push(0);
        assert_eq!(read_list(&list), None);
    }
}

//! The runs of the original on a tree as cases of the list, and what is turned back before a run.

use crate::answers::{Condition, Dependencies};
use crate::arrows;
use crate::builtin_set;
use crate::image::Tree;
use crate::lent::FRESH;
use crate::original::passes::{Subject, Tables};
use crate::port::refusal::{OVER_BUDGET, TOO_SHORT};
use crate::random::Random;
use crate::recorded::{Case, LENT, call};
use crate::records::{bytes, narrowing_bytes};
use crate::second_reading::{condition_told, dependencies_told, writes_nothing};
use crate::tables::Given;

/// What the run needs of a lent buffer.
enum Need {
    /// Room for these bytes of the answer.
    Answer(Vec<u8>),
    Working(usize),
}

impl Need {
    fn room(&self) -> usize {
        match self {
            Need::Answer(bytes) => bytes.len(),
            Need::Working(room) => *room,
        }
    }

    /// A buffer of at least its room after the run.
    fn left(&self, room: usize) -> Vec<u8> {
        match self {
            Need::Answer(bytes) => {
                let mut left = bytes.clone();
                left.resize(room, FRESH);
                left
            }
            Need::Working(_) => vec![0; room],
        }
    }
}

/// A run of the original, or of what stands for it: what it was asked, and what it gives whatever is lent.
pub struct Run {
    asked: Case,
    steps: u64,
    counts: [usize; 3],
    needs: [Need; 4],
}

/// A buffer that the call does not take.
fn none() -> Need {
    Need::Answer(vec![])
}

impl Run {
    pub fn index(tree: &Tree) -> Self {
        let table = Subject::new(tree).module_indices();
        Run {
            asked: asked(call::INDEX, tree),
            steps: 0,
            counts: [0; 3],
            needs: [Need::Answer(table), none(), none(), none()],
        }
    }

    pub fn resolution(tree: &Tree) -> Self {
        let resolved = Subject::new(tree).name_resolution();
        let working = 4 * tree.exprs.len() + 8 * resolved.scopes;
        let table = Need::Answer(resolved.table);
        Run {
            asked: asked(call::RESOLUTION, tree),
            steps: resolved.steps,
            counts: [0; 3],
            needs: [table, Need::Working(working), none(), none()],
        }
    }

    pub fn condition(tree: &Tree, given: &Given, condition: u32) -> Self {
        let told = told(tree, given, condition);
        let lists = [told.then_list, told.else_list];
        let [thens, elses] = lists.each_ref().map(Vec::len);
        let [then_list, else_list] = lists.map(|list| Need::Answer(bytes(&list)));
        Run {
            asked: Case {
                condition,
                given: given.clone(),
                ..asked(call::CONDITION, tree)
            },
            steps: told.steps,
            counts: [thens, elses, 0],
            needs: [then_list, else_list, none(), none()],
        }
    }

    pub fn walk(tree: &Tree, given: &Given) -> Self {
        let walked = walked(tree, given);
        Run {
            asked: Case {
                given: given.clone(),
                ..asked(call::WALK, tree)
            },
            steps: walked.steps,
            counts: [walked.edges.len(), walked.narrowings.len(), 0],
            needs: [
                Need::Answer(bytes(&walked.edges)),
                Need::Answer(narrowing_bytes(&walked.narrowings)),
                Need::Answer(walked.exprs),
                Need::Working(4 * walked.most_in_force),
            ],
        }
    }

    /// The original has no levels: these are the second reading's.
    pub fn levels(tree: &Tree) -> Self {
        let asked = asked(call::LEVELS, tree);
        let [_, levels, ..] = asked.second_reading().numbers;
        Self::counted(asked, 0, [levels as usize, 0, 0])
    }

    pub fn resolution_need(tree: &Tree) -> Self {
        let resolved = Subject::new(tree).name_resolution();
        let asked = asked(call::RESOLUTION_NEED, tree);
        Self::counted(asked, resolved.steps, [resolved.scopes, 0, 0])
    }

    pub fn walk_need(tree: &Tree, given: &Given) -> Self {
        let walked = walked(tree, given);
        let asked = Case {
            given: given.clone(),
            ..asked(call::WALK_NEED, tree)
        };
        let counts = [
            walked.edges.len(),
            walked.narrowings.len(),
            walked.most_in_force,
        ];
        Self::counted(asked, walked.steps, counts)
    }

    /// Of a call that is lent no buffer.
    fn counted(asked: Case, steps: u64, counts: [usize; 3]) -> Self {
        let needs = [none(), none(), none(), none()];
        Run {
            asked,
            steps,
            counts,
            needs,
        }
    }

    /// Whether a condition tells something.
    pub fn tells(&self) -> bool {
        self.counts != [0; 3]
    }

    fn rooms(&self) -> [usize; 4] {
        self.needs.each_ref().map(Need::room)
    }

    /// The case with just enough of all.
    pub fn exact(&self) -> Case {
        self.case(self.steps as u32, self.rooms())
    }

    /// Just enough of all, more of all, a step less, and of each buffer a byte less, also with a step less.
    pub fn around(&self) -> Vec<Case> {
        let (steps, rooms) = (self.steps as u32, self.rooms());
        let mut loans = vec![(steps, rooms), (u32::MAX, self.more())];
        let fewer = steps.checked_sub(1);
        loans.extend(fewer.map(|fewer| (fewer, rooms)));
        for place in (0..4).filter(|&place| rooms[place] > 0) {
            let mut short = rooms;
            short[place] -= 1;
            loans.push((steps, short));
        }
        let empty = [0; 4];
        loans.extend(fewer.filter(|_| rooms != empty).map(|fewer| (fewer, empty)));
        let cases = loans.into_iter();
        cases
            .map(|(budget, rooms)| self.case(budget, rooms))
            .collect()
    }

    /// Some bytes more than needed in each buffer that the call takes.
    fn more(&self) -> [usize; 4] {
        let taken = LENT[self.asked.call as usize];
        let rooms = self.rooms();
        std::array::from_fn(|place| rooms[place] + if place < taken { 3 + place } else { 0 })
    }

    fn case(&self, budget: u32, rooms: [usize; 4]) -> Case {
        // Without a budget there are no steps.
        let budget = if self.steps == 0 { 0 } else { budget };
        let is_short = self
            .rooms()
            .iter()
            .zip(rooms)
            .any(|(need, room)| room < *need);
        let refusal = match self.steps > budget.into() {
            true => OVER_BUDGET,
            false if is_short => TOO_SHORT,
            false => 0,
        };
        let mut case = Case {
            budget,
            refusal,
            buffers: rooms.map(|room| vec![0; room]),
            ..self.asked.clone()
        };
        if refusal == 0 {
            let [one, other, last] = self.counts.map(|count| count as u32);
            case.numbers = [self.steps as u32, one, other, last];
            case.buffers = std::array::from_fn(|place| self.needs[place].left(rooms[place]));
        }
        case
    }
}

/// By the original, or by the second reading where a `builtins` is not the builtin set, which the original takes it for, and
/// where an arrow is analysed, of which the original tells nothing.
fn told(tree: &Tree, given: &Given, condition: u32) -> Condition {
    let has_arrow = arrows::by_condition(tree)[condition as usize];
    match builtin_set::is_meant(tree, given) && !has_arrow {
        true => Subject::new(tree).analyze_condition(&Tables::given(given), condition),
        false => condition_told(&tree.encode(), given, condition),
    }
}

/// The same of a walk.
fn walked(tree: &Tree, given: &Given) -> Dependencies {
    match builtin_set::is_meant(tree, given) && !arrows::in_walk(tree) {
        true => Subject::new(tree).name_dependencies(&Tables::given(given)),
        false => dependencies_told(&tree.encode(), given),
    }
}

fn asked(call: u32, tree: &Tree) -> Case {
    Case {
        call,
        image: tree.encode(),
        ..Case::default()
    }
}

/// The case of a call that the second reading turns back with nothing written, whatever is lent; none where it does not.
pub fn refused(
    random: &mut Random,
    call: u32,
    image: &[u8],
    given: &Given,
    condition: u32,
) -> Option<Case> {
    let lent = LENT[call as usize];
    let asked = Case {
        call,
        image: image.to_vec(),
        given: if call::takes_tables(call) {
            given.clone()
        } else {
            Given::empty(0, 0)
        },
        condition: if call == call::CONDITION {
            condition
        } else {
            0
        },
        budget: if call::takes_budget(call) {
            *random.pick(&[0, u32::MAX])
        } else {
            0
        },
        buffers: std::array::from_fn(|place| match place < lent {
            true => vec![FRESH; random.below(8)],
            false => vec![],
        }),
        ..Case::default()
    };
    let refusal = asked.second_reading().refusal;
    writes_nothing(refusal).then_some(Case { refusal, ..asked })
}

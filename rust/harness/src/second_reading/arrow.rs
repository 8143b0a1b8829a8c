//! `a -> b` in a condition, document 02, order 7: it is `!a || b`. Where it is false, a is true and b is false; where it is
//! true, nothing is known. Both sides are analysed and counted.

use super::conditions::{FALSE, TRUE};

/// The sides by their places.
pub const LEFT: usize = 0;
pub const RIGHT: usize = 1;

/// How an arrow is read.
#[derive(Clone, Copy, Debug)]
pub struct Reading {
    /// The sides that are analysed and counted.
    pub analysed: [bool; 2],
    /// For each way it comes out the sides whose lists it has, in order, each with the way that side comes out.
    pub known: [[Option<(usize, usize)>; 2]; 2],
}

const NOTHING: [Option<(usize, usize)>; 2] = [None; 2];
const LEFT_AND_NOT_RIGHT: [Option<(usize, usize)>; 2] = [Some((LEFT, TRUE)), Some((RIGHT, FALSE))];

pub const READING: Reading = Reading {
    analysed: [true; 2],
    known: [NOTHING, LEFT_AND_NOT_RIGHT],
};

impl Reading {
    pub(super) fn parts(&self, sides: [u32; 2]) -> [Option<u32>; 2] {
        [LEFT, RIGHT].map(|side| self.analysed[side].then_some(sides[side]))
    }

    pub(super) fn known(&self, sides: [u32; 2], way: usize) -> [Option<(u32, usize)>; 2] {
        self.known[way].map(|known| known.map(|(side, way)| (sides[side], way)))
    }
}

#[cfg(not(test))]
pub(super) fn reading() -> Reading {
    READING
}

#[cfg(test)]
pub(super) use turned::reading;

/// Wrong readings, so that tests can show that the comparisons see each.
#[cfg(test)]
pub mod turned {
    use std::cell::Cell;

    use super::*;

    thread_local! {
        static CURRENT: Cell<Reading> = const { Cell::new(READING) };
    }

    pub(in crate::second_reading) fn reading() -> Reading {
        CURRENT.get()
    }

    /// What the function gives where an arrow is read so.
    pub fn read_as<T>(wrong: Reading, function: impl FnOnce() -> T) -> T {
        CURRENT.set(wrong);
        let given = function();
        CURRENT.set(READING);
        given
    }

    const fn known_false(known: [Option<(usize, usize)>; 2]) -> Reading {
        Reading {
            known: [NOTHING, known],
            ..READING
        }
    }

    /// Each decision turned round.
    pub const WRONG: [(&str, Reading); 9] = [
        (
            "the left side's else list",
            known_false([Some((LEFT, FALSE)), Some((RIGHT, FALSE))]),
        ),
        (
            "the right side's then list",
            known_false([Some((LEFT, TRUE)), Some((RIGHT, TRUE))]),
        ),
        (
            "the right side first",
            known_false([Some((RIGHT, FALSE)), Some((LEFT, TRUE))]),
        ),
        ("no left side", known_false([None, Some((RIGHT, FALSE))])),
        ("no right side", known_false([Some((LEFT, TRUE)), None])),
        (
            "a then list",
            Reading {
                known: [
                    [Some((LEFT, FALSE)), Some((RIGHT, TRUE))],
                    LEFT_AND_NOT_RIGHT,
                ],
                ..READING
            },
        ),
        (
            "the left side not counted",
            Reading {
                analysed: [false, true],
                ..READING
            },
        ),
        (
            "the right side not counted",
            Reading {
                analysed: [true, false],
                ..READING
            },
        ),
        (
            "not analysed",
            Reading {
                analysed: [false; 2],
                known: [NOTHING; 2],
            },
        ),
    ];
}

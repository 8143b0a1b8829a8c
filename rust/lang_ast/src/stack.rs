//! The stack of a call: a deep image never runs on the caller's.
//!
//! The library walks a tree by recursion, so what a call takes of the stack grows with the tree's depth: up to 2.1 MiB
//! for a resolution and 4.3 MiB for a condition and a walk, where a thread of Rust has 2 MiB. Besides, what is counted
//! stands on the stack: what a walk needs is found by going down as the walk does, and steps are counted in some room.
//! [`run`] calls in place where little is needed, and otherwise on a thread with a stack that is large enough.
//! `docs/PERFORMANCE.md` has what was measured; the numbers below are more.

use std::{io, panic, thread};

/// The most that a call takes of the caller's stack: what a resolution takes of a flat image, however large.
pub const IN_PLACE: usize = MANY_EXPRS;

/// What a thread takes before the call, with room to spare: its pages are only used if they are touched.
const THREAD_START: usize = 64 << 10;

/// The bytes of the stack that a call takes: some for any image, and some for each level of it.
#[derive(Clone, Copy, Debug, PartialEq, Eq)]
pub struct StackNeed {
    /// Bytes for any image.
    pub fixed: usize,
    /// Bytes for each level.
    pub level: usize,
}

/// Measured over 16,383 levels: 129 bytes a level, what does not grow with them included.
pub const NAME_RESOLUTION: StackNeed = StackNeed {
    fixed: 40 << 10,
    level: 160,
};

/// How many expressions and how many texts a call has room for within what it takes of any image.
pub const FEW: usize = 1024;

/// What a resolution or a condition takes for more expressions, before it goes down: an array of 64 KiB for what it
/// counts.
pub const MANY_EXPRS: usize = 68 << 10;

/// What a walk takes for more expressions, before it goes down: two such arrays.
pub const MANY_WALKED: usize = 136 << 10;

/// What a resolution takes for more texts, once it has been down all levels: arrays of 160 KiB.
pub const MANY_TEXTS: usize = 176 << 10;

/// A condition and a walk count their steps before they go down where the budget has more than so many for each
/// expression.
pub const STEPS_AN_EXPR: usize = 16;

/// Whether they do.
#[must_use]
pub fn is_counted(exprs: usize, budget: u32) -> bool {
    budget as usize > STEPS_AN_EXPR.saturating_mul(exprs)
}

fn room(count: usize, many: usize) -> usize {
    if count > FEW { many } else { 0 }
}

/// The bytes of the stack that a resolution takes. It counts, goes down and settles one after the other, so no two of
/// these stand on the stack at once; its need counts alone, and takes at most [`IN_PLACE`].
#[must_use]
pub fn name_resolution(levels: usize, exprs: usize, texts: usize) -> usize {
    let down = NAME_RESOLUTION.bytes(levels);
    down.max(room(exprs, MANY_EXPRS))
        .max(room(texts, MANY_TEXTS))
}

/// Measured over 16,382 levels: 273 bytes a level of the condition, what does not grow with it included.
pub const ANALYZE_CONDITION: StackNeed = StackNeed {
    fixed: 12 << 10,
    level: 352,
};

/// The bytes of the stack that a condition of so many levels takes, in an image of so many expressions.
#[must_use]
pub fn analyze_condition(levels: usize, exprs: usize, budget: u32) -> usize {
    let counted = is_counted(exprs, budget);
    let room = if counted { room(exprs, MANY_EXPRS) } else { 0 };
    ANALYZE_CONDITION.bytes(levels).max(room)
}

/// Measured over 16,383 levels: 257 bytes a level, what does not grow with them included, for a walk and for its need. A
/// condition that is analysed on the way stands below where it is, within the levels, and a level of it takes more, as
/// in [`ANALYZE_CONDITION`].
pub const NAME_DEPENDENCIES: StackNeed = StackNeed {
    fixed: 40 << 10,
    level: 352,
};

/// The bytes of the stack that a walk and its need take.
#[must_use]
pub fn name_dependencies(levels: usize, exprs: usize, budget: u32) -> usize {
    let counted = is_counted(exprs, budget);
    let room = if counted { room(exprs, MANY_WALKED) } else { 0 };
    NAME_DEPENDENCIES.bytes(levels).max(room)
}

impl StackNeed {
    /// The bytes for so many levels.
    #[must_use]
    pub const fn bytes(self, levels: usize) -> usize {
        self.level.saturating_mul(levels).saturating_add(self.fixed)
    }
}

/// Makes a call that takes so many bytes of the stack: here if they are at most [`IN_PLACE`], else on a thread of its
/// own.
///
/// # Errors
///
/// That of the system where there can be no such thread.
pub fn run<T: Send>(bytes: usize, call: impl FnOnce() -> T + Send) -> io::Result<T> {
    if bytes <= IN_PLACE {
        return Ok(call());
    }
    let stack = bytes.saturating_add(THREAD_START);
    thread::scope(|scope| {
        let builder = thread::Builder::new().stack_size(stack);
        let joined = builder.spawn_scoped(scope, call)?.join();
        // A panic of the call goes on as it would in place.
        Ok(joined.unwrap_or_else(|panic| panic::resume_unwind(panic)))
    })
}

#[cfg(test)]
mod tests {
    use std::thread;

    use super::{
        ANALYZE_CONDITION, FEW, IN_PLACE, MANY_EXPRS, MANY_TEXTS, MANY_WALKED, NAME_DEPENDENCIES,
        NAME_RESOLUTION, STEPS_AN_EXPR, StackNeed, analyze_condition, name_dependencies,
        name_resolution, run,
    };

    #[test]
    fn a_small_call_stays_and_a_large_one_moves() {
        let here = thread::current().id();
        let there = || thread::current().id();
        assert_eq!(run(IN_PLACE, there).ok(), Some(here));
        assert!(run(IN_PLACE + 1, there).is_ok_and(|id| id != here));
    }

    #[test]
    fn a_thread_that_cannot_be_had_is_an_error() {
        assert!(run(usize::MAX, || ()).is_err());
        assert!(run(1 << 60, || ()).is_err());
    }

    #[test]
    fn a_panic_goes_on() {
        let call = || run(IN_PLACE + 1, || panic!("within the call"));
        let panic = std::panic::catch_unwind(call).err();
        let message = panic.and_then(|panic| panic.downcast_ref::<&str>().map(|&m| m.to_string()));
        assert_eq!(message.as_deref(), Some("within the call"));
    }

    #[test]
    fn a_resolution_takes_the_most_of_what_it_does() {
        assert_eq!(name_resolution(3, FEW, FEW), NAME_RESOLUTION.bytes(3));
        assert_eq!(name_resolution(3, FEW + 1, FEW), MANY_EXPRS);
        assert_eq!(name_resolution(3, FEW + 1, FEW + 1), MANY_TEXTS);
        let deep = NAME_RESOLUTION.bytes(9000);
        assert_eq!(name_resolution(9000, FEW + 1, FEW + 1), deep);
    }

    #[test]
    fn a_large_budget_takes_room_to_count_in() {
        let small = u32::try_from(STEPS_AN_EXPR * (FEW + 1)).unwrap_or(u32::MAX);
        let walk = NAME_DEPENDENCIES.bytes(3);
        assert_eq!(name_dependencies(3, FEW + 1, small), walk);
        assert_eq!(name_dependencies(3, FEW + 1, small + 1), MANY_WALKED);
        assert_eq!(name_dependencies(3, FEW, u32::MAX), walk);
        let condition = ANALYZE_CONDITION.bytes(3);
        assert_eq!(analyze_condition(3, FEW + 1, small), condition);
        assert_eq!(analyze_condition(3, FEW + 1, small + 1), MANY_EXPRS);
        assert_eq!(analyze_condition(3, FEW, u32::MAX), condition);
        let deep = NAME_DEPENDENCIES.bytes(9000);
        assert_eq!(name_dependencies(9000, FEW + 1, u32::MAX), deep);
    }

    #[test]
    fn a_need_grows_with_the_levels_and_does_not_overflow() {
        let need = StackNeed {
            fixed: 100,
            level: 7,
        };
        assert_eq!(need.bytes(0), 100);
        assert_eq!(need.bytes(3), 121);
        assert_eq!(need.bytes(usize::MAX), usize::MAX);
    }
}

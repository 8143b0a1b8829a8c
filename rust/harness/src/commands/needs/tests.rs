//! The comparison's own pieces, and that it sees faults.

use super::*;
use crate::image::Fields;
use crate::large_stack::{LARGE, run_on};
use crate::second_reading::arrow::turned::{WRONG as WRONG_ARROWS, read_as};

fn compared(calls: Calls, images: usize) -> Comparison {
    let mut comparison = Comparison::new(calls, DEFAULT.seed);
    while comparison.seen.images < images {
        comparison.compare_next();
    }
    comparison
}

fn differs(comparison: &Comparison) -> bool {
    let mut all = comparison.all().into_iter();
    all.any(|(_, findings)| findings.differs())
}

#[test]
fn the_second_reading_differs_nowhere_and_every_answer_comes() {
    let ran = run_on(LARGE, || {
        let comparison = compared(SECOND, 1000);
        assert!(!differs(&comparison));
        for (call, findings) in comparison.all() {
            assert_eq!(findings.rare(1000 / RAREST), [], "{call}");
        }
        let seen = &comparison.seen;
        assert!(seen.scoped > 500 && seen.with_edges > 500 && seen.narrowed > 200);
        assert!(seen.another_set > 100 && seen.with_arrow > 100);
        assert!(seen.is_enough(100) && !seen.is_enough(10_000));
    });
    assert!(ran.is_ok());
}

#[test]
fn the_port_differs_nowhere_and_not_at_depth_or_in_large_counts() {
    let ran = run_on(LARGE, || {
        let mut comparison = compared(PORT, 1000);
        comparison.compare_deep();
        assert!(!differs(&comparison));
        assert_eq!(comparison.seen.deepest, MOST_NUMBERED as u32);
        // By themselves, since a generated tree may make more scopes.
        let mut large = Comparison::new(PORT, DEFAULT.seed);
        large.compare_large();
        assert!(!differs(&large));
        // The bindings of the crowded tree, its function and the root.
        assert_eq!(large.seen.most_scopes, (1 << 17) + 2);
        let most = [large.seen.most_recorded, large.seen.most_in_force];
        assert_eq!(most, [1 << 33, 1 << 16]);
    });
    assert!(ran.is_ok());
}

#[test]
fn budgets_are_around_the_steps_as_far_as_there_are_such() {
    let mut comparison = Comparison::new(SECOND, 1);
    let budgets = comparison.budgets(10);
    let known = [0, 9, 10, 11, u32::MAX];
    assert!(known.iter().all(|budget| budgets.contains(budget)));
    let highest = comparison.budgets(u32::MAX.into());
    assert_eq!(highest[2..], [u32::MAX - 1, u32::MAX, u32::MAX]);
    let past = comparison.budgets(u64::MAX);
    assert_eq!((past.len(), past[2]), (3, u32::MAX));
}

/// The tables with each `builtins` that they do not resolve taken for the builtin set.
fn resolved_sets(image: &[u8], given: &Given) -> Given {
    let mut given = given.clone();
    if second_reading::check(image) == 0 {
        let (entries, _) = given.resolutions.as_chunks_mut();
        for e in builtin_set::references(&Tree::decode(image)) {
            let unresolved = entries.get_mut(e).filter(|entry| **entry == [0; 2]);
            if let Some(entry) = unresolved {
                *entry = builtin_set::entry().to_be_bytes();
            }
        }
    }
    given
}

/// Calls with one fault each: image, tables, budget, numbers.
const WRONG: [(&str, Calls); 17] = [
    (
        "a level less",
        Calls {
            levels: |image, given, budget, told| {
                let answer = (SECOND.levels)(image, given, budget, told);
                *told -= u32::from(answer == 0);
                answer
            },
            ..SECOND
        },
    ),
    (
        "levels of a refused image",
        Calls {
            levels: |image, given, budget, told| {
                *told = 0;
                (SECOND.levels)(image, given, budget, told)
            },
            ..SECOND
        },
    ),
    (
        "levels of the last expression",
        Calls {
            levels: |image, given, budget, told| match Fields::decode(image) {
                Some(mut fields) if second_reading::check(image) == 0 => {
                    fields.header.entry = fields.header.exprs - 1;
                    (SECOND.levels)(&fields.encode(), given, budget, told)
                }
                _ => (SECOND.levels)(image, given, budget, told),
            },
            ..SECOND
        },
    ),
    (
        "scopes without the root",
        Calls {
            resolution_need: |image, given, budget, told| {
                let answer = (SECOND.resolution_need)(image, given, budget, told);
                told.scopes -= usize::from(answer == 0);
                answer
            },
            ..SECOND
        },
    ),
    (
        "a step of the resolution too many",
        Calls {
            resolution_need: |image, given, budget, told| {
                let answer = (SECOND.resolution_need)(image, given, budget, told);
                told.steps += u32::from(answer == 0);
                answer
            },
            ..SECOND
        },
    ),
    (
        "no budget of the resolution",
        Calls {
            resolution_need: |image, given, _, told| {
                (SECOND.resolution_need)(image, given, u32::MAX, told)
            },
            ..SECOND
        },
    ),
    (
        "the resolution's need kept on 8",
        Calls {
            resolution_need: |image, given, budget, told| {
                let before = *told;
                let answer = (SECOND.resolution_need)(image, given, budget, told);
                *told = if answer == OVER_BUDGET { before } else { *told };
                answer
            },
            ..SECOND
        },
    ),
    (
        "the resolution's need of a refused image",
        Calls {
            resolution_need: |image, given, budget, told| {
                *told = ResolutionCounts::default();
                (SECOND.resolution_need)(image, given, budget, told)
            },
            ..SECOND
        },
    ),
    (
        "a step of the walk over the budget",
        Calls {
            dependencies_need: |image, given, budget, told| {
                (SECOND.dependencies_need)(image, given, budget.saturating_add(1), told)
            },
            ..SECOND
        },
    ),
    (
        "no tables",
        Calls {
            dependencies_need: |image, given, budget, told| {
                let nothing = Given::empty(given.resolutions.len() / 2, given.bindings.len() / 2);
                (SECOND.dependencies_need)(image, &nothing, budget, told)
            },
            ..SECOND
        },
    ),
    (
        "an unresolved `builtins` taken for the builtin set",
        Calls {
            dependencies_need: |image, given, budget, told| {
                let given = resolved_sets(image, given);
                (SECOND.dependencies_need)(image, &given, budget, told)
            },
            ..SECOND
        },
    ),
    (
        "8 before 7",
        Calls {
            dependencies_need: |image, given, budget, told| {
                if budget > 0 || second_reading::check(image) != 0 {
                    return (SECOND.dependencies_need)(image, given, budget, told);
                }
                *told = WalkCounts::default();
                OVER_BUDGET
            },
            ..SECOND
        },
    ),
    (
        "the walk's need of broken tables",
        Calls {
            dependencies_need: |image, given, budget, told| {
                *told = WalkCounts::default();
                (SECOND.dependencies_need)(image, given, budget, told)
            },
            ..SECOND
        },
    ),
    (
        "edges and narrowings exchanged",
        Calls {
            dependencies_need: |image, given, budget, told| {
                let answer = (SECOND.dependencies_need)(image, given, budget, told);
                if answer == 0 {
                    std::mem::swap(&mut told.edges, &mut told.narrowings);
                }
                answer
            },
            ..SECOND
        },
    ),
    (
        "one in force too many",
        Calls {
            dependencies_need: |image, given, budget, told| {
                let answer = (SECOND.dependencies_need)(image, given, budget, told);
                told.most += usize::from(answer == 0);
                answer
            },
            ..SECOND
        },
    ),
    (
        "a resolution with no working need",
        Calls {
            name_resolution: |image, budget, table, _, steps| {
                let working = &mut vec![0; second_reading::resolution_need(image) as usize];
                second_reading::name_resolution(image, budget, table, working, steps)
            },
            ..SECOND
        },
    ),
    (
        "a walk with a step more",
        Calls {
            name_dependencies: |image, given, budget, buffers, walk| {
                let budget = budget.saturating_sub(1);
                second_reading::name_dependencies(image, given, budget, buffers, walk)
            },
            ..SECOND
        },
    ),
];

/// What a walk needs with arrows read in one of the wrong ways.
const fn arrow_turned<const WAY: usize>() -> Calls {
    Calls {
        dependencies_need: |image, given, budget, told| {
            read_as(WRONG_ARROWS[WAY].1, || {
                needs::dependencies_need(image, given, budget, told)
            })
        },
        ..SECOND
    }
}

const ARROWS_TURNED: [Calls; WRONG_ARROWS.len()] = [
    arrow_turned::<0>(),
    arrow_turned::<1>(),
    arrow_turned::<2>(),
    arrow_turned::<3>(),
    arrow_turned::<4>(),
    arrow_turned::<5>(),
    arrow_turned::<6>(),
    arrow_turned::<7>(),
    arrow_turned::<8>(),
];

/// But for the order of two lists, which no number tells.
#[test]
fn each_decision_on_arrows_is_seen_where_it_is_turned_round() {
    for (calls, (fault, _)) in ARROWS_TURNED.into_iter().zip(WRONG_ARROWS) {
        let found = run_on(LARGE, move || {
            let mut comparison = Comparison::new(calls, DEFAULT.seed);
            for _ in 0..200 {
                let tree = generate::arrows::tree(&mut comparison.random);
                comparison.compare(&tree, Source::Shapes);
            }
            differs(&comparison)
        });
        let is_seen = fault != "the right side first";
        assert_eq!(found.ok(), Some(is_seen), "{fault}");
    }
}

#[test]
fn each_fault_is_seen() {
    for (fault, calls) in WRONG {
        let found = run_on(LARGE, move || differs(&compared(calls, 200)));
        assert!(found.unwrap_or(false), "{fault}");
    }
}

#[test]
fn a_count_cut_to_32_bits_is_seen_in_large_counts() {
    let cut = Calls {
        dependencies_need: |image, given, budget, told| {
            let answer = (SECOND.dependencies_need)(image, given, budget, told);
            told.narrowings &= u32::MAX as usize;
            answer
        },
        ..SECOND
    };
    let found = run_on(LARGE, move || {
        let mut comparison = Comparison::new(cut, DEFAULT.seed);
        comparison.compare_large();
        differs(&comparison)
    });
    assert!(found.unwrap_or(false));
}

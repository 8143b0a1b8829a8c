//! The comparison's own pieces, and that it sees faults.

use super::*;
use crate::commands::met::turned;
use crate::large_stack::{LARGE, run_on};
use crate::port::WalkBuffers;
use crate::records::{record, ty};
use crate::second_reading::arrow::turned::{WRONG as WRONG_ARROWS, read_as};
use crate::second_reading::{self, name_dependencies};
use crate::selections::{CONDITIONAL, PREDICATE};

fn compared(call: NameDependencies, images: usize) -> Comparison {
    let mut comparison = Comparison::new(call, DEFAULT.seed);
    while comparison.images[OWN] < images {
        comparison.compare_next();
    }
    comparison
}

#[test]
fn the_second_reading_differs_nowhere_and_every_answer_and_sort_comes() {
    const IMAGES: usize = 3000;
    let ran = run_on(LARGE, || {
        let comparison = compared(name_dependencies, IMAGES);
        assert!(!comparison.findings.differs());
        assert_eq!(comparison.findings.rare(IMAGES / RAREST), []);
        assert!(comparison.sorts.iter().all(|&count| count > 30));
        assert!(comparison.numbers.is_right(200));
        assert!(comparison.images[ANY] > 300 && comparison.narrowed > 400);
        assert!(comparison.endless > 3 && comparison.any_bytes > 30);
    });
    assert!(ran.is_ok());
}

#[test]
fn the_port_differs_nowhere_and_not_at_depth() {
    let differs = run_on(LARGE, || {
        let mut comparison = compared(port::name_dependencies, 1000);
        comparison.compare_deep();
        comparison.findings.differs()
    });
    assert!(differs.is_ok_and(|differs| !differs));
}

#[test]
fn budgets_and_buffers_meet_at_every_boundary() {
    let run = Run {
        steps: 10,
        answers: [vec![1; 4], vec![2; 8], vec![3; 2]],
        working: 4,
    };
    let answer = |budget, rooms| run.expected(loan(budget, rooms)).answer;
    let needs = [4, 8, 2, 4];
    let loans = run.loans(&mut Random::new(1));
    for (place, need) in needs.into_iter().enumerate() {
        for room in [need, need - 1, 0] {
            let mut rooms = needs;
            rooms[place] = room;
            for budget in [9, 10] {
                let tried = |l: &Loan| (l.budget, l.rooms) == (budget, rooms);
                assert!(loans.iter().any(tried));
                let expected = [[TOO_SHORT, 0], [OVER_BUDGET; 2]];
                let expected = expected[usize::from(budget == 9)][usize::from(room == need)];
                assert_eq!(answer(budget, rooms), expected);
            }
        }
    }
}

#[test]
fn an_answer_stands_in_front_and_the_working_buffer_is_zero() {
    let run = Run {
        steps: 1,
        answers: [vec![1; 4], vec![], vec![3; 2]],
        working: 0,
    };
    let left = run.expected(loan(1, [5, 1, 3, 2]));
    let walk = Walk {
        steps: 1,
        edge_count: 1,
        narrowing_count: 0,
    };
    assert_eq!((left.answer, left.walk), (0, walk));
    let edges = vec![1, 1, 1, 1, FRESH];
    let exprs = vec![3, 3, FRESH];
    assert_eq!(left.buffers, [edges, vec![FRESH], exprs, vec![0; 2]]);
}

/// The lent parts in the order in which `walk_buffers` takes them.
fn parts_of(buffers: WalkBuffers<'_>) -> [&mut [u8]; 4] {
    let WalkBuffers {
        edges,
        narrowings,
        exprs,
        working,
    } = buffers;
    [edges, narrowings, exprs, working]
}

/// What a fault does to the buffers and the numbers that the second reading leaves: answer, what was there before,
/// what is there now.
type Spoil = fn(u32, [&[u8]; 4], WalkBuffers, &mut Walk);

fn spoilt(
    spoil: Spoil,
    image: &[u8],
    given: &Given,
    budget: u32,
    buffers: WalkBuffers,
    walk: &mut Walk,
) -> u32 {
    let mut lent = parts_of(buffers);
    let before = lent.each_ref().map(|part| part.to_vec());
    let parts = walk_buffers(lent.each_mut().map(|part| &mut **part));
    let answer = name_dependencies(image, given, budget, parts, walk);
    let before = before.each_ref().map(Vec::as_slice);
    spoil(answer, before, walk_buffers(lent), walk);
    answer
}

const INT: Record = record(0, sort::IS_TYPE, ty::INT);
const FLOAT: Record = record(0, sort::IS_TYPE, ty::FLOAT);
const NUMBER: Record = record(0, sort::IS_NUMBER, 0);

/// Puts one record in place of another among the narrowings, of whatever name.
fn put(answer: u32, buffers: WalkBuffers, walk: &Walk, [old, new]: [Record; 2]) {
    let (narrowings, _) = buffers.narrowings.as_chunks_mut::<8>();
    let count = if answer == 0 { walk.narrowing_count } else { 0 };
    for narrowing in narrowings.iter_mut().take(count as usize) {
        let recorded = u64::from_be_bytes(*narrowing);
        if record_of(recorded) & 0x3_ffff == old {
            let spoilt = recorded - u64::from(old) + u64::from(new);
            *narrowing = spoilt.to_be_bytes();
        }
    }
}

/// Calls with one fault each.
const WRONG: [(&str, NameDependencies); 18] = [
    ("isInt a number", |image, given, budget, buffers, walk| {
        let spoil: Spoil = |answer, _, buffers, walk| put(answer, buffers, walk, [INT, NUMBER]);
        spoilt(spoil, image, given, budget, buffers, walk)
    }),
    ("isFloat a number", |image, given, budget, buffers, walk| {
        let spoil: Spoil = |answer, _, buffers, walk| put(answer, buffers, walk, [FLOAT, NUMBER]);
        spoilt(spoil, image, given, budget, buffers, walk)
    }),
    (
        "a number an integer",
        |image, given, budget, buffers, walk| {
            let spoil: Spoil = |answer, _, buffers, walk| put(answer, buffers, walk, [NUMBER, INT]);
            spoilt(spoil, image, given, budget, buffers, walk)
        },
    ),
    ("a number a float", |image, given, budget, buffers, walk| {
        let spoil: Spoil = |answer, _, buffers, walk| put(answer, buffers, walk, [NUMBER, FLOAT]);
        spoilt(spoil, image, given, budget, buffers, walk)
    }),
    (
        "a step over the budget",
        |image, given, budget, buffers, walk| {
            name_dependencies(image, given, budget.saturating_add(1), buffers, walk)
        },
    ),
    ("9 before 8", |image, given, budget, buffers, walk| {
        let mut lent = parts_of(buffers);
        let parts = walk_buffers(lent.each_mut().map(|part| &mut **part));
        match name_dependencies(image, given, MOST_STEPS as u32, parts, walk) {
            0 => name_dependencies(image, given, budget, walk_buffers(lent), walk),
            refusal => refusal,
        }
    }),
    ("8 before 7", |image, given, budget, buffers, walk| {
        if budget > 0 || second_reading::check(image) != 0 {
            return name_dependencies(image, given, budget, buffers, walk);
        }
        let lent = parts_of(buffers);
        lent.into_iter().for_each(|part| part.fill(0));
        *walk = Walk::default();
        OVER_BUDGET
    }),
    ("no working need", |image, given, budget, buffers, walk| {
        let [edges, narrowings, exprs, working] = parts_of(buffers);
        let long_enough = &mut vec![0; 1 << 20][..];
        let parts = walk_buffers([edges, narrowings, exprs, long_enough]);
        let answer = name_dependencies(image, given, budget, parts, walk);
        if !second_reading::writes_nothing(answer) {
            working.fill(0);
        }
        answer
    }),
    ("no tables", |image, given, budget, buffers, walk| {
        let nothing = Given::empty(given.resolutions.len() / 2, given.bindings.len() / 2);
        name_dependencies(image, &nothing, budget, buffers, walk)
    }),
    (
        "working bytes left",
        |image, given, budget, buffers, walk| {
            let spoil: Spoil = |answer, _, buffers, _| match buffers.working {
                [first, ..] if answer == 0 => *first = 1,
                _ => {}
            };
            spoilt(spoil, image, given, budget, buffers, walk)
        },
    ),
    (
        "narrowings left on 9",
        |image, given, budget, buffers, walk| {
            let spoil: Spoil = |answer, before, buffers, _| {
                if answer == TOO_SHORT {
                    buffers.narrowings.copy_from_slice(before[1]);
                }
            };
            spoilt(spoil, image, given, budget, buffers, walk)
        },
    ),
    ("exprs left on 8", |image, given, budget, buffers, walk| {
        let spoil: Spoil = |answer, before, buffers, _| {
            if answer == OVER_BUDGET {
                buffers.exprs.copy_from_slice(before[2]);
            }
        };
        spoilt(spoil, image, given, budget, buffers, walk)
    }),
    (
        "bytes behind the edges",
        |image, given, budget, buffers, walk| {
            let spoil: Spoil = |answer, _, buffers, walk| {
                if answer == 0 {
                    buffers.edges[4 * walk.edge_count as usize..].fill(0);
                }
            };
            spoilt(spoil, image, given, budget, buffers, walk)
        },
    ),
    (
        "numbers of refused tables",
        |image, given, budget, buffers, walk| {
            *walk = Walk::default();
            name_dependencies(image, given, budget, buffers, walk)
        },
    ),
    ("a step too many", |image, given, budget, buffers, walk| {
        let spoil: Spoil = |answer, _, _, walk| walk.steps += u32::from(answer == 0);
        spoilt(spoil, image, given, budget, buffers, walk)
    }),
    ("counts exchanged", |image, given, budget, buffers, walk| {
        let spoil: Spoil = |answer, _, _, walk| {
            if answer == 0 {
                std::mem::swap(&mut walk.edge_count, &mut walk.narrowing_count);
            }
        };
        spoilt(spoil, image, given, budget, buffers, walk)
    }),
    ("edges by name", |image, given, budget, buffers, walk| {
        let spoil: Spoil = |answer, _, buffers, walk| {
            if answer == 0 {
                let (edges, _) = buffers.edges.as_chunks_mut::<4>();
                edges[..walk.edge_count as usize].sort();
            }
        };
        spoilt(spoil, image, given, budget, buffers, walk)
    }),
    (
        "narrowings by binding",
        |image, given, budget, buffers, walk| {
            let spoil: Spoil = |answer, _, buffers, walk| {
                if answer == 0 {
                    let (narrowings, _) = buffers.narrowings.as_chunks_mut::<8>();
                    narrowings[..walk.narrowing_count as usize].sort_by_key(|n| [n[0], n[1]]);
                }
            };
            spoilt(spoil, image, given, budget, buffers, walk)
        },
    ),
];

/// What was seen of trees in which `builtins` may be another set.
fn compared_sets(call: NameDependencies, images: usize) -> Comparison {
    let mut comparison = Comparison::new(call, DEFAULT.seed);
    for _ in 0..images {
        let tree = generate::own_builtins::tree(&mut comparison.random);
        let image = tree.encode();
        let any = given::tables(&mut comparison.random, &tree);
        comparison.compare_walk(&tree, Texts::Utf8, OWN, &image, &own_tables(&image));
        comparison.compare_walk(&tree, Texts::Utf8, ANY, &image, &any);
        if comparison.findings.differs() {
            break;
        }
    }
    comparison
}

#[test]
fn each_way_to_call_what_builtins_has_is_met() {
    let ran = run_on(LARGE, || {
        let comparison = compared_sets(name_dependencies, 2000);
        assert_eq!(comparison.met.rare(IN_WALKS, 10), []);
        assert!(comparison.another_set.iter().all(|&walks| walks > 500));
        assert!(comparison.met.parted > 1000);
    });
    assert!(ran.is_ok());
}

/// With last keys of one set, path and use read the other way round.
fn last_key_turned<const SET: usize, const PATH: usize, const USE: usize>(
    image: &[u8],
    given: &Given,
    budget: u32,
    buffers: WalkBuffers,
    walk: &mut Walk,
) -> u32 {
    let image = turned::image(image, given, [SET, PATH, USE]);
    name_dependencies(&image, given, budget, buffers, walk)
}

/// Both uses of each path, by what the set is.
const fn turned_paths<const SET: usize>() -> [NameDependencies; 6] {
    [
        last_key_turned::<SET, 0, PREDICATE>,
        last_key_turned::<SET, 1, PREDICATE>,
        last_key_turned::<SET, 2, PREDICATE>,
        last_key_turned::<SET, 0, CONDITIONAL>,
        last_key_turned::<SET, 1, CONDITIONAL>,
        last_key_turned::<SET, 2, CONDITIONAL>,
    ]
}

const LAST_KEYS: [[NameDependencies; 6]; 5] = [
    turned_paths::<0>(),
    turned_paths::<1>(),
    turned_paths::<2>(),
    turned_paths::<3>(),
    turned_paths::<4>(),
];

#[test]
fn each_decision_on_what_builtins_has_is_seen_where_it_is_turned_round() {
    for (set, calls) in LAST_KEYS.iter().enumerate() {
        for (place, &call) in calls.iter().enumerate() {
            let found = run_on(LARGE, move || compared_sets(call, 2000).findings.differs());
            assert!(found.unwrap_or(false), "set {set}, fault {place}");
        }
    }
}

/// What was seen of trees with arrows.
fn compared_arrows(call: NameDependencies, images: usize) -> Comparison {
    let mut comparison = Comparison::new(call, DEFAULT.seed);
    for _ in 0..images {
        let tree = generate::arrows::tree(&mut comparison.random);
        let image = tree.encode();
        let any = given::tables(&mut comparison.random, &tree);
        comparison.compare_walk(&tree, Texts::Utf8, OWN, &image, &own_tables(&image));
        comparison.compare_walk(&tree, Texts::Utf8, ANY, &image, &any);
        if comparison.findings.differs() {
            break;
        }
    }
    comparison
}

#[test]
fn arrows_are_met_everywhere_and_no_walk_is_left_out_in_vain() {
    let ran = run_on(LARGE, || {
        let comparison = compared_arrows(name_dependencies, 2000);
        assert!(!comparison.findings.differs());
        assert_eq!(comparison.arrows.rare(of_walks, 10), [""; 0]);
        assert!(comparison.arrows.is_right(of_walks, 2000));
        let [own, any] = comparison.with_arrow;
        assert!(own > 1000 && any > 300, "{own} {any}");
    });
    assert!(ran.is_ok());
}

/// With arrows read in one of the wrong ways.
fn arrow_turned<const WAY: usize>(
    image: &[u8],
    given: &Given,
    budget: u32,
    buffers: WalkBuffers,
    walk: &mut Walk,
) -> u32 {
    read_as(WRONG_ARROWS[WAY].1, || {
        name_dependencies(image, given, budget, buffers, walk)
    })
}

const ARROWS_TURNED: [NameDependencies; WRONG_ARROWS.len()] = [
    arrow_turned::<0>,
    arrow_turned::<1>,
    arrow_turned::<2>,
    arrow_turned::<3>,
    arrow_turned::<4>,
    arrow_turned::<5>,
    arrow_turned::<6>,
    arrow_turned::<7>,
    arrow_turned::<8>,
];

#[test]
fn each_decision_on_arrows_is_seen_where_it_is_turned_round() {
    for (call, (fault, _)) in ARROWS_TURNED.into_iter().zip(WRONG_ARROWS) {
        let found = run_on(LARGE, move || {
            compared_arrows(call, 2000).findings.differs()
        });
        assert!(found.unwrap_or(false), "{fault}");
    }
}

#[test]
fn each_fault_is_seen() {
    for (fault, call) in WRONG {
        let found = run_on(LARGE, move || compared(call, 200).findings.differs());
        assert!(found.unwrap_or(false), "{fault}");
    }
}

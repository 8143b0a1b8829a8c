use super::*;
use crate::second_reading::same_text;

/// Every part of a run, each as a comparison of its own.
const PARTS: [fn(&mut Comparison); 4] = [
    |comparison| {
        for family in FAMILIES
            .iter()
            .filter(|family| !family.name.contains("2^20"))
        {
            comparison.enter(family.name, None);
            (family.pairs)(&mut |a, b| comparison.compare(a, b));
        }
    },
    Comparison::compare_addresses,
    Comparison::compare_views,
    |comparison| {
        let count = 2_000;
        comparison.compare_any(Extent { count, ..DEFAULT });
    },
];

fn compared(call: SameText, part: fn(&mut Comparison)) -> Comparison {
    let mut comparison = Comparison::new(call);
    part(&mut comparison);
    comparison
}

#[test]
fn the_second_reading_and_the_port_differ_nowhere_and_every_way_comes() {
    for call in [same_text, port::same_text] {
        let mut ways = [0; 3];
        for part in PARTS {
            let comparison = compared(call, part);
            assert!(comparison.smallest.is_none());
            ways = std::array::from_fn(|way| ways[way] + comparison.ways[way]);
        }
        assert!(ways.iter().all(|&pairs| pairs >= FEWEST), "{ways:?}");
    }
}

#[test]
fn a_run_with_the_port_is_done_and_has_a_row_for_each_family() {
    let report = run(Extent {
        count: 100,
        ..DEFAULT
    });
    assert_eq!((report.status, report.rows.len()), (super::super::DONE, 10));
    for row in &report.rows {
        assert_eq!((row.differences, row.answers[0]), (0, 2 * row.images));
        assert!(row.images >= 100, "{}", row.generator);
    }
    let seeded = report.rows.iter().filter(|row| row.seed.is_some());
    assert!(seeded.map(|row| row.generator).eq(["texts of any bytes"]));
}

/// The pairs of bytes in common from the end on.
fn common_end(a: &[u8], b: &[u8]) -> usize {
    let pairs = a.iter().rev().zip(b.iter().rev());
    pairs.take_while(|(a, b)| a == b).count()
}

fn common_beginning(a: &[u8], b: &[u8]) -> usize {
    let pairs = a.iter().zip(b);
    pairs.take_while(|(a, b)| a == b).count()
}

/// The right answer with another count of pairs, made from the texts and the right one.
fn recounted(
    a: &[u8],
    b: &[u8],
    looked: &mut usize,
    count: fn(&[u8], &[u8], usize) -> usize,
) -> u32 {
    let answer = same_text(a, b, looked);
    *looked = count(a, b, *looked);
    answer
}

/// Calls with one fault each.
const WRONG: [(&str, SameText); 15] = [
    ("lengths not compared first", |a, b, looked| {
        let answer = same_text(a, b, looked);
        let shorter = a.len().min(b.len());
        *looked = (common_end(a, b) + 1).min(shorter);
        answer
    }),
    ("from the front", |a, b, looked| {
        recounted(a, b, looked, |a, b, looked| {
            let shorter = a.len().min(b.len());
            let looks = (common_beginning(a, b) + 1).min(shorter);
            if a.len() == b.len() { looks } else { looked }
        })
    }),
    ("the pair that differs not counted", |a, b, looked| {
        recounted(a, b, looked, |a, b, looked| {
            if a == b || looked == 0 {
                looked
            } else {
                looked - 1
            }
        })
    }),
    ("a pair counted where lengths differ", |a, b, looked| {
        recounted(
            a,
            b,
            looked,
            |a, b, looked| {
                if a.len() == b.len() { looked } else { 1 }
            },
        )
    }),
    ("the same where the ends are", |a, b, looked| {
        same_text(a, b, looked);
        let last = |text: &[u8]| text[text.len().saturating_sub(8)..].to_vec();
        u32::from(a.len() == b.len() && last(a) == last(b))
    }),
    ("the same where the beginnings are", |a, b, looked| {
        same_text(a, b, looked);
        u32::from(a.len() == b.len() && common_beginning(a, b) + 1 >= a.len().min(64))
    }),
    ("the same where one ends with the other", |a, b, looked| {
        same_text(a, b, looked);
        u32::from(a.ends_with(b) || b.ends_with(a))
    }),
    (
        "the same where one begins with the other",
        |a, b, looked| {
            same_text(a, b, looked);
            u32::from(a.starts_with(b) || b.starts_with(a))
        },
    ),
    ("empty texts not the same", |a, b, looked| {
        same_text(a, b, looked) * u32::from(!a.is_empty())
    }),
    ("pairs counted in blocks of 64", |a, b, looked| {
        recounted(a, b, looked, |a, _, looked| {
            looked.next_multiple_of(64).min(a.len())
        })
    }),
    ("pairs counted in words of 8", |a, b, looked| {
        recounted(a, b, looked, |a, _, looked| {
            looked.next_multiple_of(8).min(a.len())
        })
    }),
    ("no pairs written where lengths differ", |a, b, looked| {
        if a.len() == b.len() {
            same_text(a, b, looked)
        } else {
            0
        }
    }),
    ("the highest bit not looked at", |a, b, looked| {
        let plain = |text: &[u8]| text.iter().map(|byte| byte & 0x7f).collect::<Vec<u8>>();
        same_text(&plain(a), &plain(b), looked)
    }),
    (
        "a byte of the 73rd from the end not looked at",
        |a, b, looked| {
            let without = |text: &[u8]| {
                let mut text = text.to_vec();
                let place = text.len().checked_sub(73);
                place.into_iter().for_each(|place| text[place] = 0);
                text
            };
            same_text(&without(a), &without(b), looked)
        },
    ),
    ("another number for the same", |a, b, looked| {
        2 * same_text(a, b, looked)
    }),
];

#[test]
fn each_fault_is_seen() {
    for (fault, call) in WRONG {
        let seen = PARTS
            .iter()
            .any(|&part| compared(call, part).smallest.is_some());
        assert!(seen, "{fault}");
    }
}

#[test]
fn the_smallest_difference_is_kept() {
    let comparison = compared(
        |_, _, looked| {
            *looked = 0;
            1
        },
        PARTS[0],
    );
    let found = comparison.smallest.expect("they part");
    assert_eq!(found.texts.map(|text| text.len()), [0, 1]);
    assert_eq!((found.expected.answer, found.told[0].answer), (0, 1));
}

#[test]
fn of_a_long_text_the_end_is_shown() {
    assert_eq!(end(b"ab"), "6162");
    assert_eq!(end(&[1; SHOWN]), "01".repeat(SHOWN));
    let long = [&[2; 3][..], &[1; SHOWN]].concat();
    assert_eq!(end(&long), format!("3 bytes, then {}", "01".repeat(SHOWN)));
}

/// A call that writes where it is lent nothing, or to a text, cannot be written in Rust: what sees it is tried alone.
#[test]
fn a_text_stands_where_it_is_asked_for_and_a_changed_byte_is_seen() {
    let mut memory = Memory::default();
    for shift in 0..SHIFTS {
        memory.lay(b"text", shift, 7);
        let address = memory.text().as_ptr() as usize;
        assert_eq!((address % SHIFTS, memory.text()), (shift, &b"text"[..]));
        assert!(memory.holds(b"text") && !memory.holds(b"next"));
        let end = memory.lent.end;
        memory.bytes[end] = 8;
        assert!(!memory.holds(b"text"));
    }
}

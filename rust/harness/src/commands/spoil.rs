//! `spoil PROGRAM`: the program replay on copies of its list in which one recorded number or byte of a case of each call is
//! another, or which are cut off, longer or of an unknown call. Each time it must say that one case came out otherwise.

use std::io::Write;
use std::process::{Command, Stdio};

use super::{DONE, FAILED};
use crate::recorded::{Case, call, read_list, write_list};

const LIST: &[u8] = include_bytes!("../../../../crates/replay/stdin");

pub fn run(program: &str) -> u8 {
    let Some(cases) = read_list(LIST) else {
        eprintln!("crates/replay/stdin is not whole");
        return FAILED;
    };
    let mut spoilt = broken_lists(&cases);
    for call in 0..call::COUNT as u32 {
        spoilt.extend(spoilt_lists(&cases, call));
    }
    for spoilt in &spoilt {
        let said = replay(program, &spoilt.list);
        if !spoilt.expected.iter().all(|line| said.contains(line)) {
            println!("FAILED: {}: {program} says\n{said}", spoilt.what);
            return FAILED;
        }
    }
    println!("{} spoilt lists, each seen by {program}", spoilt.len());
    DONE
}

/// A list, and lines that the program must write of it.
struct Spoilt {
    what: String,
    list: Vec<u8>,
    expected: Vec<String>,
}

/// Copies in which one number or byte of what is recorded of a case is another.
fn spoilt_lists(cases: &[Case], call: u32) -> Vec<Spoilt> {
    let of_call = |case: &&Case| case.call == call;
    let count = cases.iter().filter(of_call).count();
    // The largest answered case has bytes in each buffer.
    let answered = cases
        .iter()
        .enumerate()
        .filter(|(_, case)| of_call(case) && case.refusal == 0);
    let bytes = |case: &Case| {
        case.buffers
            .iter()
            .filter(|buffer| !buffer.is_empty())
            .count()
    };
    let (place, chosen) = answered
        .max_by_key(|(_, case)| bytes(case))
        .expect("each call has an answer");
    let name = call::NAMES[call as usize];
    let changes = changes(chosen).into_iter();
    changes
        .map(|(what, changed)| {
            let mut cases = cases.to_vec();
            cases[place] = changed;
            Spoilt {
                what: format!("{what} of {name}"),
                list: write_list(&cases),
                expected: vec![
                    format!("{name}: {} as recorded, 1 otherwise\n", count - 1),
                    format!("\n{} as recorded, 1 otherwise\n", cases.len() - 1),
                ],
            }
        })
        .collect()
}

fn changes(case: &Case) -> Vec<(String, Case)> {
    let changed = |change: &dyn Fn(&mut Case)| {
        let mut case = case.clone();
        change(&mut case);
        case
    };
    let mut changes = vec![("refusal".to_string(), changed(&|case| case.refusal ^= 1))];
    for number in 0..case.numbers.len() {
        let case = changed(&|case| case.numbers[number] ^= 1);
        changes.push((format!("number {number}"), case));
    }
    for buffer in 0..4 {
        for byte in [0, case.buffers[buffer].len().saturating_sub(1)] {
            if !case.buffers[buffer].is_empty() {
                let case = changed(&|case| case.buffers[buffer][byte] ^= 1);
                changes.push((format!("byte {byte} of buffer {buffer}"), case));
            }
        }
    }
    changes
}

/// Lists that are cut off, longer than their cases, or have a call that there is none of.
fn broken_lists(cases: &[Case]) -> Vec<Spoilt> {
    let broken = |what: &str, list: Vec<u8>, same: usize| Spoilt {
        what: what.to_string(),
        list,
        expected: vec![format!("\n{same} as recorded, 1 otherwise\n")],
    };
    let whole = cases.len();
    let unknown = Case {
        call: call::COUNT as u32,
        ..Case::default()
    };
    let last = cases.last().map_or(0, |case| case.bytes().len());
    vec![
        broken("nothing", vec![], 0),
        broken(
            "the last byte cut off",
            LIST[..LIST.len() - 1].to_vec(),
            whole - 1,
        ),
        broken(
            "the last case cut off",
            LIST[..LIST.len() - last].to_vec(),
            whole - 1,
        ),
        broken("a byte more", [LIST, &[0]].concat(), whole),
        broken(
            "an unknown call",
            write_list(&[&cases[..2], &[unknown]].concat()),
            2,
        ),
    ]
}

/// What the program writes on a list.
fn replay(program: &str, list: &[u8]) -> String {
    let started = Command::new(program)
        .stdin(Stdio::piped())
        .stdout(Stdio::piped())
        .spawn();
    let mut replay = match started {
        Ok(replay) => replay,
        Err(error) => return error.to_string(),
    };
    let mut input = replay.stdin.take().expect("it is piped");
    // It stops reading at a broken case.
    let _ = input.write_all(list);
    drop(input);
    let output = replay.wait_with_output();
    output.map_or_else(
        |error| error.to_string(),
        |output| String::from_utf8_lossy(&output.stdout).into_owned(),
    )
}

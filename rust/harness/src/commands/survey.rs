//! `survey`: what the program of that name must print for an image, by another source than the port. `survey-cases`: the cases
//! that the repository keeps, each with that text. `survey-run`: the program on generated images, against that text, and
//! its time on the images that are slow for their size.

use std::io::Write;
use std::path::Path;
use std::process::{Command, Stdio};
use std::time::{Duration, Instant};

use super::comparison::hex;
use super::{DONE, FAILED};
use crate::generate::{self, damage, grow::Texts, own_builtins, slow, walks};
use crate::random::Random;
use crate::second_reading::{self, ANSWERS, is_of_image};
use crate::survey_cases::cases;
use crate::survey_text::{LONGEST_INPUT, survey_text};

const SEED: u64 = 0x5eed_5c4e;
const COUNT: usize = 2_000;
/// How long a person waits without a thought: no image may take longer.
const WAIT: Duration = Duration::from_secs(1);
/// Words of which each must have been seen in a line.
const WORDS: [&str; 9] = [
    "resolve", "def", "builtin", "with", "walk", "edge", "bind", "narrow", "refused",
];

fn failed(path: &Path, error: &std::io::Error) -> u8 {
    eprintln!("{}: {error}", path.display());
    FAILED
}

pub fn run(file: &str) -> u8 {
    match std::fs::read(file) {
        Ok(input) => {
            print!("{}", survey_text(&input));
            DONE
        }
        Err(error) => failed(Path::new(file), &error),
    }
}

pub fn write_cases(folder: &str) -> u8 {
    for (name, image) in cases() {
        let text = survey_text(&image).into_bytes();
        for (kind, bytes) in [("image", image), ("survey", text)] {
            let path = Path::new(folder).join(format!("{name}.{kind}"));
            if let Err(error) = std::fs::write(&path, bytes) {
                return failed(&path, &error);
            }
        }
    }
    DONE
}

/// What the program writes for these bytes.
fn output(program: &str, input: &[u8]) -> std::io::Result<Vec<u8>> {
    let mut child = Command::new(program)
        .stdin(Stdio::piped())
        .stdout(Stdio::piped())
        .spawn()?;
    child.stdin.take().expect("piped").write_all(input)?;
    Ok(child.wait_with_output()?.stdout)
}

/// A tree made for walks, one whose `builtins` may be another set, any tree, or a damaged copy of any tree.
fn image(random: &mut Random, turn: usize) -> Vec<u8> {
    let tree = match turn % 8 {
        0 | 1 | 4 => walks::tree(random),
        5 => own_builtins::tree(random),
        _ => generate::tree(random, Texts::Bytes),
    };
    let damaged = (turn % 8 == 3)
        .then(|| damage::refused(random, &tree))
        .flatten();
    let mut image = damaged.map_or_else(|| tree.encode(), |(_, image)| image);
    // the program reads no further
    image.truncate(LONGEST_INPUT + 1);
    image
}

/// The slowest of the images that are slow for their size, each the largest of its family that the program reads.
fn slowest(program: &str) -> std::io::Result<(Duration, &'static str)> {
    let mut slowest = (Duration::ZERO, "");
    for family in &slow::FAMILIES {
        let image = family.within(LONGEST_INPUT).encode();
        let start = Instant::now();
        output(program, &image)?;
        slowest = slowest.max((start.elapsed(), family.name));
    }
    Ok(slowest)
}

fn within_time(program: &str) -> u8 {
    match slowest(program) {
        Ok((time, name)) => {
            let families = slow::FAMILIES.len();
            println!("survey on {families} slow images: {time:.1?} at most ({name})");
            if time > WAIT { FAILED } else { DONE }
        }
        Err(error) => failed(Path::new(program), &error),
    }
}

pub fn run_program(program: &str) -> u8 {
    match compare(program) {
        DONE => within_time(program),
        status => status,
    }
}

fn compare(program: &str) -> u8 {
    let mut random = Random::new(SEED);
    let mut seen = [0_usize; WORDS.len()];
    let mut refused = [0_usize; ANSWERS];
    for turn in 0..COUNT {
        let image = image(&mut random, turn);
        let expected = survey_text(&image);
        match output(program, &image) {
            Ok(written) if written == expected.as_bytes() => {}
            Ok(_) => {
                println!("DIFFERENCE at image {turn}: {}", hex(&image));
                return FAILED;
            }
            Err(error) => return failed(Path::new(program), &error),
        }
        refused[second_reading::check(&image) as usize] += 1;
        for (count, word) in seen.iter_mut().zip(WORDS) {
            let has = |line: &&str| line.split(' ').any(|part| part == word);
            *count += expected.lines().filter(has).count();
        }
    }
    let lines: Vec<_> = WORDS.into_iter().zip(seen).collect();
    println!("survey on {COUNT} generated images, lines by word: {lines:?}");
    println!("images by what `check` answers: {refused:?}");
    let mut of_image = (1..ANSWERS).filter(|&refusal| is_of_image(refusal as u32));
    if seen.contains(&0) || of_image.any(|refusal| refused[refusal] == 0) {
        println!("FAILED: a word or a refusal was not seen");
        return FAILED;
    }
    println!("no difference");
    DONE
}

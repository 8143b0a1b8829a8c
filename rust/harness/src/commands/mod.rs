//! The commands of the binary. Each gives its exit status.

#[cfg(original)]
mod against;
mod all;
#[cfg(original)]
mod arrows;
mod bench;
mod check;
mod comparison;
#[cfg(original)]
mod conditions;
#[cfg(original)]
mod dependencies;
mod depth;
mod examples;
mod exhaust;
mod extent;
// Without the original some of it has nobody to use it.
#[cfg_attr(not(original), allow(dead_code))]
mod findings;
#[cfg(original)]
mod indices;
#[cfg(original)]
mod met;
mod needs;
#[cfg(original)]
mod numbers;
#[cfg(original)]
mod original;
#[cfg(original)]
mod record;
mod report;
#[cfg(original)]
mod resolution;
mod slow;
mod spoil;
mod survey;
mod survey_case;
mod texts;

use extent::Extent;
use report::Report;

const USAGE: &str = "usage: harness COMMAND
  all [FACTOR [SEED]]            all comparisons in turn, their counts times FACTOR, and one table of them
  check [COUNT [SEED]]           compare the port's check with the second reading on generated images
  exhaust                        the same on every image of some small families
  original [COUNT [SEED]]        run the original on generated images
  indices [COUNT [SEED]]         compare the port's binding index with the original's
  resolution [COUNT [SEED]]      compare the port's name resolution with the original's
  conditions [COUNT [SEED]]      compare the port's analysis of conditions with the original's
  dependencies [COUNT [SEED]]    compare the port's walk with the original's
  needs [COUNT [SEED]]           compare the levels and what a resolution and a walk need with the original's runs and the
                                 second reading, and make the calls with just that and with less
  texts [COUNT [SEED]]           compare the port's comparison of texts with the second reading's
  depth                          the stack that the port's resolution, conditions and walk take, by nesting
  examples DIR [--check]         write the files of the examples, or compare the folder with them
  survey FILE                    what the program survey must print for an image
  survey-case [FILE]             the image of the printed case, in hex or into a file
  survey-cases FOLDER            write the images of crates/survey/cases, each with what survey must print
  survey-run PROGRAM             the program survey on generated images, against that text
  record FILE                    write the list of answers that the program replay runs
  spoil PROGRAM                  the program replay on lists with a byte changed: it must see each
  slow [OPTION VALUE]..          look for images that are slow to resolve: --seconds, --seed, --bound (times the check),
                                 --out FILE for one that exceeds it, --image FILE to time that one alone
  bench [CALL]                   time of the port against the second reading and the original, as ratios, of all calls or
                                 of check, indices, resolution, conditions or dependencies; texts: of the comparison of texts
                                 against ==; slow: of slow images";

const DONE: u8 = 0;
const FAILED: u8 = 1;
const BAD_USAGE: u8 = 2;
#[cfg(not(original))]
const NO_ORIGINAL: u8 = 3;

/// Runs the command that the words name.
pub fn run(words: &[String]) -> u8 {
    let words: Vec<&str> = words.iter().map(String::as_str).collect();
    match &words[..] {
        ["all", words @ ..] => sized(words, all::DEFAULT, all::run),
        ["check", words @ ..] => sized(words, check::DEFAULT, check::run),
        ["exhaust"] => exhaust::run().status,
        ["needs", words @ ..] => sized(words, needs::DEFAULT, needs::run),
        ["texts", words @ ..] => sized(words, texts::DEFAULT, texts::run),
        ["depth"] => depth::run().status,
        ["depth", call, nesting, kib] => depth::probe(call, nesting, kib),
        ["examples", folder] => examples::write(folder),
        ["examples", folder, "--check"] => examples::check(folder),
        ["survey", file] => survey::run(file),
        ["survey-cases", folder] => survey::write_cases(folder),
        ["survey-run", program] => survey::run_program(program),
        ["survey-case"] => survey_case::print(),
        ["survey-case", file] => survey_case::write(file),
        ["spoil", program] => spoil::run(program),
        ["slow", words @ ..] => slow::run(words),
        ["bench"] => bench::run(None).unwrap_or_else(usage),
        ["bench", "slow", call, row, side] => bench::slow::probe(call, row, side),
        ["bench", part] => bench::run(Some(part)).unwrap_or_else(usage),
        _ => run_beside_original(&words),
    }
}

/// Runs a command that needs the original.
#[cfg(original)]
fn run_beside_original(words: &[&str]) -> u8 {
    match words {
        ["indices", words @ ..] => sized(words, indices::DEFAULT, indices::run),
        ["conditions", words @ ..] => sized(words, conditions::DEFAULT, conditions::run),
        ["dependencies", words @ ..] => sized(words, dependencies::DEFAULT, dependencies::run),
        ["original", words @ ..] => sized(words, original::DEFAULT, original::run),
        ["resolution", words @ ..] => sized(words, resolution::DEFAULT, resolution::run),
        ["record", file] => record::run(file),
        _ => usage(),
    }
}

/// Runs a command to the extent that the words say.
fn sized(words: &[&str], default: Extent, command: fn(Extent) -> Report) -> u8 {
    let extent = default.parse(words);
    extent.map_or_else(usage, |extent| command(extent).status)
}

/// Says of a command that needs the original that it cannot run.
#[cfg(not(original))]
fn run_beside_original(words: &[&str]) -> u8 {
    if !matches!(
        words,
        [
            "conditions" | "dependencies" | "indices" | "original" | "record" | "resolution",
            ..
        ]
    ) {
        return usage();
    }
    no_original(words[0])
}

#[cfg(not(original))]
fn no_original(command: &str) -> u8 {
    eprintln!(
        "the original Rust is not at hand (LANG_AST_SRC names its folder): what {command} takes from it did \
         not run, and the recorded answers, which rt ci replays, stand for it"
    );
    NO_ORIGINAL
}

fn usage() -> u8 {
    eprintln!("{USAGE}");
    BAD_USAGE
}

#[cfg(test)]
mod tests {
    use super::*;

    #[test]
    fn unknown_words_are_bad_usage() {
        assert_eq!(run(&[]), BAD_USAGE);
        assert_eq!(run(&["nothing".to_string()]), BAD_USAGE);
        assert_eq!(run(&["check".to_string(), "x".to_string()]), BAD_USAGE);
        assert_eq!(run(&["all".to_string(), "x".to_string()]), BAD_USAGE);
    }
}

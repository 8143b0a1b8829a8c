//! What the program `survey` prints, without the port: the answers are the original's where it is at hand, the texts are
//! UTF-8, each `builtins` of a walk is the builtin set and it analyses no arrow, else the second reading's; so are the
//! refusals, and that a name is a number (sort 7), where the original tells the type of a literal.

use crate::image::{Fields, NONE};
use crate::port::{Walk, walk_buffers};
use crate::records::{Edge, Narrowing, binding_of, edges, narrowings, record_of, sort_of};
use crate::second_reading;
use crate::tables::{Given, entries};

/// The longest image that it takes, the budget of each call, and the bytes of each buffer.
pub const LONGEST_INPUT: usize = 65_536;
const BUDGET: u32 = 65_535;
const ROOM: usize = 65_536;

/// The output for this input, each line with its line feed.
pub fn survey_text(input: &[u8]) -> String {
    let lines = lines(input, BUDGET);
    lines.iter().map(|line| format!("{line}\n")).collect()
}

fn lines(input: &[u8], budget: u32) -> Vec<String> {
    if input.len() > LONGEST_INPUT {
        return vec!["too long".to_string()];
    }
    let resolved = match resolution(input, budget) {
        Ok(resolved) => resolved,
        Err(refusal) => return vec![refused(refusal)],
    };
    let mut lines = resolve_lines(resolved.steps, &resolved.table);
    match walk(input, resolved.table, budget) {
        Ok(walked) => lines.extend(walked.lines()),
        Err(refusal) => lines.push(refused(refusal)),
    }
    lines
}

fn refused(refusal: u32) -> String {
    format!("refused {refusal}")
}

#[derive(Debug, PartialEq)]
struct Resolution {
    steps: u64,
    table: Vec<u8>,
}

#[derive(Debug, PartialEq)]
struct Walked {
    steps: u64,
    edges: Vec<Edge>,
    /// Two bytes a name: its expression or 16383.
    exprs: Vec<u8>,
    narrowings: Vec<Narrowing>,
}

/// The steps of a resolution, and a line for each entry that is not 0.
pub fn resolve_lines(steps: u64, table: &[u8]) -> Vec<String> {
    let mut lines = vec![format!("resolve {steps}")];
    for (e, entry) in entries(table).enumerate() {
        let tag = ["", "def", "builtin", "with"][usize::from(entry >> 14)];
        if !tag.is_empty() {
            lines.push(format!("{e} {tag} {}", entry & 0x3fff));
        }
    }
    lines
}

impl Walked {
    fn lines(&self) -> Vec<String> {
        let mut lines = vec![format!("walk {}", self.steps)];
        let edge = |edge: &Edge| format!("edge {} {}", edge >> 18, edge >> 4 & 0x3fff);
        lines.extend(self.edges.iter().map(edge));
        let bound = entries(&self.exprs).enumerate();
        let bound = bound.filter(|&(_, e)| u32::from(e) != NONE);
        lines.extend(bound.map(|(name, e)| format!("bind {name} {e}")));
        for &recorded in &self.narrowings {
            let (binding, record) = (binding_of(recorded), record_of(recorded));
            let (name, sort, value) = (record >> 18, sort_of(record), record & 0x3fff);
            lines.push(format!("narrow {binding} {name} {sort} {value}"));
        }
        lines
    }
}

/// What the call answers, or its refusal.
fn resolution(image: &[u8], budget: u32) -> Result<Resolution, u32> {
    let (mut table, mut working, mut steps) = (vec![0; ROOM], vec![0; ROOM], 0);
    let answer =
        second_reading::name_resolution(image, budget, &mut table, &mut working, &mut steps);
    if answer != 0 {
        return Err(answer);
    }
    table.truncate(2 * Fields::decode(image).expect("it is accepted").exprs.len());
    let steps = steps.into();
    Ok(agreed(
        original_resolution(image),
        Resolution { steps, table },
    ))
}

/// What the walk over the image's own tables answers, or its refusal.
fn walk(image: &[u8], resolutions: Vec<u8>, budget: u32) -> Result<Walked, u32> {
    let names = Fields::decode(image).expect("it is accepted").names.len();
    let mut bindings = vec![0; 2 * names];
    second_reading::module_indices(image, &mut bindings);
    let given = Given {
        resolutions,
        bindings,
    };
    let mut lent = [(); 4].map(|()| vec![0; ROOM]);
    let mut numbers = Walk::default();
    let buffers = walk_buffers(lent.each_mut().map(Vec::as_mut_slice));
    let answer = second_reading::name_dependencies(image, &given, budget, buffers, &mut numbers);
    if answer != 0 {
        return Err(answer);
    }
    let [edge_bytes, narrowing_bytes, exprs, _] = &lent;
    let walked = Walked {
        steps: numbers.steps.into(),
        edges: edges(&edge_bytes[..4 * numbers.edge_count as usize]),
        exprs: exprs[..2 * names].to_vec(),
        narrowings: narrowings(&narrowing_bytes[..8 * numbers.narrowing_count as usize]),
    };
    Ok(agreed(original_walk(image, &given), walked))
}

/// The answer of both readings where both are at hand: a text on which they part would mean nothing.
fn agreed<T: PartialEq + std::fmt::Debug>(original: Option<T>, second: T) -> T {
    if let Some(original) = original {
        assert_eq!(original, second, "the original and the second reading part");
    }
    second
}

#[cfg(original)]
use at_hand::{original_resolution, original_walk};

/// The original on an image that is not refused.
#[cfg(original)]
mod at_hand {
    use super::{Given, Resolution, Walked};
    use crate::arrows;
    use crate::builtin_set;
    use crate::image::Tree;
    use crate::original::passes::{Subject, Tables};

    /// None if a text is not UTF-8, which the original cannot hold.
    fn utf8_tree(image: &[u8]) -> Option<Tree> {
        let tree = Tree::decode(image);
        let is_utf8 = |text: &Vec<u8>| str::from_utf8(text).is_ok();
        tree.texts.iter().all(is_utf8).then_some(tree)
    }

    pub fn original_resolution(image: &[u8]) -> Option<Resolution> {
        let resolved = Subject::new(&utf8_tree(image)?).name_resolution();
        let (steps, table) = (resolved.steps, resolved.table);
        Some(Resolution { steps, table })
    }

    /// None also if a `builtins` is not the builtin set, which the original would take it for, and if an arrow is analysed.
    pub fn original_walk(image: &[u8], own: &Given) -> Option<Walked> {
        let is_asked = |tree: &Tree| builtin_set::is_meant(tree, own) && !arrows::in_walk(tree);
        let tree = utf8_tree(image).filter(is_asked)?;
        let subject = Subject::new(&tree);
        let walked = subject.name_dependencies(&Tables::own(&subject.module));
        Some(Walked {
            steps: walked.steps,
            edges: walked.edges,
            exprs: walked.exprs,
            narrowings: walked.narrowings,
        })
    }
}

#[cfg(not(original))]
fn original_resolution(_: &[u8]) -> Option<Resolution> {
    None
}

#[cfg(not(original))]
fn original_walk(_: &[u8], _: &Given) -> Option<Walked> {
    None
}

/// What the description prints for `x: if x == null then let y = x; in y else x`.
#[cfg(test)]
pub const PRINTED: &str = "resolve 9
0 def 0
1 builtin 15
3 def 0
4 def 1
6 def 0
walk 10
edge 1 0
bind 1 3
narrow 1 0 0 0
";

/// The lines of it that speak of the resolution.
#[cfg(test)]
pub fn printed_resolution() -> Vec<&'static str> {
    let lines = PRINTED.lines();
    lines.take_while(|line| !line.starts_with("walk")).collect()
}

#[cfg(test)]
mod tests {
    use super::*;
    use crate::generate::small::missing;
    use crate::generate::{self, grow::Texts, shapes};
    use crate::image::MOST_NUMBERED;
    use crate::large_stack::{LARGE, run_on};
    use crate::notation::*;
    use crate::random::Random;
    use crate::tables::{BUILTIN, WITH, resolution as entry, table};

    #[test]
    fn the_printed_case_is_as_printed() {
        assert_eq!(survey_text(&survey_case().encode()), PRINTED);
        assert_eq!(printed_resolution().len(), 6);
    }

    #[test]
    fn budget_nine_gives_the_walk_refusal_eight() {
        let image = survey_case().encode();
        let mut expected = printed_resolution();
        expected.push("refused 8");
        assert_eq!(lines(&image, 9), expected);
        assert_eq!(lines(&image, 8), ["refused 8"]);
    }

    #[test]
    fn each_tag_has_its_word_and_none_has_no_line() {
        let table = table([entry(WITH, 16383), 0, entry(BUILTIN, 2)].into_iter());
        let lines = resolve_lines(3, &table);
        assert_eq!(lines, ["resolve 3", "0 with 16383", "2 builtin 2"]);
    }

    #[test]
    fn a_refused_image_prints_its_number_alone() {
        let image = missing().encode();
        assert_eq!(survey_text(&image), "resolve 1\nwalk 1\n");
        assert_eq!(survey_text(&image[..19]), "refused 1\n");
        assert_eq!(survey_text(&[]), "refused 1\n");
    }

    #[test]
    fn longer_input_is_too_long() {
        assert_eq!(survey_text(&[0; LONGEST_INPUT]), "refused 1\n");
        assert_eq!(survey_text(&[0; LONGEST_INPUT + 1]), "too long\n");
    }

    /// With 12,288 tests a condition has 49,151 visits and 24,575 nodes.
    #[test]
    fn a_walk_alone_can_be_refused() {
        let twice = |test: Node, _| and(test.clone(), test);
        let tests = |doublings| (0..doublings).fold(eq(var("x"), null()), twice);
        let body = if_(and(tests(13), tests(12)), int(), int());
        let image = tree(&lambda("x", body)).encode();
        let text = survey_text(&image);
        let expected = "resolve 49155\n0 def 0\n1 builtin 15\n16 def 0\n17 builtin 15\nrefused 8\n";
        assert_eq!(text, expected);
    }

    #[test]
    fn a_number_literal_narrows_to_a_number_and_is_int_to_an_integer() {
        let is_int = apply(select(var("builtins"), &["isInt"]), var("x"));
        let bound = let_(&[("y", var("x"))], int());
        let both = and(eq(int(), var("x")), is_int);
        let text = survey_text(&tree(&lambda("x", assert_(both, bound))).encode());
        let narrowed: Vec<&str> = text.lines().filter(|l| l.starts_with("narrow")).collect();
        assert_eq!(narrowed, ["narrow 1 0 7 0", "narrow 1 0 0 2"]);
    }

    /// Buffers of 65,536 bytes are too short for the scopes of a run that the budget allows.
    #[test]
    fn a_buffer_can_be_too_short() {
        let body = (0..14).fold(with_(int(), int()), |body, _| with_(body.clone(), body));
        assert_eq!(survey_text(&tree(&body).encode()), "refused 9\n");
    }

    /// Where the original is at hand, a text that it would have otherwise is a panic.
    #[test]
    fn generated_images_have_a_text() {
        let ran = run_on(LARGE, || {
            let mut random = Random::new(7);
            let mut narrowed = 0;
            for texts in [Texts::Utf8, Texts::Bytes].repeat(300) {
                let text = survey_text(&generate::tree(&mut random, texts).encode());
                narrowed += usize::from(text.contains("\nnarrow "));
            }
            assert!(narrowed > 20, "{narrowed}");
            let deep = shapes::NESTINGS[0].chain(MOST_NUMBERED).encode();
            assert_eq!(survey_text(&deep), "too long\n");
        });
        assert!(ran.is_ok());
    }
}

//! How guards may be rewritten: each law of document 02, order 7, on the second reading and on the port.

use std::rc::Rc;

use crate::answers::Condition;
use crate::generate::arrows::{laws, two_conditions};
use crate::generate::given;
use crate::image::Tree;
use crate::notation::{Node, lambda, list, tree};
use crate::port::{self, Analysis, Question, own_tables};
use crate::random::Random;
use crate::second_reading::{condition_steps, condition_told};
use crate::tables::Given;

/// Of so many steps no list here is longer.
const MOST_STEPS: u64 = 1000;

type Tell = fn(&[u8], &Given, u32) -> Condition;

fn told_by_port(image: &[u8], given: &Given, condition: u32) -> Condition {
    let (mut then_list, mut else_list) = ([0; 4000], [0; 4000]);
    let mut analysis = Analysis::default();
    let question = Question::new(image, given, condition, MOST_STEPS as u32);
    let answer = port::analyze_condition(question, &mut then_list, &mut else_list, &mut analysis);
    assert_eq!(answer, 0);
    let records = |list: &[u8], count: u32| {
        let (records, _) = list.as_chunks();
        let records = records.iter().take(count as usize);
        records.map(|&record| u32::from_be_bytes(record)).collect()
    };
    Condition {
        then_list: records(&then_list, analysis.then_count),
        else_list: records(&else_list, analysis.else_count),
        steps: analysis.steps.into(),
    }
}

/// A tree with both conditions of each law, and for each law their numbers.
fn both_of_each(a: &Node, b: &Node) -> (Tree, Vec<[u32; 2]>) {
    let both = |law: &crate::generate::arrows::Law| [&law.one, &law.other].map(Rc::clone);
    let elements: Vec<Node> = laws(a, b).iter().flat_map(both).collect();
    let tree = tree(&lambda("x", lambda("y", list(&elements))));
    let asked: Vec<u32> = tree.exprs[tree.entry as usize - 2]
        .items
        .iter()
        .map(|item| item.expr)
        .collect();
    let (pairs, _) = asked.as_chunks();
    (tree, pairs.to_vec())
}

/// Holds each law over generated conditions, own tables and any; for each how often a list is not empty.
fn told_of_each(tell: Tell) -> [usize; 5] {
    let mut random = Random::new(31);
    let mut telling = [0; 5];
    for _ in 0..1000 {
        let [a, b] = two_conditions(&mut random);
        let (tree, asked) = both_of_each(&a, &b);
        let image = tree.encode();
        assert!(
            condition_steps(&image)
                .iter()
                .all(|&steps| steps <= MOST_STEPS)
        );
        let any = given::tables(&mut random, &tree);
        for given in [own_tables(&image), any] {
            for ((law, numbers), count) in laws(&a, &b).iter().zip(&asked).zip(&mut telling) {
                let [one, other] = numbers.map(|number| tell(&image, &given, number));
                let steps = one.steps + law.more;
                *count += usize::from(one.then_list.len() + one.else_list.len() > 0);
                assert_eq!(Condition { steps, ..one }, other, "{}", law.name);
            }
        }
    }
    telling
}

#[test]
fn rewritten_guards_tell_the_same_and_take_the_steps_that_they_say() {
    let telling = told_of_each(condition_told);
    assert!(telling.iter().all(|&count| count > 300), "{telling:?}");
}

#[test]
fn the_port_keeps_the_laws() {
    let telling = told_of_each(told_by_port);
    assert!(telling.iter().all(|&count| count > 300), "{telling:?}");
}

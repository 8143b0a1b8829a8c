//! The walk over the original's `NameDependencies::new`, on the same trees with their own tables.

use std::cell::RefCell;
use std::hint::black_box;

use super::{beside_original, budget, cases, median, rounds};
use crate::generate::shapes::GUARDS;
use crate::image::Tree;
use crate::original::lang_ast::nameres::NameDependencies;
use crate::original::passes::{Subject, Tables};
use crate::port::{self, Walk, own_tables, walk_buffers};
use crate::second_reading::{dependency_need, dependency_steps, resolution_steps};
use crate::tables::Given;

/// A tree that shares much can take more steps than there is time for.
const MOST_STEPS: u64 = 1_000_000;

pub fn run() {
    println!(
        "name_dependencies: time of the port, its checks of image and tables included, over time of the original's; what \
         the check of the image takes"
    );
    for (name, tree) in walk_cases() {
        println!("{}", line(&name, &tree));
    }
}

/// The cases of the other calls, and guards around each other.
fn walk_cases() -> Vec<(String, Tree)> {
    let mut all = cases();
    all.extend(beside_original::scope_cases());
    for guard in &GUARDS {
        for size in [30, 300] {
            all.push((format!("{}, {size} exprs", guard.name), guard.chain(size)));
        }
    }
    all
}

/// The tables of an image whose resolution and walk both end soon.
fn tables(image: &[u8]) -> Option<Given> {
    let given = (resolution_steps(image) <= MOST_STEPS).then(|| own_tables(image));
    given.filter(|given| dependency_steps(image, given) <= MOST_STEPS)
}

fn line(name: &str, tree: &Tree) -> String {
    let image = tree.encode();
    let Some(given) = tables(&image) else {
        return format!("{name:24} left out: its run takes too many steps");
    };
    let times = times(tree, &image, &given);
    let column = |side: usize| median(times.iter().map(|round| round[side]));
    let [whole, original, check] = [0, 1, 2].map(column);
    let steps = dependency_steps(&image, &given);
    let [port_step, original_step] = [whole, original].map(|time| time / steps as f64);
    format!(
        "{name:24} {:8} bytes  ratio {:6.2}  ({whole:.0} ns over {original:.0} ns)  the image's check {check:.0} ns: \
         {:.0}%; {steps} steps, {port_step:.0} over {original_step:.0} ns each",
        image.len(),
        median(times.iter().map(|round| round[0] / round[1])),
        100.0 * median(times.iter().map(|round| round[2] / round[0])),
    )
}

/// The budget that README.md starts with, or what the run takes where a guard is shared by many.
fn enough(tree: &Tree, image: &[u8], given: &Given) -> u32 {
    let steps = u32::try_from(dependency_steps(image, given)).unwrap_or(u32::MAX);
    budget(tree).max(steps)
}

/// Nanoseconds by round: the call, the original's, and the check of the image.
fn times(tree: &Tree, image: &[u8], given: &Given) -> Vec<[f64; 3]> {
    let (subject, tables) = (Subject::new(tree), Tables::given(given));
    let needs = dependency_need(image, given);
    let budget = enough(tree, image, given);
    let lent = RefCell::new(needs.map(|need| vec![0; need as usize]));
    rounds([
        &|| {
            let mut lent = lent.borrow_mut();
            let buffers = walk_buffers(lent.each_mut().map(Vec::as_mut_slice));
            let image = black_box(image);
            port::name_dependencies(image, given, budget, buffers, &mut Walk::default())
        },
        &|| {
            let module = black_box(&subject.module);
            let walked = NameDependencies::new(module, &tables.resolutions, &tables.bindings);
            black_box(walked).edges.len() as u32
        },
        &|| port::check(black_box(image)),
    ])
}

#[cfg(test)]
mod tests {
    use super::*;
    use crate::large_stack::{LARGE, run_on};

    #[test]
    fn every_case_but_the_largest_ends_and_is_walked_with_the_room_it_is_given() {
        let ran = run_on(LARGE, || {
            let mut left_out = Vec::new();
            for (name, tree) in walk_cases() {
                let image = tree.encode();
                let Some(given) = tables(&image) else {
                    left_out.push(name);
                    continue;
                };
                let mut lent = dependency_need(&image, &given).map(|need| vec![0; need as usize]);
                let buffers = walk_buffers(lent.each_mut().map(Vec::as_mut_slice));
                let mut walk = Walk::default();
                let budget = enough(&tree, &image, &given);
                let answer = port::name_dependencies(&image, &given, budget, buffers, &mut walk);
                assert_eq!(answer, 0, "{name}");
                let steps = dependency_steps(&image, &given);
                assert_eq!(u64::from(walk.steps), steps, "{name}");
            }
            assert_eq!(left_out, ["largest"]);
        });
        assert!(ran.is_ok());
    }
}

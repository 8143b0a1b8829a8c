//! The calls over the original's passes: a call checks the image, a pass has a module that is built.

use std::cell::RefCell;
use std::hint::black_box;

use super::{Measured, cases, measure};
use crate::generate::modules;
use crate::image::{Tree, kind};
use crate::original::lang_ast::compute_module_indices;
use crate::original::lang_ast::nameres::{ModuleScopes, compute_name_resolution};
use crate::original::passes::Subject;
use crate::port;
use crate::random::Random;
use crate::second_reading::resolution_steps;

/// A tree that shares much can take more steps than there is time for.
const MOST_STEPS: u64 = 1_000_000;
/// With fewer references than these, time goes elsewhere.
const FEWEST_REFERENCES: usize = 4;

pub fn indices() {
    println!(
        "module_indices: time of the port, its check of the image included, over time of the original's pass"
    );
    for (name, tree) in cases() {
        let image = tree.encode();
        let measured = measure_indices(&tree, &image);
        println!("{}", measured.line(&name, image.len()));
    }
}

pub fn resolution() {
    println!(
        "name_resolution: time of the port, its check of the image included, over time of the original's two passes"
    );
    for (name, tree) in cases().into_iter().chain(scope_cases()) {
        println!("{}", resolution_line(&name, &tree));
    }
}

fn measure_indices(tree: &Tree, image: &[u8]) -> Measured {
    let table = RefCell::new(vec![0; 2 * tree.names.len()]);
    let subject = Subject::new(tree);
    measure(
        || port::module_indices(black_box(image), &mut table.borrow_mut()),
        || {
            let indices = compute_module_indices(black_box(&subject.module));
            indices.binding_expr.len() as u32
        },
    )
}

/// The line of a case, with the time of both sides for each reference where there are some.
fn resolution_line(name: &str, tree: &Tree) -> String {
    let image = tree.encode();
    if resolution_steps(&image) > MOST_STEPS {
        return format!("{name:24} left out: its run takes too many steps");
    }
    let measured = measure_resolution(tree, &image);
    let line = measured.line(name, image.len());
    let references = tree.exprs.iter().filter(|e| e.kind == kind::REFERENCE);
    let count = references.count();
    if count < FEWEST_REFERENCES {
        return line;
    }
    let [first, second] = [measured.first, measured.second].map(|time| time / count as f64);
    format!("{line}  {count} references, {first:.0} over {second:.0} ns each")
}

fn measure_resolution(tree: &Tree, image: &[u8]) -> Measured {
    let subject = Subject::new(tree);
    let (exprs, scopes) = (tree.exprs.len(), subject.name_resolution().scopes);
    let lent = RefCell::new((vec![0; 2 * exprs], vec![0; 4 * exprs + 8 * scopes]));
    measure(
        || {
            let (table, working) = &mut *lent.borrow_mut();
            port::name_resolution(black_box(image), u32::MAX, table, working, &mut 0)
        },
        || {
            let module = black_box(&subject.module);
            let scopes = ModuleScopes::new(module);
            black_box(compute_name_resolution(module, &scopes));
            0
        },
    )
}

/// Programs as modules are written, and families that grow in the depth and the width of scopes.
pub fn scope_cases() -> Vec<(String, Tree)> {
    let mut random = Random::new(2);
    let mut cases = Vec::new();
    for (size, width) in [(40, 5), (120, 15), (400, 50), (1300, 150), (4000, 300)] {
        let tree = modules::tree(&mut random, size, width);
        cases.push((format!("module, {} exprs", tree.exprs.len()), tree));
    }
    for levels in [1, 4, 16, 64, 256] {
        cases.push((format!("scopes, {levels} deep"), modules::nested(levels)));
    }
    for width in [4, 16, 64, 256, 1024] {
        cases.push((format!("let of {width} names"), modules::wide(width)));
    }
    cases
}

#[cfg(test)]
mod tests {
    use super::*;
    use crate::second_reading::check;

    #[test]
    fn every_case_of_scopes_is_accepted_and_ends() {
        for (name, tree) in scope_cases() {
            let image = tree.encode();
            assert_eq!(check(&image), 0, "{name}");
            assert!(resolution_steps(&image) <= MOST_STEPS, "{name}");
        }
    }
}

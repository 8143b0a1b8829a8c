//! Records from number literals: the original tells the literal's type, document 02, order 5, that it is a number.
//!
//! The original does not say where a record comes from, and `isInt x` gives the same one as `x == 1`. So it is asked again with
//! a path in place of each number literal, which it looks at in comparisons alone: what is then told to be a path comes from a
//! number literal and becomes IsNumber. Every other record stays, and all else must be the same in both answers.

use super::lang_ast::{Expr, Literal, Module};
use crate::answers::{Condition, Dependencies};
use crate::records::{Narrowing, Record, binding_of, narrowing, record, record_of, sort, ty};

/// The module with a path in place of each number literal.
pub fn with_paths(module: &Module) -> Module {
    let replaced = |expr: &Expr| match expr {
        Expr::Literal(Literal::Integer(_) | Literal::Float(_)) => {
            Expr::Literal(Literal::Path("./.".to_string()))
        }
        other => other.clone(),
    };
    Module {
        exprs: module.exprs.iter().map(|(_, e)| replaced(e)).collect(),
        names: module.names.clone(),
        entry_expr: module.entry_expr,
    }
}

/// Whether one of the records can come from a number literal.
pub fn may_tell(mut records: impl Iterator<Item = Record>) -> bool {
    records.any(is_of_number_type)
}

fn is_of_number_type(told: Record) -> bool {
    [ty::INT, ty::FLOAT].contains(&(told & 0x3fff)) && told >> 14 & 0xf == sort::IS_TYPE
}

/// The record in the place of what is told, by what is told with paths.
fn in_place(told: Record, with_paths: Record) -> Record {
    if told == with_paths {
        return told;
    }
    let name = told >> 18;
    let is_literal = is_of_number_type(told) && with_paths == record(name, sort::IS_TYPE, ty::PATH);
    assert!(is_literal, "a number literal decides its type and no more");
    record(name, sort::IS_NUMBER, 0)
}

fn in_list(told: &[Record], with_paths: &[Record]) -> Vec<Record> {
    assert_eq!(told.len(), with_paths.len(), "a literal adds no record");
    let both = told.iter().zip(with_paths);
    both.map(|(&told, &again)| in_place(told, again)).collect()
}

pub fn in_condition(told: &Condition, with_paths: &Condition) -> Condition {
    assert_eq!(told.steps, with_paths.steps, "a literal takes no step");
    Condition {
        then_list: in_list(&told.then_list, &with_paths.then_list),
        else_list: in_list(&told.else_list, &with_paths.else_list),
        steps: told.steps,
    }
}

pub fn in_walk(told: Dependencies, with_paths: Dependencies) -> Dependencies {
    let bindings = |list: &[Narrowing]| list.iter().copied().map(binding_of).collect::<Vec<_>>();
    let records = |list: &[Narrowing]| list.iter().copied().map(record_of).collect::<Vec<_>>();
    let (first, again) = (&told.narrowings, &with_paths.narrowings);
    assert_eq!(bindings(first), bindings(again), "a literal binds nothing");
    let put = in_list(&records(first), &records(again));
    let put = bindings(first).into_iter().zip(put);
    let narrowings: Vec<Narrowing> = put.map(|(name, told)| narrowing(name, told)).collect();
    let but_narrowings = |walked| Dependencies {
        narrowings: vec![],
        ..walked
    };
    let told = but_narrowings(told);
    assert_eq!(told, but_narrowings(with_paths), "all else is the same");
    Dependencies { narrowings, ..told }
}

#[cfg(test)]
mod tests;

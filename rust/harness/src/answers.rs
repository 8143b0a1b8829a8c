//! What a condition and a walk give, whatever is lent, in the form in which the calls write it.

use crate::records::{Edge, Narrowing, Record};

#[derive(Debug, PartialEq, Eq)]
pub struct Condition {
    pub then_list: Vec<Record>,
    pub else_list: Vec<Record>,
    pub steps: u64,
}

#[derive(Debug, PartialEq, Eq)]
pub struct Dependencies {
    pub edges: Vec<Edge>,
    /// Two bytes a name: its expression or 16383.
    pub exprs: Vec<u8>,
    /// In the order of visits.
    pub narrowings: Vec<Narrowing>,
    pub steps: u64,
    /// The narrowings in force at the visit that has most.
    pub most_in_force: usize,
}

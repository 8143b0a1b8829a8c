//! `name_dependencies` a second time.
//!
//! Nothing recurses. Steps and needs are summed from the smallest expression up, so refusals are known before anything
//! is written; what is left to visit stands in a list.

use super::conditions::{Asked, Cost, FALSE, TRUE};
use super::{ACCEPTED, Item, check};
use crate::answers::Dependencies;
use crate::generate::words::CONDITIONALS;
use crate::image::{NONE, detail, kind, role};
use crate::port::refusal::{BROKEN_GIVEN, OVER_BUDGET, TOO_SHORT};
use crate::port::{Walk, WalkBuffers};
use crate::records::{Edge, Narrowing, Record, bytes, edge, narrowing, narrowing_bytes};
use crate::tables::{Given, table};

/// Bytes of an edge, of a recorded narrowing, of a name's expression and of a narrowing in force.
const WIDTHS: [u64; 4] = [4, 8, 2, 4];

/// The answer's number, with all buffers and the numbers left as the call leaves them.
pub fn name_dependencies(
    image: &[u8],
    given: &Given,
    budget: u32,
    buffers: WalkBuffers,
    walk: &mut Walk,
) -> u32 {
    let refusal = check(image);
    if refusal != ACCEPTED {
        return refusal;
    }
    let asked = Asked::new(image, &given.resolutions, &given.bindings);
    if !asked.tables_hold() {
        return BROKEN_GIVEN;
    }
    let summed = Summed::new(asked);
    buffers.working.fill(0);
    let refusal = summed.refusal(budget, &buffers);
    let answers = [buffers.edges, buffers.narrowings, buffers.exprs];
    if refusal != ACCEPTED {
        answers.into_iter().for_each(|buffer| buffer.fill(0));
        *walk = Walk::default();
        return refusal;
    }
    let written = summed.walk();
    *walk = written.numbers(summed.whole().steps);
    for (buffer, written) in answers.into_iter().zip(written.bytes()) {
        buffer[..written.len()].copy_from_slice(&written);
    }
    ACCEPTED
}

/// What the walk over an accepted image gives with tables that hold, of a run whose steps can be counted.
pub fn dependencies_told(image: &[u8], given: &Given) -> Dependencies {
    let asked = Asked::new(image, &given.resolutions, &given.bindings);
    let summed = Summed::new(asked);
    let (written, whole) = (summed.walk(), summed.whole());
    Dependencies {
        exprs: table(written.exprs.into_iter()),
        edges: written.edges,
        narrowings: written.narrowings,
        steps: whole.steps,
        most_in_force: whole.most_in_force as usize,
    }
}

/// The steps of the walk over an accepted image with tables that hold, counted up to `u64::MAX`. Which calls are
/// conditional, and so have a condition that is analysed, hangs on what `builtins` resolves to.
pub fn dependency_steps(image: &[u8], given: &Given) -> u64 {
    let asked = Asked::new(image, &given.resolutions, &given.bindings);
    Summed::new(asked).whole().steps
}

/// The bytes that the walk needs of each buffer, counted up to `u64::MAX`.
pub fn dependency_need(image: &[u8], given: &Given) -> [u64; 4] {
    let asked = Asked::new(image, &given.resolutions, &given.bindings);
    Summed::new(asked).needs()
}

/// The steps of the walk, its edges and recorded narrowings, and the most in force, with tables that hold.
pub(super) fn dependency_counts(asked: Asked) -> [u64; 4] {
    let whole = Summed::new(asked).whole();
    let edges = whole.edges[FREE];
    [whole.steps, edges, whole.narrowings, whole.most_in_force]
}

/// The binding that a part of an expression stands in.
#[derive(Clone, Copy)]
enum Within {
    /// The one around the expression, or none.
    Same,
    None,
    /// One of its own, which records the name.
    Name(u32),
}

/// An expression that a visit leads to.
struct Child {
    expr: u32,
    within: Within,
    /// A condition that is known to have come out this way.
    guard: Option<(u32, usize)>,
}

impl Child {
    fn new(item: Item, within: Within) -> Self {
        Child {
            expr: item.expr,
            within,
            guard: None,
        }
    }

    fn same(item: Item) -> Self {
        Self::new(item, Within::Same)
    }

    /// Of a let or a recursive set: bases are not visited, since the selections from them are.
    fn of_bindings(item: Item) -> Option<Self> {
        match item.role {
            role::STATIC | role::INHERIT | role::INHERIT_FROM => {
                let within = Within::Name(item.name);
                Some(Self::new(item, within))
            }
            role::INHERIT_BASE => None,
            role::CHILD => Some(Self::same(item)),
            _ => Some(Self::new(item, Within::None)),
        }
    }

    /// How many bindings it makes itself.
    fn names(&self) -> u64 {
        matches!(self.within, Within::Name(_)).into()
    }
}

impl Asked<'_> {
    /// What a visit of the expression leads to, in order.
    fn children(&self, e: u32) -> Vec<Child> {
        let expr = self.image.expr(e);
        let items = self.image.items(e).filter(|item| item.expr != NONE);
        let mut children: Vec<Child> = match (expr.kind, expr.detail) {
            (kind::LET_IN, _) | (kind::ATTR_SET, detail::REC) => {
                items.filter_map(Child::of_bindings).collect()
            }
            (kind::ATTR_SET, _) => {
                let others = items.filter(|item| item.role != role::INHERIT_FROM);
                others.map(Child::same).collect()
            }
            _ => items.map(Child::same).collect(),
        };
        // The condition of an if and of an assert stands first, a call's within its function.
        let condition = self.condition(e);
        for (child, way) in children.iter_mut().skip(1).zip([TRUE, FALSE]) {
            child.guard = condition.map(|condition| (condition, way));
        }
        children
    }

    /// The condition that is analysed at a visit of the expression.
    fn condition(&self, e: u32) -> Option<u32> {
        match self.image.expr(e).kind {
            kind::IF_THEN_ELSE | kind::ASSERT => Some(self.image.part(e, 0)),
            kind::APPLY => self.conditional_call(self.image.part(e, 0)),
            _ => None,
        }
    }

    /// The condition of `optional condition` and its like.
    fn conditional_call(&self, fun: u32) -> Option<u32> {
        if self.image.expr(fun).kind != kind::APPLY {
            return None;
        }
        let called = self.image.part(fun, 0);
        let text = self.reference(called).or_else(|| self.last_key(called))?;
        let is_known = CONDITIONALS.iter().any(|name| name.as_bytes() == text);
        is_known.then(|| self.image.part(fun, 1))
    }
}

/// Whether a binding is around an expression; the edges stand in this order.
const BOUND: usize = 0;
const FREE: usize = 1;

/// What a visit of an expression comes to, all that it leads to included.
#[derive(Clone, Copy, Default)]
struct Sum {
    steps: u64,
    /// With a binding around it, and without.
    edges: [u64; 2],
    /// Bindings that are visited: each records what is in force around the expression.
    bindings: u64,
    /// What they record besides.
    narrowings: u64,
    /// Narrowings in force at the point that has most, besides those around the expression.
    most_in_force: u64,
}

impl Sum {
    /// Adds a child with so many narrowings in force that are not around its owner.
    fn add(&mut self, child: &Child, below: Sum, guards: u64) {
        let edges = match child.within {
            Within::Same => below.edges,
            Within::None => [below.edges[FREE]; 2],
            Within::Name(_) => [below.edges[BOUND]; 2],
        };
        let guarded = below.bindings.saturating_mul(guards);
        add(&mut self.steps, below.steps);
        add(&mut self.edges[BOUND], edges[BOUND]);
        add(&mut self.edges[FREE], edges[FREE]);
        add(&mut self.bindings, below.bindings);
        add(&mut self.bindings, child.names());
        add(&mut self.narrowings, below.narrowings);
        add(&mut self.narrowings, guarded);
        let in_force = below.most_in_force.saturating_add(guards);
        self.most_in_force = self.most_in_force.max(in_force);
    }
}

fn add(sum: &mut u64, more: u64) {
    *sum = sum.saturating_add(more);
}

/// What each expression up to the entry comes to, as a condition and as a visit.
struct Summed<'a> {
    asked: Asked<'a>,
    costs: Vec<Cost>,
    sums: Vec<Sum>,
}

impl<'a> Summed<'a> {
    fn new(asked: Asked<'a>) -> Self {
        let entry = asked.image.entry;
        let costs = asked.costs(entry);
        let mut sums = Vec::with_capacity(costs.len());
        for e in 0..=entry {
            sums.push(sum(&asked, e, &costs, &sums));
        }
        Summed { asked, costs, sums }
    }

    /// The walk itself is a visit of the entry.
    fn whole(&self) -> Sum {
        self.sums[self.asked.image.entry as usize]
    }

    fn needs(&self) -> [u64; 4] {
        let whole = self.whole();
        let names = self.asked.image.names.len() as u64;
        let counts = [
            whole.edges[FREE],
            whole.narrowings,
            names,
            whole.most_in_force,
        ];
        std::array::from_fn(|place| counts[place].saturating_mul(WIDTHS[place]))
    }

    fn refusal(&self, budget: u32, buffers: &WalkBuffers) -> u32 {
        let rooms = [
            buffers.edges.len(),
            buffers.narrowings.len(),
            buffers.exprs.len(),
            buffers.working.len(),
        ];
        let mut needs = self.needs().into_iter().zip(rooms);
        if self.whole().steps > budget.into() {
            OVER_BUDGET
        } else if needs.any(|(need, room)| (room as u64) < need) {
            TOO_SHORT
        } else {
            ACCEPTED
        }
    }
}

fn sum(asked: &Asked, e: u32, costs: &[Cost], sums: &[Sum]) -> Sum {
    let analysed = asked.condition(e);
    let analysed = analysed.map_or(0, |condition| costs[condition as usize].steps);
    let mut sum = Sum {
        steps: analysed.saturating_add(1),
        edges: [asked.local_name(e).is_some().into(), 0],
        ..Sum::default()
    };
    for child in asked.children(e) {
        let records = |(condition, way): (u32, usize)| costs[condition as usize].records[way];
        let guards = child.guard.map_or(0, records);
        sum.add(&child, sums[child.expr as usize], guards);
    }
    sum
}

/// A visit that is still to be made.
struct Visit {
    child: Child,
    /// The binding around its owner, and how many narrowings are in force there.
    binding: Option<u32>,
    in_force: usize,
}

/// What the walk has written so far.
struct Written {
    edges: Vec<Edge>,
    narrowings: Vec<Narrowing>,
    exprs: Vec<u16>,
}

impl Written {
    fn numbers(&self, steps: u64) -> Walk {
        Walk {
            steps: steps as u32,
            edge_count: self.edges.len() as u32,
            narrowing_count: self.narrowings.len() as u32,
        }
    }

    fn bytes(&self) -> [Vec<u8>; 3] {
        [
            bytes(&self.edges),
            narrowing_bytes(&self.narrowings),
            table(self.exprs.iter().copied()),
        ]
    }

    fn bind(&mut self, name: u32, expr: u32, in_force: &[Record]) {
        self.exprs[name as usize] = expr as u16;
        let recorded = in_force.iter().map(|&record| narrowing(name, record));
        self.narrowings.extend(recorded);
    }
}

impl Summed<'_> {
    /// A walk that is not refused.
    fn walk(&self) -> Written {
        let mut written = Written {
            edges: Vec::new(),
            narrowings: Vec::new(),
            exprs: vec![NONE as u16; self.asked.image.names.len()],
        };
        let mut in_force: Vec<Record> = Vec::new();
        let mut left = vec![self.first()];
        while let Some(visit) = left.pop() {
            let expr = visit.child.expr;
            in_force.truncate(visit.in_force);
            if let Some((condition, way)) = visit.child.guard {
                in_force.extend(self.asked.records(&self.costs, condition, way));
            }
            let binding = match visit.child.within {
                Within::Same => visit.binding,
                Within::None => None,
                Within::Name(name) => {
                    written.bind(name, expr, &in_force);
                    Some(name)
                }
            };
            let ends = binding.zip(self.asked.local_name(expr));
            written.edges.extend(ends.map(|(from, to)| edge(from, to)));
            let below = self.asked.children(expr).into_iter().rev();
            left.extend(below.map(|child| Visit {
                child,
                binding,
                in_force: in_force.len(),
            }));
        }
        written
    }

    fn first(&self) -> Visit {
        Visit {
            child: Child {
                expr: self.asked.image.entry,
                within: Within::None,
                guard: None,
            },
            binding: None,
            in_force: 0,
        }
    }
}

#[cfg(test)]
mod tests;

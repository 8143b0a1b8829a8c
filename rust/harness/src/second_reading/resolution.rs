//! `name_resolution` a second time.
//!
//! Nothing is visited. Visits and scopes are summed from the smallest expression up. The last visit of an expression
//! lies within the last visit of one of its owners, so last visits are found from the entry down.

use super::{Image, Item, check};
use crate::generate::words::GLOBALS;
use crate::image::{NONE, kind, name_kind, role};
use crate::port::refusal::{OVER_BUDGET, TOO_SHORT};
use crate::tables::{self, BUILTIN, DEFINITION, WITH};

/// A scope by the expression that made it at its last visit; the root is none.
type Scope = Option<u32>;

/// When an expression is last visited, counted in steps, and in which scope.
#[derive(Clone, Copy)]
struct Visit {
    time: u64,
    scope: Scope,
}

/// An expression below another, and whether it stands within the scope that the other makes.
struct Child {
    expr: u32,
    enclosed: bool,
}

impl Child {
    fn within(item: Item) -> Self {
        let (expr, enclosed) = (item.expr, true);
        Child { expr, enclosed }
    }

    fn outside(item: Item) -> Self {
        let (expr, enclosed) = (item.expr, false);
        Child { expr, enclosed }
    }
}

/// The answer's number, with both buffers and the steps left as the call leaves them.
pub fn name_resolution(
    image: &[u8],
    budget: u32,
    table: &mut [u8],
    working: &mut [u8],
    steps: &mut u32,
) -> u32 {
    let refusal = check(image);
    if refusal != 0 {
        return refusal;
    }
    let image = Image::accepted(image);
    let counted = Counted::new(&image);
    let refusal = counted.refusal(&image, budget, table.len(), working.len());
    working.fill(0);
    *steps = 0;
    if refusal != 0 {
        table.fill(0);
        return refusal;
    }
    *steps = counted.steps(&image) as u32;
    let answer = counted.resolve(&image);
    table[..answer.len()].copy_from_slice(&answer);
    0
}

/// The steps of the run on an accepted image, counted up to `u64::MAX`.
pub fn resolution_steps(image: &[u8]) -> u64 {
    let image = Image::accepted(image);
    Counted::new(&image).steps(&image)
}

/// The working bytes that the run on an accepted image needs, counted up to `u64::MAX`.
pub fn resolution_need(image: &[u8]) -> u64 {
    let image = Image::accepted(image);
    Counted::new(&image).need(&image)
}

/// The steps of the run on an accepted image, and the scopes that it makes, the root included.
pub(super) fn resolution_counts(image: &[u8]) -> [u64; 2] {
    let image = Image::accepted(image);
    let counted = Counted::new(&image);
    [counted.steps(&image), counted.scopes(&image)]
}

/// For each expression what one visit of it costs, all that it leads to included.
struct Counted {
    steps: Vec<u64>,
    scopes: Vec<u64>,
}

impl Counted {
    fn new(image: &Image) -> Self {
        let (mut steps, mut scopes) = (Vec::new(), Vec::new());
        for e in 0..image.exprs.len() as u32 {
            let children = image.children(e);
            steps.push(sum(1, &steps, &children));
            scopes.push(sum(image.makes(e).into(), &scopes, &children));
        }
        Counted { steps, scopes }
    }

    fn steps(&self, image: &Image) -> u64 {
        self.steps[image.entry as usize]
    }

    /// Scopes made, the root included.
    fn scopes(&self, image: &Image) -> u64 {
        self.scopes[image.entry as usize].saturating_add(1)
    }

    fn need(&self, image: &Image) -> u64 {
        let exprs = image.exprs.len() as u64;
        let scopes = self.scopes(image).saturating_mul(8);
        scopes.saturating_add(4 * exprs)
    }

    fn refusal(&self, image: &Image, budget: u32, table: usize, working: usize) -> u32 {
        if self.steps(image) > budget.into() {
            OVER_BUDGET
        } else if table < 2 * image.exprs.len() || (working as u64) < self.need(image) {
            TOO_SHORT
        } else {
            0
        }
    }

    fn resolve(&self, image: &Image) -> Vec<u8> {
        let visits = self.last_visits(image);
        let entry = |e: u32| {
            let visit = visits[e as usize]?;
            image.resolution(e, visit.scope, &visits)
        };
        let exprs = 0..image.exprs.len() as u32;
        tables::table(exprs.map(|e| entry(e).unwrap_or(0)))
    }

    /// The last visit of each expression that is visited, in a run whose steps can be counted.
    fn last_visits(&self, image: &Image) -> Vec<Option<Visit>> {
        let mut visits: Vec<Option<Visit>> = vec![None; image.exprs.len()];
        let (time, scope) = (0, None);
        visits[image.entry as usize] = Some(Visit { time, scope });
        for e in (0..=image.entry).rev() {
            let Some(Visit { time, scope }) = visits[e as usize] else {
                continue;
            };
            let inside = if image.makes(e) { Some(e) } else { scope };
            let mut time = time + 1;
            for child in image.children(e) {
                let scope = if child.enclosed { inside } else { scope };
                let kept = &mut visits[child.expr as usize];
                if kept.is_none_or(|kept| kept.time < time) {
                    *kept = Some(Visit { time, scope });
                }
                time += self.steps[child.expr as usize];
            }
        }
        visits
    }
}

fn sum(own: u64, counted: &[u64], children: &[Child]) -> u64 {
    let below = children.iter().map(|child| counted[child.expr as usize]);
    below.fold(own, u64::saturating_add)
}

impl Image<'_> {
    fn name_kind(&self, name: u32) -> u32 {
        u32::from_be_bytes(self.names[name as usize]) >> 15 & 0x7
    }

    fn name_text(&self, name: u32) -> &[u8] {
        self.text(u32::from_be_bytes(self.names[name as usize]) >> 18)
    }

    /// What a visit of the expression leads to, in order.
    fn children(&self, e: u32) -> Vec<Child> {
        let items = || self.items(e).filter(|item| item.expr != NONE);
        match self.expr(e).kind {
            kind::LAMBDA => items().map(Child::within).collect(),
            kind::LET_IN | kind::ATTR_SET => {
                let inherited = items().filter(|item| item.role == role::INHERIT);
                let others = items()
                    .filter(|item| ![role::INHERIT, role::INHERIT_FROM].contains(&item.role));
                let others = others.map(Child::within);
                inherited.map(Child::outside).chain(others).collect()
            }
            kind::WITH => {
                let env = items().take(1).map(Child::outside);
                env.chain(items().skip(1).map(Child::within)).collect()
            }
            kind::ASSERT => items().rev().map(Child::outside).collect(),
            _ => items().map(Child::outside).collect(),
        }
    }

    /// The names that the expression defines, the last first.
    fn defined(&self, e: u32) -> impl Iterator<Item = u32> {
        let defines = |item: &Item| match item.role {
            role::PARAMETER => true,
            role::PATTERN_FIELD => item.name != NONE,
            role::STATIC | role::INHERIT | role::INHERIT_FROM => {
                self.name_kind(item.name) != name_kind::PLAIN_ATTRSET
            }
            _ => false,
        };
        let items = self.items(e).rev();
        items.filter(defines).map(|item| item.name)
    }

    fn is_with(&self, e: u32) -> bool {
        self.expr(e).kind == kind::WITH
    }

    /// Whether a visit of the expression makes a scope.
    fn makes(&self, e: u32) -> bool {
        self.is_with(e) || self.defined(e).next().is_some()
    }

    /// The entry of a Reference that is last visited in this scope.
    fn resolution(&self, e: u32, scope: Scope, visits: &[Option<Visit>]) -> Option<u16> {
        let expr = self.expr(e);
        if expr.kind != kind::REFERENCE {
            return None;
        }
        let text = self.text(expr.text);
        let around = |&maker: &u32| visits[maker as usize].and_then(|visit| visit.scope);
        let makers = || std::iter::successors(scope, around);
        let definition = makers()
            .flat_map(|maker| self.defined(maker))
            .find(|&name| self.name_text(name) == text);
        let builtin = || GLOBALS.iter().position(|name| name.as_bytes() == text);
        let with = || makers().find(|&maker| self.is_with(maker));
        definition
            .map(|name| tables::resolution(DEFINITION, name))
            .or_else(|| Some(tables::resolution(BUILTIN, builtin()? as u32)))
            .or_else(|| Some(tables::resolution(WITH, with()?)))
    }
}

#[cfg(test)]
mod tests;

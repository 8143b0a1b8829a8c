//! Selections from references spelt `builtins`, and what calls make of them, in a tree with tables.

use crate::builtin_set;
use crate::generate::words::{CONDITIONALS, PREDICATES};
use crate::image::{Expr, Tree, detail, kind, role};
use crate::tables::{BUILTIN, DEFINITION, Given, WITH, entries};

pub const SETS: [&str; 5] = ["builtin", "name", "another place", "With", "nothing"];
pub const PATHS: [&str; 3] = ["one key", "several keys", "set of the set"];
pub const USES: [&str; 4] = ["predicate", "hasAttr", "alias", "conditional function"];

/// Places in these lists.
pub const MEANT: usize = 0;
pub const ONE_KEY: usize = 0;
pub const SEVERAL_KEYS: usize = 1;
pub const SET_OF_SET: usize = 2;
pub const PREDICATE: usize = 0;
pub const HAS_ATTR: usize = 1;
pub const ALIAS: usize = 2;
pub const CONDITIONAL: usize = 3;

/// More names than an alias is traced through.
const MOST_NAMES: usize = 4;

/// A selection without default from a reference spelt so, or from a selection from it.
pub struct Selected<'a> {
    /// The reference, and the place in `SETS` of what it resolves to.
    pub from: u32,
    pub set: usize,
    pub path: usize,
    pub key: &'a [u8],
}

/// A tree with its tables.
pub struct Reader<'a> {
    pub tree: &'a Tree,
    resolutions: Vec<u16>,
    bindings: Vec<u16>,
}

impl<'a> Reader<'a> {
    pub fn new(tree: &'a Tree, given: &Given) -> Self {
        Reader {
            tree,
            resolutions: entries(&given.resolutions).collect(),
            bindings: entries(&given.bindings).collect(),
        }
    }

    fn expr(&self, e: u32) -> &'a Expr {
        &self.tree.exprs[e as usize]
    }

    fn part(&self, e: u32, place: usize) -> u32 {
        self.expr(e).items[place].expr
    }

    fn is_of(&self, e: u32, kind: u32) -> bool {
        self.expr(e).kind == kind
    }

    fn text(&self, e: u32) -> &'a [u8] {
        &self.tree.texts[self.expr(e).text as usize]
    }

    fn is_set(&self, e: u32) -> bool {
        self.is_of(e, kind::REFERENCE) && self.text(e) == builtin_set::TEXT.as_bytes()
    }

    /// The place in `SETS` of what a reference resolves to.
    fn resolved(&self, e: u32) -> usize {
        let entry = self.resolutions[e as usize];
        match entry >> 14 {
            _ if entry == builtin_set::entry() => MEANT,
            DEFINITION => 1,
            BUILTIN => 2,
            WITH => 3,
            _ => 4,
        }
    }

    /// The name that a reference resolves to.
    pub fn name(&self, e: u32) -> Option<usize> {
        let entry = self.resolutions[e as usize];
        (entry >> 14 == DEFINITION).then_some(usize::from(entry & 0x3fff))
    }

    /// Whether the index has an expression.
    pub fn is_bound(&self, e: u32) -> bool {
        self.bindings.iter().any(|&bound| u32::from(bound) == e)
    }

    pub fn selected(&self, e: u32) -> Option<Selected<'a>> {
        let items = &self.expr(e).items;
        if !self.is_of(e, kind::SELECT) || items.iter().any(|item| item.role == role::DEFAULT) {
            return None;
        }
        let (from, last) = (items[0].expr, items.last()?.expr);
        let is_string =
            (self.expr(last).kind, self.expr(last).detail) == (kind::LITERAL, detail::STRING);
        let (set, path) = match items.len() {
            2 if self.is_set(from) => (from, ONE_KEY),
            _ if self.is_set(from) => (from, SEVERAL_KEYS),
            _ if self.is_of(from, kind::SELECT) => (self.part(from, 0), SET_OF_SET),
            _ => return None,
        };
        (is_string && items.len() > 1 && self.is_set(set)).then(|| Selected {
            from: set,
            set: self.resolved(set),
            path,
            key: self.text(last),
        })
    }

    /// What a condition calls with a name, and the use of it.
    pub fn condition(&self, e: u32) -> Option<(Selected<'a>, usize)> {
        if !self.is_of(e, kind::APPLY) {
            return None;
        }
        self.name(self.part(e, 1))?;
        let fun = self.part(e, 0);
        let (called, words, used) = match self.is_of(fun, kind::APPLY) {
            true => (self.part(fun, 0), &["hasAttr"][..], HAS_ATTR),
            false => (fun, &PREDICATES[..], PREDICATE),
        };
        let (selected, used) = match self.selected(called) {
            Some(selected) => (selected, used),
            None => (self.alias(called)?, ALIAS),
        };
        is_among(words, selected.key).then_some((selected, used))
    }

    /// The selection of one key that a name leads to, all of it spelt alike.
    fn alias(&self, called: u32) -> Option<Selected<'a>> {
        let mut e = called;
        for _ in 0..MOST_NAMES - 1 {
            let is_alike = self.is_of(e, kind::REFERENCE) && self.text(e) == self.text(called);
            let name = self.name(e).filter(|_| is_alike)?;
            e = self.bindings[name].into();
            if e as usize >= self.tree.exprs.len() {
                return None;
            }
            if let Some(selected) = self.selected(e) {
                let is_alike = selected.path == ONE_KEY && selected.key == self.text(called);
                return Some(selected).filter(|_| is_alike);
            }
        }
        None
    }

    /// What a walk analyses and calls, in the whole tree below the entry.
    pub fn walk(&self) -> Vec<(Selected<'a>, usize)> {
        let mut is_analysed = vec![false; self.tree.exprs.len()];
        let mut met = Vec::new();
        for e in (0..=self.tree.entry).rev() {
            let conditional = self.conditional(e);
            met.extend(conditional.map(|selected| (selected, CONDITIONAL)));
            let parts = self.analysed(e, is_analysed[e as usize]);
            parts.for_each(|part| is_analysed[part as usize] = true);
            if is_analysed[e as usize] {
                met.extend(self.condition(e));
            }
        }
        met
    }

    /// What a conditional call selects, whatever its condition.
    fn conditional(&self, e: u32) -> Option<Selected<'a>> {
        let fun = self.is_of(e, kind::APPLY).then(|| self.part(e, 0))?;
        let called = self.is_of(fun, kind::APPLY).then(|| self.part(fun, 0))?;
        let selected = self.selected(called)?;
        is_among(&CONDITIONALS, selected.key).then_some(selected)
    }

    /// The parts that are analysed since the expression is visited, or since it is analysed itself.
    fn analysed(&self, e: u32, is_analysed: bool) -> impl Iterator<Item = u32> {
        let expr = self.expr(e);
        let count = match (expr.kind, expr.detail) {
            (kind::IF_THEN_ELSE | kind::ASSERT, _) => 1,
            (kind::UNARY_OP, detail::INVERT) if is_analysed => 1,
            (kind::BIN_OP, detail::AND | detail::OR | detail::IMPLICATION) if is_analysed => 2,
            _ => 0,
        };
        expr.items.iter().take(count).map(|item| item.expr)
    }
}

pub fn is_among(words: &[&str], text: &[u8]) -> bool {
    words.iter().any(|word| word.as_bytes() == text)
}

#[cfg(test)]
mod tests;

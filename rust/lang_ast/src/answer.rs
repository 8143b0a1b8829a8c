//! Answers with their types, read from the bytes that the calls write.

mod dependencies;
mod narrow;

use std::borrow::Cow;
use std::iter::FusedIterator;

use crate::format::NONE;
use crate::id::{ExprId, ImageId, NameId, TreeId};
pub use crate::text::Comparison;
pub use dependencies::{ByBinding, Edge, NameDependencies, RecordedNarrowing};
pub use narrow::{NarrowBinding, NarrowBindings, NarrowInfo, NarrowPredicate, PrimitiveTy};

/// The builtins that need no `builtins.` before them, in the order of their places.
pub const GLOBAL_BUILTIN_NAMES: [&str; 22] = [
    "abort",
    "baseNameOf",
    "builtins",
    "derivation",
    "dirOf",
    "false",
    "fetchGit",
    "fetchMercurial",
    "fetchTarball",
    "fetchTree",
    "fetchurl",
    "fromTOML",
    "import",
    "isNull",
    "map",
    "null",
    "placeholder",
    "removeAttrs",
    "scopedImport",
    "throw",
    "toString",
    "true",
];

/// The records of N bytes in an answer; `as_chunks` leaves none behind, since answers are whole records.
fn records<const N: usize>(bytes: &[u8]) -> impl ExactSizeIterator<Item = [u8; N]> + Clone {
    bytes.as_chunks().0.iter().copied()
}

/// An iterator that leaves out some of what it goes through, and yet knows how many are left: they were counted first.
#[derive(Clone, Debug)]
struct Counted<I> {
    entries: I,
    left: usize,
}

impl<I: Iterator + Clone> Counted<I> {
    fn of(entries: I) -> Self {
        let left = entries.clone().count();
        Counted { entries, left }
    }
}

impl<I: Iterator> Iterator for Counted<I> {
    type Item = I::Item;

    fn next(&mut self) -> Option<I::Item> {
        let next = self.entries.next()?;
        self.left = self.left.saturating_sub(1);
        Some(next)
    }

    fn size_hint(&self) -> (usize, Option<usize>) {
        (self.left, Some(self.left))
    }
}

impl<I: Iterator> ExactSizeIterator for Counted<I> {}

impl<I: FusedIterator> FusedIterator for Counted<I> {}

/// The entry of 2 bytes at a place.
fn entry(table: &[u8], place: usize) -> Option<u16> {
    let bytes = table.as_chunks().0.get(place)?;
    Some(u16::from_be_bytes(*bytes))
}

/// The number at a place, from 0: tables have at most 16,383 entries.
fn numbered<T>(entries: impl Iterator<Item = T> + Clone) -> impl Iterator<Item = (u16, T)> + Clone {
    (0..).zip(entries)
}

/// The expression of a name in a table that has 2 bytes a name.
fn expr_of(tree: TreeId, table: &[u8], name: NameId) -> Option<ExprId> {
    let value = entry(table, name.place_in(tree)?)?;
    (value != NONE).then(|| ExprId::new(tree, value))
}

/// The names that have an expression in such a table, with it.
fn named_exprs(tree: TreeId, table: &[u8]) -> impl ExactSizeIterator<Item = (NameId, ExprId)> {
    let entries = numbered(records(table).map(u16::from_be_bytes));
    let named = Counted::of(entries.filter(|&(_, value)| value != NONE));
    named.map(move |(name, expr)| (NameId::new(tree, name), ExprId::new(tree, expr)))
}

/// The expression that a binding gives each name of one image, which it carries: no call on another image takes it.
#[derive(Clone, Debug, PartialEq, Eq)]
pub struct ModuleIndices<'b> {
    pub(crate) tree: TreeId,
    pub(crate) image: ImageId,
    pub(crate) table: Cow<'b, [u8]>,
}

impl ModuleIndices<'_> {
    /// The expression that a binding gives a name; of several the last. A parameter, a plain inherit and a name of
    /// another tree have none.
    #[must_use]
    pub fn binding_expr(&self, name: NameId) -> Option<ExprId> {
        expr_of(self.tree, &self.table, name)
    }

    /// The names that have an expression, with it, by their numbers.
    #[must_use]
    pub fn iter(&self) -> impl ExactSizeIterator<Item = (NameId, ExprId)> {
        named_exprs(self.tree, &self.table)
    }

    /// The table as it is given to the plain calls.
    #[must_use]
    pub fn as_bytes(&self) -> &[u8] {
        &self.table
    }
}

/// What a Reference refers to.
#[derive(Clone, Copy, Debug, PartialEq, Eq, Hash)]
pub enum ResolveResult {
    /// A name that an enclosing expression defines.
    Definition(NameId),
    /// A global builtin, one of [`GLOBAL_BUILTIN_NAMES`].
    Builtin(&'static str),
    /// Perhaps an attribute of the env of this With, the innermost.
    With(ExprId),
}

/// What each Reference of one image refers to, which it carries: no call on another image takes it.
#[derive(Clone, Debug, PartialEq, Eq)]
pub struct NameResolution<'b> {
    pub(crate) tree: TreeId,
    pub(crate) image: ImageId,
    pub(crate) table: Cow<'b, [u8]>,
    pub(crate) steps: u32,
}

impl NameResolution<'_> {
    /// What an expression refers to. What is no Reference, is not reached from the entry, is not resolved or is of
    /// another tree refers to nothing.
    #[must_use]
    pub fn get(&self, expr: ExprId) -> Option<ResolveResult> {
        self.result(entry(&self.table, expr.place_in(self.tree)?)?)
    }

    /// The References that refer to something, with that, by their numbers.
    pub fn iter(&self) -> impl ExactSizeIterator<Item = (ExprId, ResolveResult)> {
        let entries = numbered(records(&self.table).map(u16::from_be_bytes));
        let results = entries.filter_map(|(e, value)| Some((e, self.result(value)?)));
        Counted::of(results).map(|(e, result)| (ExprId::new(self.tree, e), result))
    }

    /// The References that refer to a name, by their numbers.
    pub fn refs_to(&self, name: NameId) -> impl Iterator<Item = ExprId> {
        let definition = ResolveResult::Definition(name);
        let refs = self.iter().filter(move |&(_, result)| result == definition);
        refs.map(|(expr, _)| expr)
    }

    /// Tag 2, value 14.
    fn result(&self, entry: u16) -> Option<ResolveResult> {
        let value = entry & 0x3fff;
        match entry >> 14 {
            1 => Some(ResolveResult::Definition(NameId::new(self.tree, value))),
            2 => {
                let name = GLOBAL_BUILTIN_NAMES.get(usize::from(value));
                name.map(|name| ResolveResult::Builtin(name))
            }
            3 => Some(ResolveResult::With(ExprId::new(self.tree, value))),
            _ => None,
        }
    }

    /// The steps that the run took.
    #[must_use]
    pub fn steps(&self) -> u32 {
        self.steps
    }

    /// The table as it is given to the plain calls.
    #[must_use]
    pub fn as_bytes(&self) -> &[u8] {
        &self.table
    }
}

#[cfg(test)]
mod tests {
    use super::*;

    #[test]
    fn each_tag_is_read() {
        let tree = TreeId::fresh();
        let table = [0, 0, 0x40, 3, 0x80, 21, 0xc0, 1, 0x80, 22];
        let resolution = NameResolution {
            tree,
            image: ImageId::fresh(),
            table: Cow::Borrowed(&table),
            steps: 5,
        };
        let expr = |number| ExprId::new(tree, number);
        let results = [
            None,
            Some(ResolveResult::Definition(NameId::new(tree, 3))),
            Some(ResolveResult::Builtin("true")),
            Some(ResolveResult::With(expr(1))),
            None,
            None,
        ];
        assert_eq!([0, 1, 2, 3, 4, 5].map(|e| resolution.get(expr(e))), results);
        let listed: Vec<_> = resolution.iter().map(|(e, r)| (e.number(), r)).collect();
        let expected: Vec<_> = numbered(results.into_iter())
            .filter_map(|(e, r)| Some((e, r?)))
            .collect();
        assert_eq!(listed, expected);
        assert_eq!(resolution.iter().len(), expected.len());
        let refs: Vec<_> = resolution.refs_to(NameId::new(tree, 3)).collect();
        assert_eq!(refs, [expr(1)]);
        let other = ExprId::new(TreeId::fresh(), 1);
        assert_eq!(resolution.get(other), None);
    }

    #[test]
    fn names_without_an_expression_are_left_out() {
        let tree = TreeId::fresh();
        let indices = ModuleIndices {
            tree,
            image: ImageId::fresh(),
            table: Cow::Borrowed(&[0x3f, 0xff, 0, 7]),
        };
        let [first, second] = [0, 1].map(|number| NameId::new(tree, number));
        let expr = ExprId::new(tree, 7);
        assert_eq!(indices.binding_expr(first), None);
        assert_eq!(indices.binding_expr(second), Some(expr));
        assert_eq!(indices.binding_expr(NameId::new(tree, 2)), None);
        assert_eq!(indices.iter().collect::<Vec<_>>(), [(second, expr)]);
        let mut iter = indices.iter();
        assert_eq!(
            (iter.len(), iter.next().is_some(), iter.len()),
            (1, true, 0)
        );
    }
}

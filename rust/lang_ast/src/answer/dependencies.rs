//! What a walk tells.

use std::borrow::Cow;
use std::collections::TryReserveError;
use std::fmt;

use super::narrow::{InWords, Quoted};
use super::{Counted, NarrowBinding, expr_of, named_exprs, records};
use crate::id::{ExprId, NameId, TreeId};
use crate::{Error, Image};

/// The binding of one name refers to another name.
#[derive(Clone, Copy, Debug, PartialEq, Eq, Hash)]
pub struct Edge {
    /// The name whose binding it is.
    pub from: NameId,
    /// The name that is referred to.
    pub to: NameId,
}

/// What was in force where a name is bound.
#[derive(Clone, Copy, Debug, PartialEq, Eq, Hash)]
#[non_exhaustive]
pub struct RecordedNarrowing {
    /// The name that is bound.
    pub binding: NameId,
    /// What was in force.
    pub narrowing: NarrowBinding,
}

/// Which names need which, and what the guards around each binding tell.
#[derive(Clone, Debug, PartialEq, Eq)]
pub struct NameDependencies<'b> {
    pub(crate) tree: TreeId,
    pub(crate) edges: Cow<'b, [u8]>,
    pub(crate) narrow_scopes: Cow<'b, [u8]>,
    pub(crate) name_to_expr: Cow<'b, [u8]>,
    pub(crate) steps: u32,
}

impl Edge {
    /// It in words, with the names of its image: `"y" needs "x"`.
    #[must_use]
    pub fn display(self, image: &Image<'_>) -> impl fmt::Display {
        InWords { of: self, image }
    }

    /// From 14, to 14, zero 4.
    fn of_record(tree: TreeId, record: [u8; 4]) -> Self {
        let word = u32::from_be_bytes(record);
        let name = |number: u32| NameId::new(tree, (number & 0x3fff) as u16);
        Edge {
            from: name(word >> 18),
            to: name(word >> 4),
        }
    }
}

impl fmt::Display for InWords<'_, '_, Edge> {
    fn fmt(&self, to: &mut fmt::Formatter<'_>) -> fmt::Result {
        let name = |name| Quoted::name(self.image, name);
        write!(to, "{} needs {}", name(self.of.from), name(self.of.to))
    }
}

impl RecordedNarrowing {
    /// It in words, with the texts of its image: `at "y": "x" is null`.
    #[must_use]
    pub fn display(self, image: &Image<'_>) -> impl fmt::Display {
        InWords { of: self, image }
    }

    /// Binding 14, zero 18, record 32.
    fn of_record(tree: TreeId, record: [u8; 8]) -> Option<Self> {
        let [b0, b1, _, _, record @ ..] = record;
        let binding = NameId::new(tree, u16::from_be_bytes([b0, b1]) >> 2);
        let narrowing = NarrowBinding::of_record(tree, record)?;
        Some(RecordedNarrowing { binding, narrowing })
    }
}

impl fmt::Display for InWords<'_, '_, RecordedNarrowing> {
    fn fmt(&self, to: &mut fmt::Formatter<'_>) -> fmt::Result {
        let RecordedNarrowing { binding, narrowing } = self.of;
        let narrowing = narrowing.display(self.image);
        write!(to, "at {}: {narrowing}", Quoted::name(self.image, binding))
    }
}

impl NameDependencies<'_> {
    /// The edges in the order in which references were met.
    #[must_use]
    pub fn edges(&self) -> impl ExactSizeIterator<Item = Edge> {
        let tree = self.tree;
        records(&self.edges).map(move |record| Edge::of_record(tree, record))
    }

    /// What was in force at bindings, in the order in which they were met.
    #[must_use]
    pub fn narrow_scopes(&self) -> impl ExactSizeIterator<Item = RecordedNarrowing> {
        let tree = self.tree;
        let recorded = move |record| RecordedNarrowing::of_record(tree, record);
        Counted::of(records(&self.narrow_scopes).filter_map(recorded))
    }

    /// The same by the name that is bound, for many questions: edges and narrowings are sorted once.
    ///
    /// # Errors
    ///
    /// [`Error::NoMemory`]: 4 bytes for each edge and each narrowing.
    pub fn by_binding(&self) -> Result<ByBinding<'_>, Error> {
        Ok(ByBinding {
            tree: self.tree,
            edges: Sorted::of(self.edges.as_chunks().0)?,
            narrow_scopes: Sorted::of(self.narrow_scopes.as_chunks().0)?,
        })
    }

    /// The expression that a name was bound to at its last visit.
    #[must_use]
    pub fn expr_of(&self, name: NameId) -> Option<ExprId> {
        expr_of(self.tree, &self.name_to_expr, name)
    }

    /// The names that were met, with their expressions, by their numbers.
    #[must_use]
    pub fn name_to_expr(&self) -> impl ExactSizeIterator<Item = (NameId, ExprId)> {
        named_exprs(self.tree, &self.name_to_expr)
    }

    /// The steps that the run took.
    #[must_use]
    pub fn steps(&self) -> u32 {
        self.steps
    }
}

/// The name that a record starts with, 14 bits.
fn binding_number<const N: usize>(record: &[u8; N]) -> Option<u16> {
    Some(u16::from_be_bytes(*record.first_chunk()?) >> 2)
}

/// Records with their places in the order of the names that they start with, and of one name in their own.
#[derive(Clone, Debug)]
struct Sorted<'w, const N: usize> {
    records: &'w [[u8; N]],
    places: Vec<u32>,
}

impl<'w, const N: usize> Sorted<'w, N> {
    fn of(records: &'w [[u8; N]]) -> Result<Self, TryReserveError> {
        let mut places = Vec::new();
        places.try_reserve_exact(records.len())?;
        // The calls count records by 32 bits.
        places.extend((0..).take(records.len()));
        let number = |place: u32| binding_number(records.get(place as usize)?);
        places.sort_unstable_by_key(|&place| (number(place), place));
        Ok(Sorted { records, places })
    }

    /// The records of a name.
    fn records(&self, name: Option<u16>) -> impl ExactSizeIterator<Item = [u8; N]> + Clone {
        let record = |&place: &u32| self.records.get(place as usize);
        let number = move |place: &u32| record(place).and_then(binding_number);
        let start = self.places.partition_point(|place| number(place) < name);
        let end = self.places.partition_point(|place| number(place) <= name);
        let places = self.places.get(start..end).unwrap_or_default();
        places
            .iter()
            .map(move |place| record(place).copied().unwrap_or([0; N]))
    }
}

/// The edges and narrowings of a walk by the name that is bound.
#[derive(Clone, Debug)]
pub struct ByBinding<'w> {
    tree: TreeId,
    edges: Sorted<'w, 4>,
    narrow_scopes: Sorted<'w, 8>,
}

impl ByBinding<'_> {
    fn number(&self, binding: NameId) -> Option<u16> {
        binding.place_in(self.tree).map(|_| binding.number)
    }

    /// The names that the binding of a name refers to, in the order in which they were met; repeats stay.
    #[must_use]
    pub fn edges(&self, binding: NameId) -> impl ExactSizeIterator<Item = NameId> {
        let (tree, records) = (self.tree, self.edges.records(self.number(binding)));
        records.map(move |record| Edge::of_record(tree, record).to)
    }

    /// What was in force where a name is bound, in the order in which it was met; at several visits, of each in turn.
    #[must_use]
    pub fn narrow_scope(&self, binding: NameId) -> impl ExactSizeIterator<Item = NarrowBinding> {
        let (tree, records) = (self.tree, self.narrow_scopes.records(self.number(binding)));
        let recorded = move |record| RecordedNarrowing::of_record(tree, record);
        Counted::of(records.filter_map(recorded)).map(|recorded| recorded.narrowing)
    }
}

#[cfg(test)]
mod tests {
    use super::*;
    use crate::answer::{NarrowPredicate, PrimitiveTy};

    #[test]
    fn the_printed_walk_is_read() {
        let tree = TreeId::fresh();
        let walk = NameDependencies {
            tree,
            edges: Cow::Borrowed(&[0, 4, 0, 0, 0xff, 0xfb, 0xff, 0xf0]),
            narrow_scopes: Cow::Borrowed(&[0, 4, 0, 0, 0, 0, 0, 0]),
            name_to_expr: Cow::Borrowed(&[0x3f, 0xff, 0, 3]),
            steps: 10,
        };
        let name = |number| NameId::new(tree, number);
        let edge = |from, to| Edge {
            from: name(from),
            to: name(to),
        };
        // The second has each field at its widest.
        let edges: Vec<Edge> = walk.edges().collect();
        assert_eq!(edges, [edge(1, 0), edge(16382, 16383)]);
        let predicate = NarrowPredicate::IsType(PrimitiveTy::Null);
        let narrowing = NarrowBinding {
            name: name(0),
            predicate,
        };
        let recorded: Vec<_> = walk.narrow_scopes().collect();
        let binding = name(1);
        assert_eq!(recorded, [RecordedNarrowing { binding, narrowing }]);
        let expr = ExprId::new(tree, 3);
        assert_eq!(walk.expr_of(binding), Some(expr));
        assert_eq!(walk.name_to_expr().collect::<Vec<_>>(), [(binding, expr)]);
    }

    #[test]
    fn by_binding_is_a_walk_sorted() {
        let tree = TreeId::fresh();
        let edge = |from: u32, to: u32| (from << 18 | to << 4).to_be_bytes();
        let edges = [
            edge(2, 0),
            edge(1, 2),
            edge(2, 1),
            edge(16382, 3),
            edge(2, 0),
        ];
        // At a binding a name is null.
        let record = |binding: u32, name: u32| {
            let [front, record] = [binding << 18, name << 18].map(u32::to_be_bytes);
            [front, record].concat()
        };
        let narrowings = [record(1, 5), record(0, 6), record(1, 4)].concat();
        let walk = NameDependencies {
            tree,
            edges: edges.concat().into(),
            narrow_scopes: narrowings.into(),
            name_to_expr: Cow::Borrowed(&[]),
            steps: 0,
        };
        let by_binding = walk.by_binding().expect("memory for some numbers");
        let name = |number| NameId::new(tree, number);
        let edges = |number| by_binding.edges(name(number)).map(NameId::number);
        assert_eq!(edges(2).collect::<Vec<_>>(), [0, 1, 0]);
        assert_eq!((edges(2).len(), edges(0).len(), edges(3).len()), (3, 0, 0));
        assert_eq!(edges(16382).collect::<Vec<_>>(), [3]);
        let scope = |number| {
            by_binding
                .narrow_scope(name(number))
                .map(|told| told.name.number())
        };
        assert_eq!(scope(1).collect::<Vec<_>>(), [5, 4]);
        assert_eq!((scope(0).len(), scope(2).len()), (1, 0));
        let other = NameId::new(TreeId::fresh(), 2);
        assert_eq!(by_binding.edges(other).len(), 0);
    }
}

//! A checked image, and the calls on it: with buffers of their own or lent ones, never with more memory than is allowed,
//! and never deep into the caller's stack.

use std::borrow::Cow;
use std::collections::TryReserveError;

use crate::answer::{ModuleIndices, NameDependencies, NameResolution, NarrowBindings, NarrowInfo};
use crate::condition::{Condition, conditions};
use crate::format::Sections;
use crate::id::{ExprId, ImageId, TreeId};
pub use crate::need::{ResolutionNeed, WalkNeed};
pub use crate::raw::WalkBuffers;
use crate::raw::{self, Analysis, ResolutionCounts, Tables, Walk, WalkCounts};
use crate::stack;
use crate::tree::TreeError;
use crate::{Error, Refusal};

/// The bytes that a call's buffers may have unless [`Image::with_memory_limit`] says otherwise: 64 MiB. A tree without
/// sharing needs at most 14 bytes an expression for a resolution, some 224 KiB, and for a walk what its guards tell,
/// copied for each binding within them; a service that answers on some threads at once has so much for each.
pub const DEFAULT_MEMORY_LIMIT: usize = 64 << 20;

/// The records of each list that a condition is first tried with: 1 KiB of the caller's stack. Few conditions tell more.
const FEW_RECORDS: usize = 256;

/// How many times longer the lists are at each further try, which is a whole run: without sharing there are at most two.
const GROWTH: usize = 8;

/// The bytes of a record of what a condition tells.
const RECORD: usize = 4;

/// An image that is accepted. Ids of the tree that it was made from are its ids too. [`view`](crate::view) has how the
/// tree is read back.
///
/// Each call comes twice: one that makes its buffers, and one, with `_in` behind its name, that is lent them. One that
/// makes them asks first what the run needs, makes no more, and makes none where that is more than the image's memory
/// limit: [`Error::OverMemoryLimit`]. A call on a deep image runs on a thread of its own ([`stack`]).
///
/// The tables that the image's calls answer carry the image: given to a call on another image, of the same tree or not,
/// they are [`Error::ForeignTable`]. A clone is the same image.
///
/// ```
/// use lang_ast::tree::Expr;
/// use lang_ast::{Error, Tree};
///
/// # fn main() -> Result<(), Error> {
/// let mut tree = Tree::new();
/// let inner = tree.push(Expr::reference("null"))?;
/// let outer = tree.push(Expr::List(&[inner]))?;
/// let (part, whole) = (tree.encode(inner)?, tree.encode(outer)?);
/// let (resolution, indices) = (part.name_resolution(9)?, part.module_indices()?);
/// let mixed = whole.name_dependencies(&resolution, &indices, 9);
/// assert!(matches!(mixed, Err(Error::ForeignTable)));
/// # Ok(())
/// # }
/// ```
#[derive(Clone, Debug)]
pub struct Image<'a> {
    id: ImageId,
    pub(crate) tree: TreeId,
    pub(crate) bytes: Cow<'a, [u8]>,
    levels: usize,
    conditions: Box<[Condition]>,
    memory_limit: usize,
}

fn zeros(length: usize) -> Result<Vec<u8>, TryReserveError> {
    let mut bytes = Vec::new();
    bytes.try_reserve_exact(length)?;
    bytes.resize(length, 0);
    Ok(bytes)
}

/// A copy of an answer.
fn copied(bytes: &[u8]) -> Result<Vec<u8>, TryReserveError> {
    let mut copy = Vec::new();
    copy.try_reserve_exact(bytes.len())?;
    copy.extend_from_slice(bytes);
    Ok(copy)
}

/// Does what takes so many bytes of the stack.
fn run<T: Send>(stack: usize, call: impl FnOnce() -> Result<T, Error> + Send) -> Result<T, Error> {
    stack::run(stack, call).map_err(Error::NoThread)?
}

/// A list that is as long as its records, and has no more memory than them.
fn shortened(mut list: Vec<u8>, length: usize) -> Vec<u8> {
    list.truncate(length);
    list.shrink_to_fit();
    list
}

/// The lengths of the list for where a condition is true and of that for where it is false.
fn list_lengths(analysis: &Analysis) -> [usize; 2] {
    [analysis.then_count, analysis.else_count].map(|count| RECORD * count as usize)
}

/// The front of a lent buffer. A call that was answered has had so many bytes.
fn front(buffer: &[u8], length: usize) -> &[u8] {
    buffer.get(..length).unwrap_or(buffer)
}

impl<'a> Image<'a> {
    /// The image that these bytes are, or why they are none.
    ///
    /// ```
    /// use lang_ast::{Error, Image, Refusal};
    ///
    /// let refused = Image::check(b"no image at all".as_slice());
    /// assert!(matches!(refused, Err(Error::Refused(Refusal::Length))));
    /// ```
    ///
    /// # Errors
    ///
    /// [`Error::Refused`] with one of the refusals 1 to 6, 10 and 11, [`Error::Version`] where the linked archive is another's, and
    /// [`Error::NoMemory`]: 8 bytes for each expression are kept.
    pub fn check(bytes: impl Into<Cow<'a, [u8]>>) -> Result<Self, Error> {
        Image::checked(bytes.into(), TreeId::fresh())
    }

    pub(crate) fn checked(bytes: Cow<'a, [u8]>, tree: TreeId) -> Result<Self, Error> {
        Error::of_archive()?;
        let mut levels = 0;
        raw::levels(&bytes, &mut levels)?;
        // Refusal 1 has been ruled out.
        let conditions = conditions(&Sections::of(&bytes).ok_or(Refusal::Length)?)?;
        Ok(Image {
            id: ImageId::fresh(),
            tree,
            bytes,
            levels: levels as usize,
            conditions,
            memory_limit: DEFAULT_MEMORY_LIMIT,
        })
    }

    /// The same image, whose calls make buffers of so many bytes at most, all that a call makes taken together.
    ///
    /// ```
    /// use lang_ast::tree::Expr;
    /// use lang_ast::{Error, Tree};
    ///
    /// # fn main() -> Result<(), Error> {
    /// let mut tree = Tree::new();
    /// let entry = tree.push(Expr::reference("null"))?;
    /// let image = tree.encode(entry)?.with_memory_limit(10);
    /// let refused = image.name_resolution(1);
    /// assert!(matches!(refused, Err(Error::OverMemoryLimit { needed: 14, allowed: 10 })));
    /// # Ok(())
    /// # }
    /// ```
    #[must_use]
    pub fn with_memory_limit(mut self, bytes: usize) -> Self {
        self.memory_limit = bytes;
        self
    }

    /// The bytes that a call's buffers may have: [`DEFAULT_MEMORY_LIMIT`], or what was said instead.
    #[must_use]
    pub fn memory_limit(&self) -> usize {
        self.memory_limit
    }

    /// Whether buffers of so many bytes may be made.
    fn allows(&self, needed: usize) -> Result<(), Error> {
        let allowed = self.memory_limit;
        if needed > allowed {
            return Err(Error::OverMemoryLimit { needed, allowed });
        }
        Ok(())
    }

    /// The image itself, to be kept or sent.
    #[must_use]
    pub fn as_bytes(&self) -> &[u8] {
        &self.bytes
    }

    /// The same image, with its bytes copied where they were borrowed: its ids and tables stay its own.
    #[must_use]
    pub fn into_owned(self) -> Image<'static> {
        Image {
            id: self.id,
            tree: self.tree,
            bytes: self.bytes.into_owned().into(),
            levels: self.levels,
            conditions: self.conditions,
            memory_limit: self.memory_limit,
        }
    }

    /// How deep expressions stand within each other, from the entry down: 1 for a single one.
    #[must_use]
    pub fn levels(&self) -> usize {
        self.levels
    }

    /// How deep `!`, `&&`, `||` and `->` stand within each other, anywhere: 1 where there is none.
    #[must_use]
    pub fn condition_levels(&self) -> usize {
        let levels = self.conditions.iter().map(|condition| condition.levels);
        levels.max().unwrap_or(0).into()
    }

    /// The length of the table that [`Image::module_indices_in`] is lent.
    #[must_use]
    pub fn indices_bytes(&self) -> usize {
        2 * self.name_count()
    }

    /// The length of the table that [`Image::name_resolution_in`] is lent.
    #[must_use]
    pub fn resolution_bytes(&self) -> usize {
        2 * self.expr_count()
    }

    /// What a resolution needs, by one pass whose time goes by the image alone. It goes down no level, and so never runs on
    /// a thread of its own.
    ///
    /// # Errors
    ///
    /// Refusal 8 where the steps exceed the budget.
    pub fn resolution_need(&self, budget: u32) -> Result<ResolutionNeed, Error> {
        let mut counts = ResolutionCounts::default();
        raw::resolution_need(&self.bytes, budget, &mut counts)?;
        Ok(ResolutionNeed::of(counts, self.expr_count()))
    }

    /// A length that suffices for each list that [`Image::analyze_condition_in`] is lent: room for a record of each node.
    /// Most conditions tell less, so a shorter list may do.
    ///
    /// # Errors
    ///
    /// [`TreeError::UnknownId`] where the condition is no expression of this image.
    pub fn list_bytes(&self, condition: ExprId) -> Result<usize, Error> {
        let nodes = self.condition(condition)?.nodes as usize;
        Ok(RECORD.saturating_mul(nodes))
    }

    /// What a walk needs. To be known it takes a walk without buffers, and so the time of one.
    ///
    /// # Errors
    ///
    /// [`Error::ForeignTable`] where a table is of another image; refusal 8 where the steps exceed the budget;
    /// [`Error::NoThread`].
    pub fn dependencies_need(
        &self,
        resolution: &NameResolution<'_>,
        indices: &ModuleIndices<'_>,
        budget: u32,
    ) -> Result<WalkNeed, Error> {
        let tables = self.tables(resolution, indices)?;
        self.count_walk(tables, budget)
    }

    /// What a walk needs. A budget for which the library counts the steps first is only asked about where a smaller one
    /// does not do: that count takes time, and room on the stack.
    fn count_walk(&self, tables: Tables<'_>, budget: u32) -> Result<WalkNeed, Error> {
        let most = stack::STEPS_AN_EXPR.saturating_mul(self.expr_count());
        let first = budget.min(u32::try_from(most).unwrap_or(u32::MAX));
        match self.count_walk_within(tables, first) {
            Err(Error::Refused(Refusal::OverBudget)) if first < budget => {
                self.count_walk_within(tables, budget)
            }
            counted => counted,
        }
    }

    fn count_walk_within(&self, tables: Tables<'_>, budget: u32) -> Result<WalkNeed, Error> {
        let mut counts = WalkCounts::default();
        run(self.walk_stack(budget), || {
            raw::dependencies_need(&self.bytes, tables, budget, &mut counts)?;
            Ok(())
        })?;
        Ok(WalkNeed::of(counts, self.name_count()))
    }

    /// The stack of a walk and of what is counted before it.
    fn walk_stack(&self, budget: u32) -> usize {
        stack::name_dependencies(self.levels, self.expr_count(), budget)
    }

    /// For each name the expression that a binding gives it.
    ///
    /// # Errors
    ///
    /// [`Error::OverMemoryLimit`] and [`Error::NoMemory`].
    pub fn module_indices(&self) -> Result<ModuleIndices<'static>, Error> {
        self.allows(self.indices_bytes())?;
        let mut table = zeros(self.indices_bytes())?;
        raw::module_indices(&self.bytes, &mut table)?;
        Ok(ModuleIndices {
            tree: self.tree,
            image: self.id,
            table: table.into(),
        })
    }

    /// The same, with the table lent.
    ///
    /// # Errors
    ///
    /// Refusal 9 where the table is too short.
    pub fn module_indices_in<'b>(&self, table: &'b mut [u8]) -> Result<ModuleIndices<'b>, Error> {
        raw::module_indices(&self.bytes, table)?;
        Ok(ModuleIndices {
            tree: self.tree,
            image: self.id,
            table: front(table, self.indices_bytes()).into(),
        })
    }

    /// What each Reference refers to, if the run takes no more steps than the budget. Without sharing it takes one for
    /// each expression; the working buffer has at most 8 bytes for each step. What it needs is counted first, in less
    /// than the run's time.
    ///
    /// # Errors
    ///
    /// Refusal 8 where the steps exceed the budget; [`Error::OverMemoryLimit`], [`Error::NoMemory`] and
    /// [`Error::NoThread`].
    pub fn name_resolution(&self, budget: u32) -> Result<NameResolution<'static>, Error> {
        let need = self.resolution_need(budget)?;
        self.allows(need.bytes())?;
        let (mut table, mut steps) = (zeros(need.table_bytes)?, 0);
        let mut working = zeros(need.working_bytes)?;
        self.resolve(budget, &mut table, &mut working, &mut steps)?;
        Ok(NameResolution {
            tree: self.tree,
            image: self.id,
            table: table.into(),
            steps,
        })
    }

    /// The same, with the table and the working buffer lent.
    ///
    /// # Errors
    ///
    /// Refusals 8 and 9; [`Error::NoThread`].
    pub fn name_resolution_in<'b>(
        &self,
        budget: u32,
        table: &'b mut [u8],
        working: &mut [u8],
    ) -> Result<NameResolution<'b>, Error> {
        let mut steps = 0;
        self.resolve(budget, table, working, &mut steps)?;
        Ok(NameResolution {
            tree: self.tree,
            image: self.id,
            table: front(table, self.resolution_bytes()).into(),
            steps,
        })
    }

    fn resolve(
        &self,
        budget: u32,
        table: &mut [u8],
        working: &mut [u8],
        steps: &mut u32,
    ) -> Result<(), Error> {
        let texts = self.sections().text_count();
        let stack = stack::name_resolution(self.levels, self.expr_count(), texts);
        run(stack, || {
            raw::name_resolution(&self.bytes, budget, table, working, steps)?;
            Ok(())
        })
    }

    /// What a condition tells of names where it is true and where it is false, if the run takes no more steps than the
    /// budget. Any expression can be asked as a condition.
    ///
    /// What is selected from a Reference spelt `builtins` counts where that resolves to the global builtin: of a set that
    /// the tree defines under this name, or of a `builtins` that nothing resolves, nothing is known.
    ///
    /// `a -> b` is `!a || b`: where it is false, a is true and b is false, so what a tells where it is true comes first, then
    /// what b tells where it is false. Where it is true nothing is known. `!(a || b)` tells the same as `!a && !b`,
    /// `!(a && b)` as `!a || !b`, `!!a` as a, and `a -> b` as `!a || b`, each node of the condition being a step.
    ///
    /// How much it tells is known when it has been told: it is run with short lists, and where those do not hold it
    /// again with longer ones, up to a record of each node or to half of what is allowed for each list.
    ///
    /// # Errors
    ///
    /// [`Error::ForeignTable`] where a table is of another image, [`TreeError::UnknownId`] where the condition is no
    /// expression of this one; refusal 8 where the steps exceed the budget; [`Error::OverMemoryLimit`] with the bytes
    /// that are certain to do, [`Error::NoMemory`] and [`Error::NoThread`].
    pub fn analyze_condition(
        &self,
        resolution: &NameResolution<'_>,
        indices: &ModuleIndices<'_>,
        condition: ExprId,
        budget: u32,
    ) -> Result<NarrowInfo<'static>, Error> {
        let mut few = [[0; RECORD * FEW_RECORDS]; 2];
        let lists = few.each_mut().map(|list| &mut list[..]);
        match self.analyze(resolution, indices, condition, budget, lists) {
            Err(Error::Refused(Refusal::BufferTooShort)) => {
                self.analyze_longer(resolution, indices, condition, budget)
            }
            answered => self.kept(&answered?, few.each_ref()),
        }
    }

    /// The answer of a first try.
    fn kept(
        &self,
        analysis: &Analysis,
        lists: [&[u8; RECORD * FEW_RECORDS]; 2],
    ) -> Result<NarrowInfo<'static>, Error> {
        let [then_bytes, else_bytes] = list_lengths(analysis);
        self.allows(then_bytes + else_bytes)?;
        let then_list = copied(front(lists[0], then_bytes))?;
        let else_list = copied(front(lists[1], else_bytes))?;
        Ok(self.narrow_info(analysis.steps, then_list.into(), else_list.into()))
    }

    /// The further tries, for a condition that tells more.
    fn analyze_longer(
        &self,
        resolution: &NameResolution<'_>,
        indices: &ModuleIndices<'_>,
        condition: ExprId,
        budget: u32,
    ) -> Result<NarrowInfo<'static>, Error> {
        let nodes = self.condition(condition)?.nodes as usize;
        let most = nodes.min(self.memory_limit / (2 * RECORD));
        let mut records = FEW_RECORDS;
        while records < most {
            records = most.min(GROWTH.saturating_mul(records));
            let mut lists = [zeros(RECORD * records)?, zeros(RECORD * records)?];
            let lent = lists.each_mut().map(Vec::as_mut_slice);
            let answered = self.analyze(resolution, indices, condition, budget, lent);
            if matches!(answered, Err(Error::Refused(Refusal::BufferTooShort))) {
                continue;
            }
            let (analysis, [then_list, else_list]) = (answered?, lists);
            let [then_bytes, else_bytes] = list_lengths(&analysis);
            let then_list = shortened(then_list, then_bytes).into();
            let else_list = shortened(else_list, else_bytes).into();
            return Ok(self.narrow_info(analysis.steps, then_list, else_list));
        }
        self.allows(nodes.saturating_mul(2 * RECORD))?;
        // Lists with a record of each node were too short: the library says so, and it is not what was counted.
        Err(Refusal::BufferTooShort.into())
    }

    /// The same, with both lists lent.
    ///
    /// # Errors
    ///
    /// As those of [`Image::analyze_condition`], and refusal 9 where a list is too short.
    pub fn analyze_condition_in<'b>(
        &self,
        resolution: &NameResolution<'_>,
        indices: &ModuleIndices<'_>,
        condition: ExprId,
        budget: u32,
        then_list: &'b mut [u8],
        else_list: &'b mut [u8],
    ) -> Result<NarrowInfo<'b>, Error> {
        let lists = [&mut *then_list, &mut *else_list];
        let analysis = self.analyze(resolution, indices, condition, budget, lists)?;
        let [then_bytes, else_bytes] = list_lengths(&analysis);
        let then_list = front(then_list, then_bytes);
        let else_list = front(else_list, else_bytes);
        Ok(self.narrow_info(analysis.steps, then_list.into(), else_list.into()))
    }

    fn narrow_info<'b>(
        &self,
        steps: u32,
        then_list: Cow<'b, [u8]>,
        else_list: Cow<'b, [u8]>,
    ) -> NarrowInfo<'b> {
        let tree = self.tree;
        let branch = |records| NarrowBindings { tree, records };
        NarrowInfo {
            then_branch: branch(then_list),
            else_branch: branch(else_list),
            steps,
        }
    }

    /// What an expression comes to as a condition.
    fn condition(&self, condition: ExprId) -> Result<Condition, TreeError> {
        let place = condition.place_in(self.tree);
        let measured = place.and_then(|place| self.conditions.get(place));
        measured.copied().ok_or(TreeError::UnknownId)
    }

    fn analyze(
        &self,
        resolution: &NameResolution<'_>,
        indices: &ModuleIndices<'_>,
        condition: ExprId,
        budget: u32,
        lists: [&mut [u8]; 2],
    ) -> Result<Analysis, Error> {
        let tables = self.tables(resolution, indices)?;
        let Condition { levels, nodes } = self.condition(condition)?;
        let number = condition.number.into();
        // The nodes are known, so more steps need not be allowed: for a large budget the library would count them.
        let budget = budget.min(nodes);
        let stack = stack::analyze_condition(levels.into(), self.expr_count(), budget);
        let ([then_list, else_list], mut analysis) = (lists, Analysis::default());
        run(stack, || {
            raw::analyze_condition(
                &self.bytes,
                tables,
                number,
                budget,
                then_list,
                else_list,
                &mut analysis,
            )?;
            Ok(analysis)
        })
    }

    /// The tables, where they are of this image.
    fn tables<'t>(
        &self,
        resolution: &'t NameResolution<'_>,
        indices: &'t ModuleIndices<'_>,
    ) -> Result<Tables<'t>, Error> {
        let own = [resolution.image, indices.image] == [self.id; 2];
        own.then(|| Tables {
            resolutions: resolution.as_bytes(),
            bindings: indices.as_bytes(),
        })
        .ok_or(Error::ForeignTable)
    }

    /// Which names need which, and what the guards around each binding tell, if the run takes no more steps than the
    /// budget. A call such as `builtins.optional c e` guards its last argument by what `builtins` resolves to, as a
    /// condition tells by it. What the walk needs is found by one without buffers, so the call takes twice the time of one
    /// with lent buffers ([`Image::name_dependencies_in`]).
    ///
    /// # Errors
    ///
    /// [`Error::ForeignTable`] where a table is of another image; refusal 8 where the steps exceed the budget;
    /// [`Error::OverMemoryLimit`], [`Error::NoMemory`] and [`Error::NoThread`].
    pub fn name_dependencies(
        &self,
        resolution: &NameResolution<'_>,
        indices: &ModuleIndices<'_>,
        budget: u32,
    ) -> Result<NameDependencies<'static>, Error> {
        let tables = self.tables(resolution, indices)?;
        let need = self.count_walk(tables, budget)?;
        self.allows(need.bytes())?;
        let (mut edges, mut exprs) = (zeros(need.edges_bytes)?, zeros(need.exprs_bytes)?);
        let mut narrowings = zeros(need.narrowings_bytes)?;
        let buffers = WalkBuffers {
            edges: &mut edges,
            narrowings: &mut narrowings,
            exprs: &mut exprs,
            working: &mut zeros(need.working_bytes)?,
        };
        let mut walk = Walk::default();
        run(self.walk_stack(need.steps), || {
            raw::name_dependencies(&self.bytes, tables, need.steps, buffers, &mut walk)?;
            Ok(())
        })?;
        Ok(NameDependencies {
            tree: self.tree,
            edges: edges.into(),
            narrow_scopes: narrowings.into(),
            name_to_expr: exprs.into(),
            steps: walk.steps,
        })
    }

    /// The same, with all buffers lent.
    ///
    /// # Errors
    ///
    /// As those of [`Image::name_dependencies`], and refusal 9 where a buffer is too short.
    pub fn name_dependencies_in<'b>(
        &self,
        resolution: &NameResolution<'_>,
        indices: &ModuleIndices<'_>,
        budget: u32,
        lent: WalkBuffers<'b>,
    ) -> Result<NameDependencies<'b>, Error> {
        let WalkBuffers {
            edges,
            narrowings,
            exprs,
            working,
        } = lent;
        let buffers = WalkBuffers {
            edges: &mut *edges,
            narrowings: &mut *narrowings,
            exprs: &mut *exprs,
            working,
        };
        let tables = self.tables(resolution, indices)?;
        let mut walk = Walk::default();
        run(self.walk_stack(budget), || {
            raw::name_dependencies(&self.bytes, tables, budget, buffers, &mut walk)?;
            Ok(())
        })?;
        Ok(NameDependencies {
            tree: self.tree,
            edges: front(edges, 4 * walk.edge_count as usize).into(),
            narrow_scopes: front(narrowings, 8 * walk.narrowing_count as usize).into(),
            name_to_expr: front(exprs, self.indices_bytes()).into(),
            steps: walk.steps,
        })
    }
}

#[cfg(test)]
mod tests {
    use super::{copied, zeros};
    use crate::Error;

    #[test]
    fn memory_that_cannot_be_had_is_an_error() {
        let error = zeros(usize::MAX).map_err(Error::from);
        assert!(matches!(error, Err(Error::NoMemory(_))));
        assert_eq!(zeros(3).ok(), Some(vec![0; 3]));
        assert_eq!(copied(&[1, 2]).ok(), Some(vec![1, 2]));
    }
}

//! What a call needs, known before it is made: records, and the bytes of its buffers.

use crate::raw::{ResolutionCounts, WalkCounts};

/// What a resolution needs.
#[derive(Clone, Copy, Debug, PartialEq, Eq)]
#[non_exhaustive]
pub struct ResolutionNeed {
    /// The steps that it takes.
    pub steps: u32,
    /// The scopes that it makes, the root included.
    pub scopes: usize,
    /// The bytes of the table: 2 for each expression.
    pub table_bytes: usize,
    /// The bytes of the working buffer: 4 for each expression and 8 for each scope.
    pub working_bytes: usize,
}

impl ResolutionNeed {
    pub(crate) fn of(counts: ResolutionCounts, expr_count: usize) -> Self {
        let ResolutionCounts { steps, scopes } = counts;
        let scopes_bytes = scopes.saturating_mul(8);
        ResolutionNeed {
            steps,
            scopes,
            table_bytes: 2 * expr_count,
            working_bytes: scopes_bytes.saturating_add(4 * expr_count),
        }
    }

    /// The bytes of both buffers.
    #[must_use]
    pub fn bytes(&self) -> usize {
        self.table_bytes.saturating_add(self.working_bytes)
    }
}

/// What a walk needs.
#[derive(Clone, Copy, Debug, PartialEq, Eq)]
#[non_exhaustive]
pub struct WalkNeed {
    /// The steps that it takes.
    pub steps: u32,
    /// The edges that it records.
    pub edges: usize,
    /// The narrowings that it records.
    pub narrowings: usize,
    /// The narrowings in force at the point that has most.
    pub most_in_force: usize,
    /// The bytes of the edges: 4 for each.
    pub edges_bytes: usize,
    /// The bytes of the recorded narrowings: 8 for each.
    pub narrowings_bytes: usize,
    /// The bytes of the names' expressions: 2 for each name.
    pub exprs_bytes: usize,
    /// The bytes of the working buffer: 4 for each narrowing in force at the point that has most.
    pub working_bytes: usize,
}

impl WalkNeed {
    pub(crate) fn of(counts: WalkCounts, name_count: usize) -> Self {
        WalkNeed {
            steps: counts.steps,
            edges: counts.edges,
            narrowings: counts.narrowings,
            most_in_force: counts.most,
            edges_bytes: counts.edges.saturating_mul(4),
            narrowings_bytes: counts.narrowings.saturating_mul(8),
            exprs_bytes: 2 * name_count,
            working_bytes: counts.most.saturating_mul(4),
        }
    }

    /// The bytes of all four buffers.
    #[must_use]
    pub fn bytes(&self) -> usize {
        let answer = self.edges_bytes.saturating_add(self.narrowings_bytes);
        let fixed = answer.saturating_add(self.exprs_bytes);
        fixed.saturating_add(self.working_bytes)
    }
}

#[cfg(test)]
mod tests {
    use super::{ResolutionNeed, WalkNeed};
    use crate::raw::{ResolutionCounts, WalkCounts};

    #[test]
    fn records_become_bytes() {
        let counts = ResolutionCounts {
            steps: 9,
            scopes: 3,
        };
        let need = ResolutionNeed::of(counts, 9);
        assert_eq!((need.table_bytes, need.working_bytes), (18, 60));
        assert_eq!(need.bytes(), 78);
        let counts = WalkCounts {
            steps: 9,
            edges: 5,
            narrowings: 3,
            most: 2,
        };
        let need = WalkNeed::of(counts, 7);
        let bytes = [need.edges_bytes, need.narrowings_bytes];
        assert_eq!(bytes, [20, 24]);
        assert_eq!((need.exprs_bytes, need.working_bytes), (14, 8));
        assert_eq!(need.bytes(), 66);
    }

    #[test]
    fn more_than_there_can_be_stays_the_most() {
        let counts = ResolutionCounts {
            steps: 9,
            scopes: usize::MAX / 4,
        };
        assert_eq!(ResolutionNeed::of(counts, 9).bytes(), usize::MAX);
        let counts = WalkCounts {
            steps: 9,
            edges: 1,
            narrowings: usize::MAX / 4,
            most: 1,
        };
        assert_eq!(WalkNeed::of(counts, 7).bytes(), usize::MAX);
    }
}

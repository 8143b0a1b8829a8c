//! What each expression comes to as a condition. No call tells that before it runs, and any expression can be asked,
//! whether the entry leads to it or not: so it is read off an accepted image in one pass, children before their owners.

use std::collections::TryReserveError;

use crate::format::{ExprWord, ItemWord, Kind, Sections};
use crate::tree::{BinOpKind, UnaryOpKind};

/// What the analysis of an expression as a condition comes to, in 8 bytes.
#[derive(Clone, Copy, Debug, PartialEq, Eq)]
pub(crate) struct Condition {
    /// How deep `!`, `&&`, `||` and `->` stand within each other: at most the 16,383 expressions.
    pub(crate) levels: u16,
    /// The nodes, which are its steps: no list has more records. Counted up to the largest budget.
    pub(crate) nodes: u32,
}

/// What has no parts, or none that are added yet.
const LEAF: Condition = Condition {
    levels: 1,
    nodes: 1,
};

/// For each expression what it comes to as a condition.
pub(crate) fn conditions(sections: &Sections<'_>) -> Result<Box<[Condition]>, TryReserveError> {
    let mut conditions = Vec::new();
    conditions.try_reserve_exact(sections.expr_count())?;
    let mut all_items = sections.items();
    for expr in sections.exprs() {
        let items = all_items.by_ref().take(expr.item_count());
        conditions.push(condition(expr, items, &conditions));
    }
    Ok(conditions.into())
}

fn condition(
    expr: ExprWord,
    items: impl Iterator<Item = ItemWord>,
    below: &[Condition],
) -> Condition {
    let goes_down = goes_down(expr);
    let mut condition = LEAF;
    // The items of a leaf are taken too, so that those of the next expression come next.
    for part in items.filter_map(|item| below.get(item.expr())) {
        if goes_down {
            condition.levels = condition.levels.max(part.levels.saturating_add(1));
            condition.nodes = condition.nodes.saturating_add(part.nodes);
        }
    }
    condition
}

/// Whether the analysis goes down to the parts: at `!`, `&&`, `||` and `->`.
fn goes_down(expr: ExprWord) -> bool {
    let of_two = [BinOpKind::And, BinOpKind::Or, BinOpKind::Implication].map(|op| op as u8);
    expr.is(Kind::UnaryOp) && expr.detail() == UnaryOpKind::Invert as u8
        || expr.is(Kind::BinOp) && of_two.contains(&expr.detail())
}

#[cfg(test)]
mod tests {
    use super::{Condition, conditions};
    use crate::format::Sections;
    use crate::tree::{BinOpKind, Expr, ExprId, Tree, TreeError, UnaryOpKind};

    /// The last expressions' levels and nodes.
    fn last<const N: usize>(
        make: impl FnOnce(&mut Tree, ExprId) -> Result<(), TreeError>,
    ) -> Option<[(u16, u32); N]> {
        let mut tree = Tree::new();
        let leaf = tree.push(Expr::reference("x")).ok()?;
        make(&mut tree, leaf).ok()?;
        // The entry is the leaf, which leads to none of them.
        let image = tree.encode(leaf).ok()?;
        let all = conditions(&Sections::of(image.as_bytes())?).ok()?;
        let pair = |it: &Condition| (it.levels, it.nodes);
        all.last_chunk::<N>().map(|last| last.each_ref().map(pair))
    }

    #[test]
    fn the_parts_of_connectives_are_nodes_and_of_nothing_else() {
        let told = last(|tree, x| {
            let op = BinOpKind::And;
            let both = tree.push(Expr::BinOp { lhs: x, rhs: x, op })?;
            let (op, expr) = (UnaryOpKind::Invert, both);
            let not = tree.push(Expr::UnaryOp { op, expr })?;
            let (lhs, rhs, op) = (not, both, BinOpKind::Or);
            tree.push(Expr::BinOp { lhs, rhs, op })?;
            for op in [BinOpKind::Implication, BinOpKind::Less] {
                tree.push(Expr::BinOp { lhs, rhs, op })?;
            }
            let (op, expr) = (UnaryOpKind::Negate, not);
            tree.push(Expr::UnaryOp { op, expr })?;
            tree.push(Expr::List(&[not]))?;
            Ok(())
        });
        let expected = [(2, 3), (3, 4), (4, 8), (4, 8), (1, 1), (1, 1), (1, 1)];
        assert_eq!(told, Some(expected));
    }

    #[test]
    fn nodes_are_counted_up_to_the_largest_budget() {
        let told = last(|tree, x| {
            let mut top = x;
            for _ in 0..33 {
                let (lhs, rhs, op) = (top, top, BinOpKind::And);
                top = tree.push(Expr::BinOp { lhs, rhs, op })?;
            }
            Ok(())
        });
        // 31 doublings are the largest budget, and then there are no more.
        let expected = [
            (31, (1 << 31) - 1),
            (32, u32::MAX),
            (33, u32::MAX),
            (34, u32::MAX),
        ];
        assert_eq!(told, Some(expected));
    }
}

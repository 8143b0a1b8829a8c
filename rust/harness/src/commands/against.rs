//! What the answers over an image and tables are held against: the original where it takes the texts and means the same by
//! `builtins`, by an arrow and by a number literal, else the second reading, for number literals of their records alone.

use super::findings::{
    ANOTHER_SET, ARROWS, BYTES_WITH_TABLES, Family, NUMBERS_WITH_TABLES, SHAPES_WITH_TABLES,
};
use crate::arrows;
use crate::builtin_set;
use crate::generate::grow::Texts;
use crate::image::Tree;
use crate::number_literals;
use crate::tables::Given;

#[derive(Clone, Copy, Debug, PartialEq, Eq)]
pub enum Against {
    Original,
    /// The original, and for records from number literals the second reading.
    ForNumbers,
    /// The second reading, since a text may be no UTF-8.
    ForTexts,
    /// The second reading, since a `builtins` is not the builtin set.
    ForSet,
    /// The second reading, since an arrow is analysed.
    ForArrows,
}

// Of several reasons the first of these counts: texts, `builtins`, arrows, number literals. The first two are of the whole
// image; then what analyses an arrow is the second reading's whole, and of the rest the records of numbers.
impl Against {
    /// For conditions that meet no arrow.
    pub fn of(tree: &Tree, texts: Texts, given: &Given) -> Self {
        match texts {
            Texts::Bytes => Against::ForTexts,
            Texts::Utf8 if !builtin_set::is_meant(tree, given) => Against::ForSet,
            Texts::Utf8 if number_literals::are_compared(tree) => Against::ForNumbers,
            Texts::Utf8 => Against::Original,
        }
    }

    pub fn of_walk(tree: &Tree, texts: Texts, given: &Given) -> Self {
        match Self::of(tree, texts, given) {
            against if against.is_original() && arrows::in_walk(tree) => Against::ForArrows,
            against => against,
        }
    }

    /// Each with those of the conditions that it is for.
    pub fn of_conditions(self, tree: &Tree, conditions: &[u32]) -> Vec<(Self, Vec<u32>)> {
        let meets = arrows::by_condition(tree);
        let is_left_out = |condition: &u32| self.is_original() && meets[*condition as usize];
        let (left_out, others): (Vec<u32>, _) = conditions.iter().partition(|it| is_left_out(it));
        let mut parts = vec![(self, others), (Against::ForArrows, left_out)];
        parts.retain(|(_, conditions)| !conditions.is_empty());
        parts
    }

    /// Whether the original's answer counts, but perhaps for some of its records.
    pub fn is_original(self) -> bool {
        matches!(self, Against::Original | Against::ForNumbers)
    }

    /// How its images are counted, by whose tables they are.
    pub fn family(self, tables: usize) -> Family {
        match self {
            Against::Original => SHAPES_WITH_TABLES[tables],
            Against::ForNumbers => NUMBERS_WITH_TABLES[tables],
            Against::ForTexts => BYTES_WITH_TABLES[tables],
            Against::ForSet => ANOTHER_SET[tables],
            Against::ForArrows => ARROWS[tables],
        }
    }
}

#[cfg(test)]
mod tests {
    use super::*;
    use crate::notation::{Node, assert_, eq, float, implies, lambda, string, tree, var};
    use crate::port::own_tables;

    #[test]
    fn the_original_is_asked_where_it_takes_the_texts_and_means_the_same() {
        let against = |name: &str, body: Node, texts| {
            let tree = tree(&lambda(name, body));
            Against::of(&tree, texts, &own_tables(&tree.encode()))
        };
        let of_builtins = |name, texts| against(name, var("builtins"), texts);
        assert_eq!(of_builtins("x", Texts::Utf8), Against::Original);
        assert_eq!(of_builtins("x", Texts::Bytes), Against::ForTexts);
        assert_eq!(of_builtins("builtins", Texts::Utf8), Against::ForSet);
        assert_eq!(of_builtins("builtins", Texts::Bytes), Against::ForTexts);
        let compared =
            |literal, name: &str| against(name, eq(var("builtins"), literal), Texts::Utf8);
        assert_eq!(compared(float(), "x"), Against::ForNumbers);
        assert_eq!(compared(float(), "builtins"), Against::ForSet);
        assert_eq!(compared(string("a"), "x"), Against::Original);
    }

    #[test]
    fn an_arrow_counts_behind_texts_and_builtins_and_before_numbers() {
        let against = |name: &str, texts| {
            let test = eq(var("builtins"), float());
            let body = assert_(implies(test.clone(), test), var("x"));
            let tree = tree(&lambda(name, body));
            let given = own_tables(&tree.encode());
            let of_walk = Against::of_walk(&tree, texts, &given);
            let all: Vec<u32> = (0..tree.exprs.len() as u32).collect();
            let of = Against::of(&tree, texts, &given);
            (of_walk, of.of_conditions(&tree, &all))
        };
        let (numbers, arrows) = (Against::ForNumbers, Against::ForArrows);
        // Both sides are one expression, 2, and the arrow is 3.
        let parts = vec![(numbers, vec![0, 1, 2, 4, 5, 6]), (arrows, vec![3])];
        assert_eq!(against("x", Texts::Utf8), (arrows, parts));
        let whole = |against: Against| (against, vec![(against, (0..7).collect())]);
        assert_eq!(against("x", Texts::Bytes), whole(Against::ForTexts));
        assert_eq!(against("builtins", Texts::Utf8), whole(Against::ForSet));
        let unvisited = tree(&lambda("x", implies(var("x"), var("y"))));
        let given = own_tables(&unvisited.encode());
        let of_walk = Against::of_walk(&unvisited, Texts::Utf8, &given);
        assert_eq!(of_walk, Against::Original);
    }
}

//! Programs full of arrows: as the condition of each guard, within !, &&, || and each other, between sides that tell something
//! where they are true, where they are false, in both ways or in none, and sides that stand elsewhere too.

use std::rc::Rc;

use super::words::CONDITIONALS;
use crate::image::{Tree, detail};
use crate::notation::*;
use crate::random::Random;

/// So many of a hundred sides are one that stands elsewhere, and so many of a hundred arrows have one side twice.
const SHARED: usize = 15;
const TWICE: usize = 10;
/// How deep conditions are made of others.
const LEVELS: usize = 3;

pub fn tree(random: &mut Random) -> Tree {
    let mut writer = Writer {
        random,
        earlier: Vec::new(),
    };
    let count = writer.random.between(1, 4);
    let parts: Vec<Node> = (0..count).map(|_| writer.part()).collect();
    crate::notation::tree(&lambda("x", lambda("y", list(&parts))))
}

/// Two conditions that may share parts.
pub fn two_conditions(random: &mut Random) -> [Node; 2] {
    let mut writer = Writer {
        random,
        earlier: Vec::new(),
    };
    [(); 2].map(|()| writer.condition(LEVELS))
}

struct Writer<'a> {
    random: &'a mut Random,
    /// Conditions already written, to be shared at times.
    earlier: Vec<Node>,
}

impl Writer<'_> {
    fn name(&mut self) -> Node {
        var(self.random.text(&["x", "y"]))
    }

    /// A binding that records what is in force.
    fn bound(&mut self) -> Node {
        let_(&[("bound", self.name())], int())
    }

    /// A guard around bindings, or two conditions that tell the same.
    fn part(&mut self) -> Node {
        match self.random.below(8) {
            0..=2 => if_(self.condition(LEVELS), self.bound(), self.bound()),
            3..=4 => assert_(self.condition(LEVELS), self.bound()),
            5..=6 => self.call(),
            _ => {
                let [a, b] = [(); 2].map(|()| self.condition(1));
                let laws = laws(&a, &b);
                let law = self.random.pick(&laws);
                list(&[Rc::clone(&law.one), Rc::clone(&law.other)])
            }
        }
    }

    /// A conditional call, or one of what is none.
    fn call(&mut self) -> Node {
        let word = match self.random.below(8) {
            0 => "mkUnless",
            _ => self.random.text(&CONDITIONALS),
        };
        let called = match self.random.below(3) {
            0 => var(word),
            1 => select(var("lib"), &[word]),
            _ => select_by(
                var("lib"),
                &[string(word)],
                self.random.chance(20).then(int),
            ),
        };
        apply2(called, self.condition(LEVELS), self.bound())
    }

    /// Most often an arrow, or made of some.
    fn condition(&mut self, levels: usize) -> Node {
        if levels == 0 {
            return self.side();
        }
        let below = levels - 1;
        match self.random.below(12) {
            0..=5 => self.arrow(below),
            6..=7 => not(self.condition(below)),
            8 => and(self.condition(below), self.condition(below)),
            9 => or(self.condition(below), self.condition(below)),
            _ => self.side(),
        }
    }

    fn arrow(&mut self, below: usize) -> Node {
        let left = self.condition(below);
        let right = match self.random.chance(TWICE) {
            true => Rc::clone(&left),
            false => self.condition(below),
        };
        let arrow = implies(left, right);
        self.earlier.push(Rc::clone(&arrow));
        arrow
    }

    fn side(&mut self) -> Node {
        if !self.earlier.is_empty() && self.random.chance(SHARED) {
            return Rc::clone(self.random.pick(&self.earlier));
        }
        let side = self.test();
        self.earlier.push(Rc::clone(&side));
        side
    }

    /// Both ways, where it is true, where it is false, or nothing.
    fn test(&mut self) -> Node {
        let name = self.name();
        match self.random.below(12) {
            0 => eq(name, null()),
            1 => has_attr(name, &["f"]),
            2 => apply(select(var("builtins"), &["isString"]), name),
            3 => ne(null(), name),
            4 => eq(name, string("a")),
            5 => apply(select(var("lib"), &["isList"]), name),
            6 => ne(name, path()),
            7 => ne(int(), name),
            8 => bin_op(detail::LESS, name, int()),
            9 => eq(name, var("x")),
            10 => apply(var("f"), name),
            _ => name,
        }
    }
}

/// Two conditions over the same parts that have the same lists, and how many steps more the other takes.
pub struct Law {
    pub name: &'static str,
    pub one: Node,
    pub other: Node,
    pub more: u64,
}

/// The rewritings of document 02, order 7, and that of a negated arrow, which follows.
pub fn laws(a: &Node, b: &Node) -> [Law; 5] {
    let (a, b) = (|| Rc::clone(a), || Rc::clone(b));
    let law = |name, one, other, more| Law {
        name,
        one,
        other,
        more,
    };
    [
        law("!(a || b)", not(or(a(), b())), and(not(a()), not(b())), 1),
        law("!(a && b)", not(and(a(), b())), or(not(a()), not(b())), 1),
        law("!!a", a(), not(not(a())), 2),
        law("a -> b", implies(a(), b()), or(not(a()), b()), 1),
        law("!(a -> b)", not(implies(a(), b())), and(a(), not(b())), 0),
    ]
}

#[cfg(test)]
mod tests {
    use std::collections::BTreeMap;

    use super::*;
    use crate::arrows::{self, PLACES};
    use crate::port::own_tables;
    use crate::second_reading::{check, condition_counts, dependency_steps};

    /// Each place with each way in which the sides tell: then of the left, else of the left, then and else of the right.
    #[test]
    fn arrows_stand_everywhere_between_sides_of_all_sorts() {
        let mut random = Random::new(7);
        let mut places: BTreeMap<usize, usize> = BTreeMap::new();
        let mut tells: BTreeMap<[bool; 4], usize> = BTreeMap::new();
        let mut twice = 0;
        for _ in 0..1000 {
            let tree = tree(&mut random);
            let image = tree.encode();
            assert_eq!(check(&image), 0);
            let own = own_tables(&image);
            assert!(dependency_steps(&image, &own) < 1000);
            let counts = condition_counts(&image, &own);
            for arrow in arrows::of_walk(&tree) {
                let [left, right] = arrow.sides.map(|side| counts[side as usize]);
                let told = [left[0], left[1], right[0], right[1]].map(|count| count > 0);
                *places.entry(arrow.place).or_default() += 1;
                *tells.entry(told).or_default() += 1;
                twice += usize::from(arrow.sides[0] == arrow.sides[1]);
            }
        }
        // A walk asks none by itself.
        assert_eq!(places.len(), PLACES.len() - 1, "{places:?}");
        assert!(places.values().all(|&count| count > 50), "{places:?}");
        assert_eq!(tells.len(), 16, "{tells:?}");
        assert!(tells.values().all(|&count| count > 20), "{tells:?}");
        assert!(twice > 100, "{twice}");
    }
}

//! Trees made for the walk: guards within guards, with bindings of every form among them, and parts that are shared.

use std::ops::RangeInclusive;
use std::rc::Rc;

use super::{conditions, words};
use crate::image::{Item, NONE, Tree, kind, role};
use crate::notation::*;
use crate::random::Random;

/// So many of a hundred parts stand elsewhere too, and so many of a hundred trees bind a name again.
const SHARED: usize = 12;
const BOUND_AGAIN: usize = 30;
/// So many of a hundred trees for a comparison have long stretches of items that lead to no visit, of so many items, of
/// which so many of a hundred fields have a default all the same.
const STRETCHED: usize = 10;
const STRETCH: (usize, usize) = (40, 300);
const DEFAULTS: usize = 2;

pub fn tree(random: &mut Random) -> Tree {
    let levels = random.between(2, 6);
    let mut writer = Writer {
        random,
        earlier: Vec::new(),
    };
    let body = writer.part(levels);
    let mut tree = crate::notation::tree(&lambda("x", lambda("y", body)));
    if random.chance(BOUND_AGAIN) {
        bind_again(random, &mut tree);
    }
    tree
}

/// The same; a few of them have an expression with long stretches of items that lead to no visit.
pub fn stretched_tree(random: &mut Random) -> Tree {
    let mut tree = tree(random);
    if random.chance(STRETCHED) {
        for _ in 0..random.between(1, 4) {
            stretch(random, &mut tree);
        }
    }
    tree
}

/// Puts fields, what a plain set inherits, or bases of an inherit among the items of an expression that may have such.
fn stretch(random: &mut Random, tree: &mut Tree) {
    let wide = [kind::LAMBDA, kind::LET_IN, kind::ATTR_SET];
    let owners = (1..tree.exprs.len()).filter(|&e| wide.contains(&tree.exprs[e].kind));
    let owner = *random.pick(&owners.collect::<Vec<_>>());
    let expr = &tree.exprs[owner];
    let leading = |roles: RangeInclusive<u32>| {
        let roles = expr.items.iter().map(|item| roles.contains(&item.role));
        roles.take_while(|&is| is).count()
    };
    let statics = leading(role::STATIC..=role::INHERIT_FROM);
    let (role, first, last) = match (expr.kind, expr.detail) {
        (kind::LAMBDA, _) => {
            let parameters = leading(role::PARAMETER..=role::PARAMETER);
            (role::PATTERN_FIELD, parameters, expr.items.len() - 1)
        }
        (kind::ATTR_SET, 0) => (role::INHERIT_FROM, 0, statics),
        _ => {
            let bases = leading(role::STATIC..=role::INHERIT_BASE);
            (role::INHERIT_BASE, statics, bases)
        }
    };
    let at = random.between(first, last);
    let count = random.between(STRETCH.0, STRETCH.1);
    let names = tree.names.len();
    let stretch = (0..count).map(|_| idle(random, role, names, owner));
    let stretch: Vec<Item> = stretch.collect();
    tree.exprs[owner].items.splice(at..at, stretch);
}

/// An item that leads to no visit, but for a field with a default.
fn idle(random: &mut Random, role: u32, names: usize, owner: usize) -> Item {
    let expr = random.below(owner) as u32;
    match role {
        role::PATTERN_FIELD if !random.chance(DEFAULTS) => Item::of(role, NONE),
        role::INHERIT_FROM => {
            let name = random.below(names) as u32;
            Item { role, name, expr }
        }
        _ => Item::of(role, expr),
    }
}

/// Gives some bindings the names of others.
fn bind_again(random: &mut Random, tree: &mut Tree) {
    let names = tree.names.len();
    let items = tree.exprs.iter_mut().flat_map(|e| &mut e.items);
    let bound = [role::STATIC, role::INHERIT, role::INHERIT_FROM];
    for item in items.filter(|item| bound.contains(&item.role)) {
        if random.chance(50) {
            item.name = random.below(names) as u32;
        }
    }
}

struct Writer<'a> {
    random: &'a mut Random,
    /// Parts already written, to be shared at times.
    earlier: Vec<Node>,
}

impl Writer<'_> {
    fn name(&mut self) -> &'static str {
        self.random.text(&words::LOCALS[..3])
    }

    /// A condition; some have a part with bindings, which what they tell is not in force at.
    fn condition(&mut self, levels: usize) -> Node {
        let word = self.random.text(&words::PREDICATES);
        let depth = self.random.below(3);
        let condition = conditions::condition(self.random, &[word, "hasAttr"], depth);
        match self.random.below(12) {
            0 => and(condition, self.part(levels / 2)),
            1 => or(self.part(levels / 2), condition),
            _ => condition,
        }
    }

    fn part(&mut self, levels: usize) -> Node {
        if !self.earlier.is_empty() && self.random.chance(SHARED) {
            return Rc::clone(self.random.pick(&self.earlier));
        }
        if levels == 0 {
            return self.last();
        }
        let part = self.nested(levels - 1);
        self.earlier.push(Rc::clone(&part));
        part
    }

    /// A reference, or a binding that records what is in force.
    fn last(&mut self) -> Node {
        let reference = var(self.name());
        if self.random.chance(50) {
            let_(&[(self.name(), reference)], int())
        } else {
            reference
        }
    }

    fn nested(&mut self, levels: usize) -> Node {
        match self.random.below(12) {
            0..=1 => if_(self.condition(levels), self.part(levels), self.part(levels)),
            2 => if_(self.part(levels), self.part(levels), int()),
            3..=4 => assert_(self.condition(levels), self.part(levels)),
            5..=6 => self.call(levels),
            7..=8 => let_in(self.bindings(levels), self.part(levels / 2)),
            9 => rec_set(self.bindings(levels)),
            10 => set(self.bindings(levels)),
            _ => list(&[self.part(levels), self.part(levels)]),
        }
    }

    /// A conditional call, or nearly one.
    fn call(&mut self, levels: usize) -> Node {
        let name = self.random.text(&words::CONDITIONALS);
        let fun = match self.random.below(8) {
            0 => var("mkUnless"),
            1 => select_by(var("lib"), &[string(name)], Some(int())),
            2..=3 => select(var("lib"), &["a", name]),
            _ => var(name),
        };
        match self.random.below(8) {
            0 => apply(fun, self.part(levels)),
            1 => apply2(apply(fun, self.condition(0)), int(), self.part(levels)),
            _ => apply2(fun, self.condition(levels), self.part(levels)),
        }
    }

    fn bindings(&mut self, levels: usize) -> Bindings {
        let mut bindings = Bindings::new();
        for _ in 0..self.random.between(1, 3) {
            let name = self.name();
            bindings = match self.random.below(8) {
                0 => bindings.inherit(name),
                1 => bindings.inherit_from(self.part(levels / 2), &[name, self.name()]),
                2 => bindings.dynamic(var(name), self.part(levels / 2)),
                _ => bindings.bind(name, &self.part(levels)),
            };
        }
        bindings
    }
}

#[cfg(test)]
mod tests {
    use super::*;
    use crate::port::own_tables;
    use crate::second_reading::{check, dependency_need, dependency_steps};

    #[test]
    fn stretched_trees_are_accepted_and_some_are_very_wide() {
        let mut random = Random::new(5);
        let (mut long, mut visited) = (0, 0);
        for _ in 0..1000 {
            let tree = stretched_tree(&mut random);
            assert_eq!(check(&tree.encode()), 0);
            let widest = tree.exprs.iter().map(|e| e.items.len()).max();
            long += usize::from(widest >= Some(STRETCH.1));
            visited += usize::from(widest >= Some(STRETCH.0));
        }
        assert!(long >= 5 && visited >= 60, "{long} {visited}");
    }

    #[test]
    fn most_have_narrowings_in_force_and_end() {
        let mut random = Random::new(4);
        let (mut narrowed, mut recorded, mut steps) = (0, 0, 0);
        for _ in 0..500 {
            let image = tree(&mut random).encode();
            assert_eq!(check(&image), 0);
            let own = own_tables(&image);
            let [_, narrowings, _, working] = dependency_need(&image, &own);
            narrowed += usize::from(working > 0);
            recorded += usize::from(narrowings > 0);
            steps += dependency_steps(&image, &own);
        }
        assert!(narrowed > 300 && recorded > 200, "{narrowed} {recorded}");
        assert!(steps < 500 * 1000, "{steps}");
    }

    #[test]
    fn some_bind_a_name_again() {
        let mut random = Random::new(5);
        let again = (0..100).filter(|_| {
            let tree = tree(&mut random);
            let items = tree.exprs.iter().flat_map(|e| &e.items);
            let bound = items.filter(|item| item.role == role::STATIC);
            let mut names: Vec<u32> = bound.map(|item| item.name).collect();
            names.sort();
            names.windows(2).any(|pair| pair[0] == pair[1])
        });
        assert!(again.count() > 5);
    }
}

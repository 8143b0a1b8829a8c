//! Programs that are full of guards: comparisons, predicates, `?`, aliases, conditional functions.

use std::rc::Rc;

use super::words;
use crate::image::{Tree, detail};
use crate::notation::*;
use crate::random::Random;

/// A program of roughly the given number of expressions: a function whose body binds one part
/// after another until it is large enough.
pub fn tree(random: &mut Random, size: usize) -> Tree {
    let mut writer = Writer {
        random,
        earlier: Vec::new(),
        written: 0,
        has_arrows: size.is_multiple_of(ARROW_SIZES),
    };
    let mut bindings = Bindings::new();
    while writer.written < size / 2 {
        let part = writer.random.between(4, 80).min(size);
        bindings = bindings.bind(writer.name(), &writer.expr(part));
    }
    let body = writer.expr(size.min(80));
    let entry = lambda("x", lambda("cfg", let_in(bindings, body)));
    crate::notation::tree(&entry)
}

struct Writer<'a> {
    random: &'a mut Random,
    /// Some expressions already written, to be shared at times.
    earlier: Vec<Node>,
    /// How many expressions and conditions were asked for, roughly half of all there are.
    written: usize,
    has_arrows: bool,
}

/// One of so many sizes has arrows, of which the original tells nothing: most programs, the timed ones too, go beside it.
const ARROW_SIZES: usize = 7;

/// Below this many expressions a part stays small, which bounds what sharing can multiply.
const SHARED_SIZE: usize = 12;

impl Writer<'_> {
    fn name(&mut self) -> &'static str {
        if self.random.chance(10) {
            self.random.text(&words::SHADOWED)
        } else {
            self.random.text(&words::LOCALS)
        }
    }

    /// Two parts of what is left after this expression itself.
    fn split(&mut self, size: usize) -> (usize, usize) {
        let first = self.random.below(size.max(1));
        (first, size.saturating_sub(first + 1))
    }

    fn expr(&mut self, size: usize) -> Node {
        self.written += 1;
        if size < SHARED_SIZE && !self.earlier.is_empty() && self.random.chance(4) {
            return Rc::clone(self.random.pick(&self.earlier));
        }
        let node = if size < 2 {
            self.leaf()
        } else {
            self.compound(size - 1)
        };
        if size < SHARED_SIZE && self.random.chance(4) {
            self.earlier.push(Rc::clone(&node));
        }
        node
    }

    fn leaf(&mut self) -> Node {
        match self.random.below(8) {
            0 => self.literal(),
            1 => var(self.random.text(&words::GLOBALS)),
            2 => var(self.random.text(&words::PREDICATES)),
            _ => var(self.name()),
        }
    }

    fn literal(&mut self) -> Node {
        match self.random.below(9) {
            0 => int(),
            1 => float(),
            2 => string("a"),
            3 => path(),
            4 => uri(),
            5 => var("true"),
            6 => var("false"),
            _ => null(),
        }
    }

    fn compound(&mut self, size: usize) -> Node {
        let (first, second) = self.split(size);
        match self.random.below(16) {
            0..=3 => {
                let cond = self.cond(first.min(20));
                let (then_size, else_size) = self.split(size.saturating_sub(first.min(20)));
                if_(cond, self.expr(then_size), self.expr(else_size))
            }
            4 => assert_(self.cond(first.min(20)), self.expr(second)),
            5..=6 => self.conditional_call(size),
            7..=8 => self.let_in(size),
            9 => self.set(size),
            10 => self.function(size),
            11 => with_(self.expr(first), self.expr(second)),
            12 => self.alias(size),
            13 => apply(self.expr(first), self.expr(second)),
            14 => list(&[self.expr(first), self.expr(second)]),
            _ => self.other(size),
        }
    }

    fn other(&mut self, size: usize) -> Node {
        let (first, second) = self.split(size);
        match self.random.below(6) {
            0 => select(self.expr(size), &["a", "b"]),
            1 => select_by(self.expr(first), &[string("a")], Some(self.expr(second))),
            2 => string_interpolation(&[self.expr(first), self.expr(second)]),
            3 => path_interpolation(&[self.expr(size)]),
            4 => negate(self.expr(size)),
            _ => self.cond(size.min(20)),
        }
    }

    fn conditional_call(&mut self, size: usize) -> Node {
        let name = self.random.text(&words::CONDITIONALS);
        let fun = match self.random.below(4) {
            0 => var(name),
            1 => select(var("lib"), &[name]),
            2 => select(var("lib"), &["x", name]),
            _ => select_by(var("lib"), &[string(name)], Some(int())),
        };
        let cond = self.cond(size.min(20));
        apply2(fun, cond, self.expr(size.saturating_sub(size.min(20))))
    }

    fn bindings(&mut self, size: usize) -> Bindings {
        let (first, second) = self.split(size);
        let mut bindings = Bindings::new().bind(self.name(), &self.expr(first));
        for _ in 0..self.random.below(3) {
            bindings = match self.random.below(4) {
                0 => bindings.inherit(self.name()),
                1 => bindings.inherit_from(var(self.name()), &[self.name(), self.name()]),
                2 => bindings.dynamic(var(self.name()), self.expr(second / 4)),
                _ => bindings.bind(self.name(), &self.expr(second / 3)),
            };
        }
        bindings
    }

    fn let_in(&mut self, size: usize) -> Node {
        let (first, second) = self.split(size);
        let_in(self.bindings(first), self.expr(second))
    }

    fn set(&mut self, size: usize) -> Node {
        let bindings = self.bindings(size);
        if self.random.chance(50) {
            rec_set(bindings)
        } else {
            set(bindings)
        }
    }

    fn function(&mut self, size: usize) -> Node {
        let (first, second) = self.split(size);
        let all = self.random.chance(50).then(|| self.name());
        let default = Some(self.expr(first));
        let fields = [(Some(self.name()), None), (Some(self.name()), default)];
        let count = self.random.below(3);
        lambda_pattern(all, &fields[..count], self.expr(second))
    }

    /// A predicate under its own or another name, through up to five names.
    fn alias(&mut self, size: usize) -> Node {
        let name = *self
            .random
            .pick(&["isNull", "isString", "isList", "hasAttr"]);
        let mut node = self.expr(size);
        for _ in 0..self.random.below(4) {
            let as_name = if self.random.chance(80) { name } else { "f" };
            node = let_(&[(as_name, var(name))], node);
        }
        let source = Bindings::new();
        let source = if self.random.chance(50) {
            source.inherit_from(var("builtins"), &[name])
        } else {
            source.bind(name, &select(var("builtins"), &[name]))
        };
        let_in(source, node)
    }

    fn cond(&mut self, size: usize) -> Node {
        self.written += 1;
        let (first, second) = self.split(size);
        match self.random.below(if size < 4 { 4 } else { 8 }) {
            0 => self.comparison(),
            1 => self.predicate_call(),
            2 => self.field_test(),
            3 => self.leaf(),
            4 => not(self.cond(size - 1)),
            5 => and(self.cond(first), self.cond(second)),
            6 => or(self.cond(first), self.cond(second)),
            _ => bin_op(self.other_operator(), self.cond(first), self.cond(second)),
        }
    }

    fn other_operator(&mut self) -> u32 {
        match *self.random.pick(&[detail::IMPLICATION, detail::LESS]) {
            detail::IMPLICATION if self.has_arrows => detail::IMPLICATION,
            _ => detail::LESS,
        }
    }

    fn comparison(&mut self) -> Node {
        let op = *self.random.pick(&[detail::EQUAL, detail::NOT_EQUAL]);
        let (name, literal) = (var(self.name()), self.literal());
        if self.random.chance(50) {
            bin_op(op, name, literal)
        } else {
            bin_op(op, literal, name)
        }
    }

    fn predicate_call(&mut self) -> Node {
        let name = self.random.text(&words::PREDICATES);
        let fun = match self.random.below(6) {
            0..=1 => var(name),
            2 => select(var("builtins"), &[name]),
            3 => select(var("lib"), &["types", name]),
            4 => select_by(var("lib"), &[string(name)], Some(null())),
            _ => select(var("lib"), &[name]),
        };
        apply(fun, var(self.name()))
    }

    fn field_test(&mut self) -> Node {
        let name = var(self.name());
        let key = *self.random.pick(&["a", "b", "x"]);
        match self.random.below(6) {
            0..=1 => has_attr(name, &[key]),
            2 => has_attr(name, &[key, "b"]),
            3 => has_attr_by(name, &[string_interpolation(&[var("x")])]),
            4 => apply2(select(var("builtins"), &["hasAttr"]), string(key), name),
            _ => apply2(var("hasAttr"), string(key), name),
        }
    }
}

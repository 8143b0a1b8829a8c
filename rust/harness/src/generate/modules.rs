//! Programs as modules are written: arguments, a let of some to many names, sets, functions, withs, and references
//! mostly to names that are bound near. And two families, one that grows in depth and one in width.

use super::words;
use crate::image::{Tree, detail};
use crate::notation::*;
use crate::random::Random;

/// What every module takes.
const ARGUMENTS: [&str; 3] = ["config", "lib", "pkgs"];
/// What names begin with; a number behind it makes one new.
const STEMS: [&str; 8] = [
    "cfg",
    "name",
    "settings",
    "package",
    "extraConfig",
    "stateDir",
    "mkUser",
    "port",
];
const KEYS: [&str; 6] = ["enable", "services", "mkIf", "mkOption", "types", "system"];
/// The widest set or let but for the outermost.
const MOST_NAMES: usize = 10;

/// A module of roughly the given number of expressions, whose outermost let has `width` names.
pub fn tree(random: &mut Random, size: usize, width: usize) -> Tree {
    let arguments = ARGUMENTS.map(String::from).to_vec();
    let mut writer = Writer {
        random,
        scopes: vec![arguments],
        named: 0,
    };
    let body = writer.let_of(width, size / 2, size / 2);
    let fields = ARGUMENTS.map(|name| (Some(name), None));
    crate::notation::tree(&lambda_pattern(None, &fields, body))
}

/// How many references the innermost of nested scopes has.
const REFERENCES: usize = 256;

/// Functions and lets by turns, so many around each other; the innermost refers to the outermost.
pub fn nested(levels: usize) -> Tree {
    let references = [(); REFERENCES].map(|()| var("outermost"));
    let mut body = list(&references);
    for level in (1..levels).rev() {
        let name = format!("level{level}");
        body = match level % 2 {
            0 => lambda(&name, body),
            _ => let_(&[(&name, int()), ("other", int())], body),
        };
    }
    crate::notation::tree(&lambda("outermost", body))
}

/// A let of so many names, each referred to once.
pub fn wide(width: usize) -> Tree {
    let names: Vec<String> = (0..width).map(|number| format!("name{number}")).collect();
    let bind = |bindings: Bindings, name: &String| bindings.bind(name, &int());
    let references: Vec<Node> = names.iter().map(|name| var(name)).collect();
    let bindings = names.iter().fold(Bindings::new(), bind);
    crate::notation::tree(&let_in(bindings, list(&references)))
}

struct Writer<'a> {
    random: &'a mut Random,
    /// Names that are bound around, those of the innermost scope last.
    scopes: Vec<Vec<String>>,
    /// How many names are new so far.
    named: usize,
}

impl Writer<'_> {
    /// A new name, at times one that is bound around.
    fn name(&mut self) -> String {
        if self.random.chance(10) {
            return self.bound_name();
        }
        self.named += 1;
        format!("{}{}", self.random.text(&STEMS), self.named)
    }

    /// A name that is bound around, mostly in the innermost scopes.
    fn bound_name(&mut self) -> String {
        let mut scope = self.scopes.len() - 1;
        while scope > 0 && (self.scopes[scope].is_empty() || self.random.chance(40)) {
            scope -= 1;
        }
        self.random.pick(&self.scopes[scope]).clone()
    }

    fn reference(&mut self) -> Node {
        match self.random.below(20) {
            0 => var(self.random.text(&words::GLOBALS)),
            1 => var(self.random.text(&KEYS)),
            _ => var(&self.bound_name()),
        }
    }

    fn leaf(&mut self) -> Node {
        match self.random.below(8) {
            0 => int(),
            1..=2 => string(self.random.text(&KEYS)),
            3 => path(),
            _ => self.reference(),
        }
    }

    /// What is left for each of so many parts.
    fn share(size: usize, parts: usize) -> usize {
        size.saturating_sub(1) / parts.max(1)
    }

    fn many(&mut self, count: usize, size: usize) -> Vec<Node> {
        let share = Self::share(size, count);
        (0..count).map(|_| self.expr(share)).collect()
    }

    fn expr(&mut self, size: usize) -> Node {
        if size < 3 {
            return self.leaf();
        }
        let half = Self::share(size, 2);
        match self.random.below(16) {
            0..=3 => self.set(size),
            4..=6 => apply(self.function_name(), self.expr(size.saturating_sub(4))),
            7 => self.selection(),
            8 => {
                let count = self.random.between(1, 6);
                list(&self.many(count, size))
            }
            9 => self.with_list(),
            10..=11 => {
                let width = self.random.between(1, MOST_NAMES).min(half);
                self.let_of(width, half, half)
            }
            12..=13 => self.function(size),
            14 => if_(self.reference(), self.expr(half), self.expr(half)),
            _ => self.operation(half),
        }
    }

    fn operation(&mut self, half: usize) -> Node {
        match self.random.below(3) {
            0 => string_interpolation(&self.many(2, 2 * half)),
            1 => bin_op(detail::ATTR_UPDATE, self.expr(half), self.expr(half)),
            _ => assert_(self.selection(), self.expr(half)),
        }
    }

    fn selection(&mut self) -> Node {
        let keys = [self.random.text(&KEYS), self.random.text(&KEYS)];
        let count = self.random.between(1, keys.len());
        select(self.reference(), &keys[..count])
    }

    fn function_name(&mut self) -> Node {
        if self.random.chance(50) {
            select(var("lib"), &[self.random.text(&KEYS)])
        } else {
            self.reference()
        }
    }

    /// `with pkgs; [ a b c ]`.
    fn with_list(&mut self) -> Node {
        let count = self.random.between(1, 8);
        let names = (0..count).map(|_| var(&self.name())).collect::<Vec<Node>>();
        with_(var("pkgs"), list(&names))
    }

    /// What is written in the scope of these names.
    fn within<T>(&mut self, names: Vec<String>, write: impl FnOnce(&mut Self) -> T) -> T {
        self.scopes.push(names);
        let written = write(self);
        self.scopes.pop();
        written
    }

    fn function(&mut self, size: usize) -> Node {
        if self.random.chance(60) {
            let name = self.name();
            let body = self.within(vec![name.clone()], |writer| writer.expr(size - 1));
            return lambda(&name, body);
        }
        let names = [self.name(), self.name()];
        let half = Self::share(size, 2);
        let (default, body) = self.within(names.to_vec(), |writer| {
            (writer.expr(half), writer.expr(half))
        });
        let [first, second] = &names;
        let fields = [(Some(&**first), None), (Some(&**second), Some(default))];
        lambda_pattern(None, &fields, body)
    }

    /// A let of so many names with values, and some that are inherited.
    fn let_of(&mut self, width: usize, values: usize, body: usize) -> Node {
        let names: Vec<String> = (0..width).map(|_| self.name()).collect();
        let inherited = self.inherited();
        let in_scope = names.clone();
        self.within(in_scope, |writer| {
            let bindings = writer.bind(inherited, &names, values);
            let_in(bindings, writer.expr(body))
        })
    }

    fn set(&mut self, size: usize) -> Node {
        let width = self.random.between(1, MOST_NAMES).min(size);
        let names: Vec<String> = (0..width).map(|_| self.name()).collect();
        let inherited = self.inherited();
        if self.random.chance(15) {
            let in_scope = names.clone();
            let write = |writer: &mut Self| writer.bind(inherited, &names, size);
            return rec_set(self.within(in_scope, write));
        }
        set(self.bind(inherited, &names, size))
    }

    fn bind(&mut self, bindings: Bindings, names: &[String], size: usize) -> Bindings {
        let values = self.many(names.len(), size);
        let bound = names.iter().zip(&values);
        bound.fold(bindings, |bindings, (name, value)| {
            bindings.bind(name, value)
        })
    }

    /// `inherit x;` or `inherit (lib) mkIf;`, at times.
    fn inherited(&mut self) -> Bindings {
        match self.random.below(6) {
            0 => Bindings::new().inherit(&self.bound_name()),
            1 => Bindings::new().inherit_from(var("lib"), &["mkIf", "types"]),
            _ => Bindings::new(),
        }
    }
}

#[cfg(test)]
mod tests {
    use super::*;
    use crate::image::kind;
    use crate::second_reading::check;

    fn references(tree: &Tree) -> usize {
        let kinds = tree.exprs.iter().map(|e| e.kind);
        kinds.filter(|&kind| kind == kind::REFERENCE).count()
    }

    #[test]
    fn modules_have_roughly_the_size_that_is_asked_for() {
        let mut random = Random::new(5);
        for (size, width) in [(30, 5), (300, 30), (3000, 300)] {
            let tree = tree(&mut random, size, width);
            assert_eq!(check(&tree.encode()), 0);
            let exprs = tree.exprs.len();
            assert!((size / 3..4 * size).contains(&exprs), "{size}: {exprs}");
            assert!(tree.names.len() > width);
        }
    }

    #[test]
    fn families_have_their_depth_and_width() {
        for count in [1, 4, 1024] {
            assert_eq!(references(&wide(count)), count);
            assert_eq!(wide(count).names.len(), count);
        }
        assert_eq!(references(&nested(64)), REFERENCES);
        let makers = |tree: Tree| tree.exprs.iter().filter(|e| !e.items.is_empty()).count() - 1;
        assert_eq!(makers(nested(1)), 1);
        assert_eq!(makers(nested(64)), 64);
    }
}

//! Programs in which `builtins` is the global name or another set: bound by a let, a function or a rec set, inherited, found
//! in no scope that is visited. What they call is selected from it, from what it has, and from others.

use std::rc::Rc;

use super::words::{CONDITIONALS, PREDICATES};
use crate::image::Tree;
use crate::notation::*;
use crate::random::Random;

/// So many of a hundred references to x, and to the set, are one expression, which keeps the scope of its last visit.
const SHARED_X: usize = 60;
const SHARED_SET: usize = 15;
/// Scopes around each other.
const MOST_SCOPES: usize = 2;

pub fn tree(random: &mut Random) -> Tree {
    let mut writer = Writer {
        random,
        x: var("x"),
        set: var("builtins"),
    };
    let scopes = writer.random.below(MOST_SCOPES + 1);
    let body = writer.parts(scopes);
    // A visit of x resolves it for parts that none reaches; a With is there for given tables.
    let body = list(&[with_(Rc::clone(&writer.x), var("y")), body]);
    crate::notation::tree(&lambda("x", lambda("lib", body)))
}

struct Writer<'a> {
    random: &'a mut Random,
    /// The shared references.
    x: Node,
    set: Node,
}

impl Writer<'_> {
    fn x(&mut self) -> Node {
        match self.random.chance(SHARED_X) {
            true => Rc::clone(&self.x),
            false => var("x"),
        }
    }

    fn set(&mut self) -> Node {
        match self.random.chance(SHARED_SET) {
            true => Rc::clone(&self.set),
            false => var("builtins"),
        }
    }

    /// Some parts, within a scope as long as there are some left.
    fn parts(&mut self, scopes: usize) -> Node {
        let count = self.random.between(1, 4);
        let mut parts: Vec<Node> = (0..count).map(|_| self.part()).collect();
        if scopes == 0 {
            return list(&parts);
        }
        let inner = self.parts(scopes - 1);
        parts.push(self.scope(inner));
        list(&parts)
    }

    /// A scope that defines `builtins`, or only seems to.
    fn scope(&mut self, body: Node) -> Node {
        match self.random.below(4) {
            0 => self.function(body),
            1 => with_(self.x(), body),
            2 => let_in(self.bindings(), body),
            _ => self.rec_or_plain(body),
        }
    }

    fn function(&mut self, body: Node) -> Node {
        let default = self.random.chance(50).then(|| self.x());
        match self.random.below(3) {
            0 => lambda_pattern(None, &[(Some("builtins"), default)], body),
            1 => lambda_pattern(Some("builtins"), &[(Some("f"), default)], body),
            _ => lambda("builtins", body),
        }
    }

    /// Bindings of that name in each role, with a base and without, and another name of the set.
    fn bindings(&mut self) -> Bindings {
        let bindings = Bindings::new();
        match self.random.below(6) {
            0 | 1 => bindings.bind("builtins", &self.x()),
            2 => bindings.inherit("builtins"),
            3 => bindings.inherit_from(self.x(), &["builtins", "f"]),
            4 => {
                let selected = select(self.x(), &["builtins"]);
                bindings.inherit_without_base("builtins", &selected)
            }
            _ => bindings.bind("lib", &self.set()),
        }
    }

    /// A set whose value has the parts; what stands in role 6 the walk enters and no scope visit does.
    fn rec_or_plain(&mut self, body: Node) -> Node {
        let bindings = self.bindings();
        match self.random.below(5) {
            0 => set(bindings.bind("y", &body)),
            1 => rec_set(Bindings::new().inherit_without_base("y", &body)),
            _ => rec_set(bindings.bind("y", &body)),
        }
    }

    /// A binding that records what is in force.
    fn bound(&mut self) -> Node {
        let_(&[("bound", self.x())], int())
    }

    fn part(&mut self) -> Node {
        match self.random.below(8) {
            0..=1 => if_(self.condition(2), self.bound(), self.bound()),
            2 => assert_(self.condition(1), self.bound()),
            3..=5 => {
                let word = self.random.text(&CONDITIONALS);
                let called = self.callee(word);
                apply2(called, self.condition(1), self.bound())
            }
            _ => self.alias(),
        }
    }

    fn condition(&mut self, levels: usize) -> Node {
        match self.random.below(if levels == 0 { 5 } else { 8 }) {
            0 => eq(self.x(), null()),
            1..=2 => self.predicate_call(),
            3..=4 => self.has_attr_call(),
            5 => not(self.condition(levels - 1)),
            6 => and(self.condition(levels - 1), self.condition(levels - 1)),
            _ => or(self.condition(levels - 1), self.condition(levels - 1)),
        }
    }

    fn predicate_call(&mut self) -> Node {
        let word = self.random.text(&PREDICATES);
        apply(self.callee(word), self.x())
    }

    fn has_attr_call(&mut self) -> Node {
        apply2(self.callee("hasAttr"), string("f"), self.x())
    }

    /// A selection of one key, of several, from what the set has, or nearly one; at times of another set.
    fn callee(&mut self, word: &str) -> Node {
        let set = match self.random.below(12) {
            0 => var("lib"),
            _ => self.set(),
        };
        match self.random.below(12) {
            0..=4 => select(set, &[word]),
            5..=6 => select(set, &["f", word]),
            7 => select(set, &["f", "g", word]),
            8..=10 => select(select(set, &["f"]), &[word]),
            _ => select_by(set, &[string(word)], Some(self.x())),
        }
    }

    /// A test under the name that it has in the set; at times through a name that is inherited, which no index has.
    fn alias(&mut self) -> Node {
        let word = match self.random.below(4) {
            0 => "hasAttr",
            _ => self.random.text(&PREDICATES),
        };
        let test = match word {
            "hasAttr" => apply2(var(word), string("f"), self.x()),
            _ => apply(var(word), self.x()),
        };
        let mut body = if_(test, self.bound(), self.bound());
        if self.random.chance(15) {
            body = let_in(Bindings::new().inherit(word), body);
        }
        let (set, bindings) = (self.set(), Bindings::new());
        let bindings = match self.random.below(5) {
            0..=1 => bindings.bind(word, &select(set, &[word])),
            2..=3 => bindings.inherit_from(set, &[word]),
            _ => bindings.inherit_without_base(word, &select(set, &[word])),
        };
        let_in(bindings, body)
    }
}

#[cfg(test)]
mod tests {
    use std::collections::BTreeMap;

    use super::*;
    use crate::builtin_set;
    use crate::generate::given;
    use crate::image::{detail, kind, role};
    use crate::port::own_tables;
    use crate::second_reading::{check, dependency_steps, resolution_steps};
    use crate::tables::{DEFINITION, entries};

    /// What a reference spelt `builtins` resolves to: the tag, and of a name the role, in a let or elsewhere, that binds it.
    fn resolved(tree: &Tree, entry: u16) -> String {
        if entry >> 14 != DEFINITION {
            let is_meant = entry == builtin_set::entry();
            return format!("tag {}, meant: {is_meant}", entry >> 14);
        }
        let name = u32::from(entry & 0x3fff);
        let binds = |e: &&crate::image::Expr| e.items.iter().any(|item| item.name == name);
        let owner = tree.exprs.iter().find(binds).expect("a binding");
        let item = owner.items.iter().find(|item| item.name == name);
        let role = item.expect("its item").role;
        let place = match (owner.kind, owner.detail) {
            (kind::LET_IN, _) => "let",
            (kind::ATTR_SET, detail::REC) => "rec",
            _ => "function",
        };
        format!("role {role} of a {place}")
    }

    #[test]
    fn own_tables_resolve_builtins_in_every_way() {
        let mut random = Random::new(3);
        let mut ways: BTreeMap<String, usize> = BTreeMap::new();
        let mut meant = 0;
        for _ in 0..1000 {
            let tree = tree(&mut random);
            let image = tree.encode();
            assert_eq!(check(&image), 0);
            let own = own_tables(&image);
            assert!(resolution_steps(&image) + dependency_steps(&image, &own) < 1000);
            meant += usize::from(builtin_set::is_meant(&tree, &own));
            let resolutions: Vec<u16> = entries(&own.resolutions).collect();
            for e in builtin_set::references(&tree) {
                let way = resolved(&tree, resolutions[e]);
                *ways.entry(way).or_default() += 1;
            }
        }
        let roles = [role::STATIC, role::INHERIT, role::INHERIT_FROM];
        let bound =
            roles.map(|role| ["let", "rec"].map(|place| format!("role {role} of a {place}")));
        let fields = [role::PATTERN_FIELD, role::PARAMETER];
        let fields = fields.map(|role| format!("role {role} of a function"));
        let tags = ["tag 0, meant: false", "tag 2, meant: true"].map(String::from);
        for way in bound.as_flattened().iter().chain(&fields).chain(&tags) {
            assert!(
                ways.get(way).is_some_and(|&count| count > 50),
                "{way}: {ways:?}"
            );
        }
        assert!((200..800).contains(&meant), "{meant}");
    }

    #[test]
    fn given_tables_mean_it_often_and_resolve_it_in_every_way() {
        let mut random = Random::new(4);
        let (mut meant, mut tags, mut places) = (0, [0; 4], 0);
        for _ in 0..1000 {
            let tree = tree(&mut random);
            let given = given::tables(&mut random, &tree);
            meant += usize::from(builtin_set::is_meant(&tree, &given));
            let resolutions: Vec<u16> = entries(&given.resolutions).collect();
            for entry in builtin_set::references(&tree).map(|e| resolutions[e]) {
                tags[usize::from(entry >> 14)] += 1;
                places += usize::from(entry >> 14 == 2 && entry != builtin_set::entry());
            }
        }
        assert!((500..800).contains(&meant), "{meant}");
        assert!(
            tags.into_iter().chain([places]).all(|count| count > 200),
            "{tags:?} {places}"
        );
    }
}

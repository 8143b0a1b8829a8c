//! Trees of one shape: deep chains of each way of nesting, wide sets, the largest image.

use crate::image::{
    Expr, Item, LONGEST_TEXT, MOST_NUMBERED, MOST_RUN, NONE, Name, Tree, detail, kind, name_kind,
    role,
};
use crate::random::Random;

/// A way of nesting: an expression around the given one, whose other parts are expression 0.
pub struct Nesting {
    pub name: &'static str,
    kind: u32,
    detail: u32,
    /// Roles of the items, and which of them holds the inner expression.
    roles: &'static [u32],
    inner: usize,
}

const fn nesting(
    name: &'static str,
    kind: u32,
    detail: u32,
    roles: &'static [u32],
    inner: usize,
) -> Nesting {
    Nesting {
        name,
        kind,
        detail,
        roles,
        inner,
    }
}

/// Every way in which one expression can stand within another.
pub const NESTINGS: [Nesting; 37] = [
    nesting("apply, function", kind::APPLY, 0, &[0, 0], 0),
    nesting("apply, argument", kind::APPLY, 0, &[0, 0], 1),
    nesting("if, condition", kind::IF_THEN_ELSE, 0, &[0, 0, 0], 0),
    nesting("if, then", kind::IF_THEN_ELSE, 0, &[0, 0, 0], 1),
    nesting("if, else", kind::IF_THEN_ELSE, 0, &[0, 0, 0], 2),
    nesting("lambda, body", kind::LAMBDA, 0, &[10, 0], 1),
    nesting("lambda, field", kind::LAMBDA, 0, &[3, 0], 0),
    nesting("lambda, bare", kind::LAMBDA, 0, &[0], 0),
    nesting("let, value", kind::LET_IN, 0, &[4, 0], 0),
    nesting("let, inherit from", kind::LET_IN, 0, &[6, 0], 0),
    nesting("let, base", kind::LET_IN, 0, &[7, 0], 0),
    nesting("let, dynamic key", kind::LET_IN, 0, &[8, 9, 0], 0),
    nesting("let, dynamic value", kind::LET_IN, 0, &[8, 9, 0], 1),
    nesting("let, body", kind::LET_IN, 0, &[4, 0], 1),
    nesting("list", kind::LIST, 0, &[0], 0),
    nesting("sum, left", kind::BIN_OP, 0, &[0, 0], 0),
    nesting("equal, right", kind::BIN_OP, detail::EQUAL, &[0, 0], 1),
    nesting("and, left", kind::BIN_OP, detail::AND, &[0, 0], 0),
    nesting("or, right", kind::BIN_OP, detail::OR, &[0, 0], 1),
    nesting("set, value", kind::ATTR_SET, detail::PLAIN, &[4], 0),
    nesting("set, base", kind::ATTR_SET, detail::PLAIN, &[7], 0),
    nesting("set, dynamic", kind::ATTR_SET, detail::PLAIN, &[8, 9], 1),
    nesting("rec, value", kind::ATTR_SET, detail::REC, &[4], 0),
    nesting("rec, inherit from", kind::ATTR_SET, detail::REC, &[6], 0),
    nesting("invert", kind::UNARY_OP, detail::INVERT, &[0], 0),
    nesting("negate", kind::UNARY_OP, detail::NEGATE, &[0], 0),
    nesting("select, set", kind::SELECT, 0, &[0, 1], 0),
    nesting("select, key", kind::SELECT, 0, &[0, 1], 1),
    nesting("select, default", kind::SELECT, 0, &[0, 1, 2], 2),
    nesting("has, set", kind::HAS_ATTR, 0, &[0, 1], 0),
    nesting("has, key", kind::HAS_ATTR, 0, &[0, 1], 1),
    nesting("with, env", kind::WITH, 0, &[0, 0], 0),
    nesting("with, body", kind::WITH, 0, &[0, 0], 1),
    nesting("assert, condition", kind::ASSERT, 0, &[0, 0], 0),
    nesting("assert, body", kind::ASSERT, 0, &[0, 0], 1),
    nesting("string", kind::STRING_INTERPOLATION, 0, &[0], 0),
    nesting("path", kind::PATH_INTERPOLATION, 0, &[0], 0),
];

/// The ways in which a condition is made of others.
pub const CONDITION_NESTINGS: [Nesting; 7] = [
    nesting("!", kind::UNARY_OP, detail::INVERT, &[0], 0),
    nesting("&&, left", kind::BIN_OP, detail::AND, &[0, 0], 0),
    nesting("&&, right", kind::BIN_OP, detail::AND, &[0, 0], 1),
    nesting("||, left", kind::BIN_OP, detail::OR, &[0, 0], 0),
    nesting("||, right", kind::BIN_OP, detail::OR, &[0, 0], 1),
    nesting("->, left", kind::BIN_OP, detail::IMPLICATION, &[0, 0], 0),
    nesting("->, right", kind::BIN_OP, detail::IMPLICATION, &[0, 0], 1),
];

impl Nesting {
    /// The expression around the inner one; its other parts are `other`.
    fn around(&self, inner: u32, other: u32) -> Expr {
        let item = |(place, &role): (usize, &u32)| Item {
            role,
            name: match role {
                role::PATTERN_FIELD | role::STATIC | role::INHERIT_FROM | role::PARAMETER => 0,
                _ => NONE,
            },
            expr: match role {
                role::PARAMETER => NONE,
                _ if place == self.inner => inner,
                _ => other,
            },
        };
        let items = self.roles.iter().enumerate().map(item);
        Expr::with_detail(self.kind, self.detail, items.collect())
    }

    /// The kind that names have in such an expression.
    fn name_kind(&self) -> u32 {
        match (self.kind, self.detail) {
            (kind::ATTR_SET, detail::PLAIN) => name_kind::PLAIN_ATTRSET,
            (kind::ATTR_SET, _) => name_kind::REC_ATTRSET,
            (kind::LAMBDA, _) if self.roles[0] == role::PARAMETER => name_kind::PARAM,
            (kind::LAMBDA, _) => name_kind::PAT_FIELD,
            _ => name_kind::LET_IN,
        }
    }

    /// A chain of this nesting with the given number of expressions in all.
    pub fn chain(&self, size: usize) -> Tree {
        let leaf = std::iter::once(Expr::reference(0));
        let chain = (1..size as u32).map(|e| self.around(e - 1, 0));
        Tree {
            exprs: leaf.chain(chain).collect(),
            names: vec![Name {
                text: 0,
                kind: self.name_kind(),
            }],
            texts: vec![b"x".to_vec()],
            entry: size as u32 - 1,
        }
    }
}

/// `x: condition`, where so many levels of one nesting are made of nothing but `x == null`. The condition is the
/// expression before the last.
pub fn condition_chain(nesting: &Nesting, levels: usize) -> Tree {
    let mut tree = guard_chain(0);
    tree.exprs.truncate(TEST as usize + 1);
    for level in 0..levels as u32 {
        tree.exprs.push(nesting.around(TEST + level, TEST));
    }
    tree.entry = tree.exprs.len() as u32;
    let body = Item::child(tree.entry - 1);
    let items = vec![named(role::PARAMETER, 0, NONE), body];
    tree.exprs.push(Expr::new(kind::LAMBDA, items));
    tree
}

/// A guard around the inner expression: its kind, and which expressions its parts are.
pub struct Guard {
    pub name: &'static str,
    kind: u32,
    parts: &'static [u32],
}

/// What the parts of a guard can be: the first expressions of `guarded`, or the inner one.
const X: u32 = 0;
const NULL: u32 = 1;
const TEST: u32 = 2;
const BINDING: u32 = 3;
const MK_IF: u32 = 4;
const CALL: u32 = 5;
const INNER: u32 = NONE;

const fn guard(name: &'static str, kind: u32, parts: &'static [u32]) -> Guard {
    Guard { name, kind, parts }
}

/// The guards under which a condition is known to have come out one way.
pub const GUARDS: [Guard; 4] = [
    guard("guard, then", kind::IF_THEN_ELSE, &[TEST, INNER, X]),
    guard("guard, else", kind::IF_THEN_ELSE, &[TEST, X, INNER]),
    guard("guard, assert", kind::ASSERT, &[TEST, INNER]),
    guard("guard, call", kind::APPLY, &[CALL, INNER]),
];

impl Guard {
    /// A chain of this guard with the given number of expressions in all.
    pub fn chain(&'static self, size: usize) -> Tree {
        let besides = guarded(&[self]).exprs.len() - 1;
        guarded(&vec![self; size - besides])
    }
}

/// `levels` guards around each other: then bodies, else bodies and asserts by turns.
pub fn guard_chain(levels: usize) -> Tree {
    let guards = (0..levels).map(|level| &GUARDS[level % 3]);
    guarded(&guards.collect::<Vec<_>>())
}

/// A function of `x` whose guards, the innermost first, have the condition `x == null`, with a binding at the bottom
/// that records what is in force.
fn guarded(guards: &[&Guard]) -> Tree {
    let children = |parts: &[u32]| parts.iter().map(|&part| Item::child(part)).collect();
    let binding = vec![named(role::STATIC, 1, X), Item::child(X)];
    let mut exprs = vec![
        Expr::reference(0),
        Expr::reference(1),
        Expr::with_detail(kind::BIN_OP, detail::EQUAL, children(&[X, NULL])),
        Expr::new(kind::LET_IN, binding),
    ];
    let mut texts = vec!["x", "null", "y"];
    if guards.iter().any(|guard| guard.parts.contains(&CALL)) {
        texts.push("mkIf");
        exprs.push(Expr::reference(3));
        exprs.push(Expr::new(kind::APPLY, children(&[MK_IF, TEST])));
    }
    let mut inner = BINDING;
    for guard in guards {
        let part = |&part: &u32| if part == INNER { inner } else { part };
        let parts: Vec<u32> = guard.parts.iter().map(part).collect();
        inner = exprs.len() as u32;
        exprs.push(Expr::new(guard.kind, children(&parts)));
    }
    let items = vec![named(role::PARAMETER, 0, NONE), Item::child(inner)];
    exprs.push(Expr::new(kind::LAMBDA, items));
    let name = |text, kind| Name { text, kind };
    Tree {
        entry: exprs.len() as u32 - 1,
        exprs,
        names: vec![name(0, name_kind::PARAM), name(2, name_kind::LET_IN)],
        texts: texts.into_iter().map(|text| text.into()).collect(),
    }
}

/// `x: if condition then bindings else x`: a condition of 2^`tests` tests around 2^`bindings` bindings, each of which
/// records all of them. Both are shared, so that the image is small.
pub fn crowded(tests: usize, bindings: usize) -> Tree {
    let mut tree = guard_chain(0);
    tree.exprs.truncate(BINDING as usize + 1);
    let last = |tree: &Tree| tree.exprs.len() as u32 - 1;
    let twice = |e: u32| vec![Item::child(e), Item::child(e)];
    let mut condition = TEST;
    for _ in 0..tests {
        let both = Expr::with_detail(kind::BIN_OP, detail::AND, twice(condition));
        tree.exprs.push(both);
        condition = last(&tree);
    }
    let mut body = BINDING;
    for _ in 0..bindings {
        tree.exprs.push(Expr::new(kind::LIST, twice(body)));
        body = last(&tree);
    }
    let parts = [condition, body, X].map(Item::child);
    tree.exprs
        .push(Expr::new(kind::IF_THEN_ELSE, parts.to_vec()));
    let items = vec![named(role::PARAMETER, 0, NONE), Item::child(last(&tree))];
    tree.exprs.push(Expr::new(kind::LAMBDA, items));
    tree.entry = last(&tree);
    tree
}

/// A call of `mkIf` whose condition is such a call again, and so on, with the given number of expressions in all.
pub fn conditional_calls(size: usize) -> Tree {
    let mut exprs = vec![Expr::reference(0), Expr::reference(1)];
    while exprs.len() < size {
        let last = exprs.len() as u32 - 1;
        let parts = if last % 2 == 1 { [1, last] } else { [last, 0] };
        let items = parts.map(Item::child).to_vec();
        exprs.push(Expr::new(kind::APPLY, items));
    }
    Tree {
        entry: exprs.len() as u32 - 1,
        exprs,
        names: vec![],
        texts: ["x", "mkIf"].map(|text| text.into()).to_vec(),
    }
}

/// `if condition then x else x`, where the condition is a chain of this nesting, with the given number of expressions
/// in all.
pub fn guarded_by_chain(nesting: &Nesting, size: usize) -> Tree {
    let mut tree = nesting.chain(size - 1);
    let parts = [tree.entry, 0, 0].map(Item::child);
    tree.exprs
        .push(Expr::new(kind::IF_THEN_ELSE, parts.to_vec()));
    tree.entry += 1;
    tree
}

/// Calls of each expression with itself: every level doubles the visits.
pub fn doubling(levels: usize) -> Tree {
    let twice = |e: u32| Expr::new(kind::APPLY, vec![Item::child(e), Item::child(e)]);
    let leaf = std::iter::once(Expr::reference(0));
    Tree {
        exprs: leaf.chain((0..levels as u32).map(twice)).collect(),
        names: vec![],
        texts: vec![b"x".to_vec()],
        entry: levels as u32,
    }
}

fn named(role: u32, name: u32, expr: u32) -> Item {
    Item { role, name, expr }
}

/// A let or a set of `count` names with a body that refers to some of them.
pub fn wide(random: &mut Random, count: usize) -> Tree {
    let mut tree = Tree::default();
    let mut items = Vec::new();
    let kind = *random.pick(&[name_kind::LET_IN, name_kind::REC_ATTRSET]);
    for number in 0..count as u32 {
        let other = random.below(count);
        tree.exprs.push(Expr::reference(other as u32));
        tree.texts.push(format!("name{number}").into_bytes());
        tree.names.push(Name { text: number, kind });
        let role = *random.pick(&[role::STATIC, role::STATIC, role::INHERIT]);
        items.push(named(role, number, number));
    }
    if kind == name_kind::LET_IN {
        items.push(Item::child(random.below(count) as u32));
        tree.exprs.push(Expr::new(kind::LET_IN, items));
    } else {
        let set = Expr::with_detail(kind::ATTR_SET, detail::REC, items);
        tree.exprs.push(set);
    }
    tree.entry = count as u32;
    tree
}

/// A function of `count` pattern fields, each with a default.
pub fn wide_pattern(count: usize) -> Tree {
    let mut tree = Tree::default();
    let mut items = Vec::new();
    for number in 0..count as u32 {
        tree.exprs.push(Expr::reference(count as u32 - 1 - number));
        tree.texts.push(format!("field{number}").into_bytes());
        let kind = name_kind::PAT_FIELD;
        tree.names.push(Name { text: number, kind });
        items.push(named(role::PATTERN_FIELD, number, number));
    }
    items.push(Item::child(0));
    tree.exprs.push(Expr::new(kind::LAMBDA, items));
    tree.entry = count as u32;
    tree
}

/// Texts of lengths around the longest, each referred to.
pub fn long_texts(count: usize) -> Tree {
    let lengths = (0..count).map(|number| LONGEST_TEXT - number % 3);
    let mut exprs: Vec<Expr> = (0..count as u32).map(Expr::reference).collect();
    let items = (0..count as u32).map(Item::child).collect();
    exprs.push(Expr::new(kind::LIST, items));
    Tree {
        exprs,
        names: vec![],
        texts: lengths.map(|length| vec![b't'; length]).collect(),
        entry: count as u32,
    }
}

/// The image in which every count is as high as its field allows.
pub fn largest() -> Tree {
    let last = MOST_NUMBERED - 1;
    let share = MOST_RUN / last;
    let rest = |number: usize| {
        if number == last {
            MOST_RUN - share * (last - 1)
        } else {
            share
        }
    };
    let list = |number: usize| {
        let elements = (0..rest(number)).map(|place| Item::child((place % number) as u32));
        Expr::new(kind::LIST, elements.collect())
    };
    let lists = (1..=last).map(list);
    let text = |number: usize| vec![b'a' + (number % 26) as u8; rest(number)];
    let texts = std::iter::once(vec![]).chain((1..=last).map(text));
    Tree {
        exprs: std::iter::once(Expr::reference(0)).chain(lists).collect(),
        names: (0..=last as u32)
            .map(|text| Name {
                text,
                kind: text % 5,
            })
            .collect(),
        texts: texts.collect(),
        entry: last as u32,
    }
}

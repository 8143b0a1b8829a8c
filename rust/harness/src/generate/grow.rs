//! Well-formed trees of any shape: shared and unreachable expressions, names of any kind anywhere.

use super::words;
use crate::image::{
    Expr, Item, LONGEST_TEXT, MOST_NUMBERED, MOST_RUN, NONE, Name, Tree, kind, name_kind, role,
};
use crate::random::Random;

/// What the texts of a generated tree may be.
#[derive(Clone, Copy, PartialEq, Eq)]
pub enum Texts {
    /// Any bytes, as the format allows.
    Bytes,
    /// UTF-8 only, as the original needs.
    Utf8,
}

/// A tree of the given number of expressions, at least one.
pub fn tree(random: &mut Random, size: usize, texts: Texts) -> Tree {
    let sharing = *random.pick(&[2, 15, 15, 50]);
    let mut grower = Grower {
        random,
        texts,
        sharing,
        tree: Tree::default(),
        loose: Vec::new(),
        text_bytes: 0,
    };
    grower.leaf();
    while grower.tree.exprs.len() < size {
        if grower.random.chance(45) {
            grower.leaf();
        } else {
            grower.compound();
        }
    }
    grower.finish()
}

struct Grower<'a> {
    random: &'a mut Random,
    texts: Texts,
    /// How often, in a hundred, an item takes an expression that may have an owner.
    sharing: usize,
    tree: Tree,
    /// Expressions that nothing owns yet.
    loose: Vec<u32>,
    text_bytes: usize,
}

impl Grower<'_> {
    fn push(&mut self, expr: Expr) {
        self.loose.push(self.tree.exprs.len() as u32);
        self.tree.exprs.push(expr);
    }

    fn finish(self) -> Tree {
        let mut tree = self.tree;
        let last = tree.exprs.len() - 1;
        let anywhere = self.random.chance(20);
        tree.entry = if anywhere {
            self.random.below(last + 1) as u32
        } else {
            last as u32
        };
        tree
    }

    fn leaf(&mut self) {
        let expr = match self.random.below(10) {
            0 => Expr::new(kind::MISSING, vec![]),
            1..=2 => Expr::with_detail(kind::LITERAL, *self.random.pick(&[0, 1, 3, 4]), vec![]),
            3..=4 => Expr::string(self.text()),
            _ => Expr::reference(self.text()),
        };
        self.push(expr);
    }

    fn compound(&mut self) {
        let kind = *self.random.pick(&COMPOUNDS);
        let detail = match kind {
            kind::BIN_OP => self.random.below(15),
            kind::ATTR_SET | kind::UNARY_OP => self.random.below(2),
            _ => 0,
        };
        let items = self.items(kind);
        self.push(Expr::with_detail(kind, detail as u32, items));
    }

    fn items(&mut self, kind: u32) -> Vec<Item> {
        match kind {
            kind::UNARY_OP => self.many(role::CHILD, 1),
            kind::IF_THEN_ELSE => self.many(role::CHILD, 3),
            kind::APPLY | kind::BIN_OP | kind::WITH | kind::ASSERT => self.many(role::CHILD, 2),
            kind::LAMBDA => self.lambda(),
            kind::LET_IN => {
                let mut items = self.bindings();
                items.push(self.part(role::CHILD));
                items
            }
            kind::ATTR_SET => self.bindings(),
            kind::SELECT | kind::HAS_ATTR => self.path(kind == kind::SELECT),
            _ => self.some(role::CHILD, 5),
        }
    }

    fn part(&mut self, role: u32) -> Item {
        Item::of(role, self.below())
    }

    fn many(&mut self, role: u32, count: usize) -> Vec<Item> {
        (0..count).map(|_| self.part(role)).collect()
    }

    fn some(&mut self, role: u32, most: usize) -> Vec<Item> {
        let count = self.random.size(most);
        self.many(role, count)
    }

    fn path(&mut self, may_default: bool) -> Vec<Item> {
        let mut items = self.many(role::CHILD, 1);
        items.extend(self.some(role::PATH_KEY, 3));
        if may_default && self.random.chance(30) {
            items.push(self.part(role::DEFAULT));
        }
        items
    }

    fn lambda(&mut self) -> Vec<Item> {
        let mut items = Vec::new();
        if self.random.chance(70) {
            let name = self.name(name_kind::PARAM);
            let expr = NONE;
            let role = role::PARAMETER;
            items.push(Item { role, name, expr });
        }
        for _ in 0..self.random.size(4) {
            let named = self.random.chance(80);
            let defaults = self.random.chance(50);
            items.push(Item {
                role: role::PATTERN_FIELD,
                name: if named {
                    self.name(name_kind::PAT_FIELD)
                } else {
                    NONE
                },
                expr: if defaults { self.below() } else { NONE },
            });
        }
        items.push(self.part(role::CHILD));
        items
    }

    fn bindings(&mut self) -> Vec<Item> {
        let usual = *self.random.pick(&[0, 1, 2]);
        let mut items = Vec::new();
        for _ in 0..self.random.size(6) {
            let role = *self
                .random
                .pick(&[role::STATIC, role::INHERIT, role::INHERIT_FROM]);
            let expr = if role == role::INHERIT {
                self.reference_below()
            } else {
                Some(self.below())
            };
            let name = self.name(usual);
            items.extend(expr.map(|expr| Item { role, name, expr }));
        }
        items.extend(self.some(role::INHERIT_BASE, 2));
        for _ in 0..self.random.size(2) {
            items.push(self.part(role::DYNAMIC_KEY));
            items.push(self.part(role::DYNAMIC_VALUE));
        }
        items
    }

    /// A smaller expression: mostly the last that nothing owns, at times any.
    fn below(&mut self) -> u32 {
        if !self.random.chance(self.sharing)
            && let Some(expr) = self.loose.pop()
        {
            return expr;
        }
        self.random.below(self.tree.exprs.len()) as u32
    }

    fn reference_below(&mut self) -> Option<u32> {
        let from = self.random.below(self.tree.exprs.len());
        let is_reference = |e: &usize| self.tree.exprs[*e].kind == kind::REFERENCE;
        (0..=from).rev().find(is_reference).map(|e| e as u32)
    }

    fn name(&mut self, usual: u32) -> u32 {
        let count = self.tree.names.len();
        if count > 0 && (count == MOST_NUMBERED || self.random.chance(15)) {
            return self.random.below(count) as u32;
        }
        let kind = if self.random.chance(85) {
            usual
        } else {
            self.random.below(name_kind::COUNT as usize) as u32
        };
        let text = self.text();
        self.tree.names.push(Name { text, kind });
        count as u32
    }

    /// The number of an earlier text or of a new one, which may equal an earlier one.
    fn text(&mut self) -> u32 {
        let count = self.tree.texts.len();
        let full = count == MOST_NUMBERED || self.text_bytes + LONGEST_TEXT > MOST_RUN;
        if count > 0 && (full || self.random.chance(40)) {
            return self.random.below(count) as u32;
        }
        let text = text(self.random, self.texts);
        self.text_bytes += text.len();
        self.tree.texts.push(text);
        count as u32
    }
}

const COMPOUNDS: [u32; 14] = [
    kind::APPLY,
    kind::IF_THEN_ELSE,
    kind::LAMBDA,
    kind::LET_IN,
    kind::LIST,
    kind::BIN_OP,
    kind::ATTR_SET,
    kind::UNARY_OP,
    kind::SELECT,
    kind::HAS_ATTR,
    kind::WITH,
    kind::ASSERT,
    kind::STRING_INTERPOLATION,
    kind::PATH_INTERPOLATION,
];

/// A text: mostly a word that means something, at times empty, long or no UTF-8.
pub fn text(random: &mut Random, texts: Texts) -> Vec<u8> {
    let word = match random.below(100) {
        0..=1 => return vec![b'k'; random.size(LONGEST_TEXT)],
        2..=3 => return vec![b'k'; LONGEST_TEXT - random.below(2)],
        4..=6 => return Vec::new(),
        7..=9 if texts == Texts::Bytes => {
            return (0..random.size(40)).map(|_| random.word() as u8).collect();
        }
        7..=12 => "größe",
        13..=40 => random.text(&words::LOCALS),
        41..=60 => random.text(&words::GLOBALS),
        61..=80 => random.text(&words::PREDICATES),
        81..=90 => random.text(&words::CONDITIONALS),
        _ => random.text(&words::OTHERS),
    };
    word.as_bytes().to_vec()
}

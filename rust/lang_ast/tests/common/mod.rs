//! Trees for the tests: made from a seed, and chains of one way of nesting.

use lang_ast::tree::{
    BinOpKind, BindingValue, Bindings, Expr, ExprId, Literal, NameId, NameKind, Tree, TreeError,
    UnaryOpKind,
};

/// A small pseudo-random source (splitmix64).
pub struct Random(pub u64);

impl Random {
    fn word(&mut self) -> u64 {
        self.0 = self.0.wrapping_add(0x9e37_79b9_7f4a_7c15);
        let mut z = self.0;
        z = (z ^ z >> 30).wrapping_mul(0xbf58_476d_1ce4_e5b9);
        z = (z ^ z >> 27).wrapping_mul(0x94d0_49bb_1331_11eb);
        z ^ z >> 31
    }

    /// A number below the bound, which is not 0.
    pub fn below(&mut self, bound: usize) -> usize {
        let below = self.word() % bound as u64;
        usize::try_from(below).unwrap_or_default()
    }

    fn pick<T: Copy>(&mut self, among: &[T]) -> T {
        among[self.below(among.len())]
    }
}

const TEXTS: [&[u8]; 10] = [
    b"x",
    b"y",
    b"null",
    b"true",
    b"isNull",
    b"builtins",
    b"lib",
    b"",
    b"\xff\0",
    b"a longer text",
];

const BIN_OPS: [BinOpKind; 15] = [
    BinOpKind::Add,
    BinOpKind::Sub,
    BinOpKind::Mul,
    BinOpKind::Div,
    BinOpKind::Less,
    BinOpKind::LessOrEq,
    BinOpKind::More,
    BinOpKind::MoreOrEq,
    BinOpKind::NotEqual,
    BinOpKind::Equal,
    BinOpKind::And,
    BinOpKind::Implication,
    BinOpKind::Or,
    BinOpKind::ListConcat,
    BinOpKind::AttrUpdate,
];

const NAME_KINDS: [NameKind; 5] = [
    NameKind::LetIn,
    NameKind::PlainAttrset,
    NameKind::RecAttrset,
    NameKind::Param,
    NameKind::PatField,
];

/// A tree that grows by any expressions over what it has, with its ids.
pub struct Grower {
    pub random: Random,
    pub tree: Tree,
    pub exprs: Vec<ExprId>,
    pub names: Vec<NameId>,
    references: Vec<ExprId>,
}

impl Grower {
    /// A tree of so many expressions.
    pub fn grown(seed: u64, size: usize) -> Result<Self, TreeError> {
        let mut grower = Grower {
            random: Random(seed),
            tree: Tree::new(),
            exprs: Vec::new(),
            names: Vec::new(),
            references: Vec::new(),
        };
        grower.leaf(0)?;
        while grower.exprs.len() < size {
            let form = grower.random.below(20);
            match form {
                0..=5 => grower.leaf(form)?,
                6..=12 => grower.of_children(form)?,
                _ => grower.of_lists(form)?,
            }
        }
        Ok(grower)
    }

    fn push(&mut self, expr: Expr<'_>) -> Result<(), TreeError> {
        let id = self.tree.push(expr)?;
        self.exprs.push(id);
        Ok(())
    }

    fn leaf(&mut self, form: usize) -> Result<(), TreeError> {
        let text = self.random.pick(&TEXTS);
        match form {
            0..=2 => {
                self.push(Expr::Reference(text))?;
                self.references.extend(self.exprs.last());
                Ok(())
            }
            3 => self.push(Expr::string(text)),
            4 => self.push(Expr::Missing),
            _ => {
                let others = [
                    Literal::Float,
                    Literal::Integer,
                    Literal::Path,
                    Literal::Uri,
                ];
                let literal = self.random.pick(&others);
                self.push(Expr::Literal(literal))
            }
        }
    }

    /// An expression, mostly a late one, so that trees are deep and not all is shared.
    fn expr(&mut self) -> ExprId {
        let late = self.exprs.len().saturating_sub(4);
        if self.random.below(4) == 0 {
            self.random.pick(&self.exprs)
        } else {
            self.random.pick(&self.exprs[late..])
        }
    }

    fn some_exprs(&mut self) -> Vec<ExprId> {
        let count = self.random.below(4);
        (0..count).map(|_| self.expr()).collect()
    }

    fn name(&mut self) -> Result<NameId, TreeError> {
        let (text, kind) = (self.random.pick(&TEXTS), self.random.pick(&NAME_KINDS));
        let name = self.tree.name(text, kind)?;
        self.names.push(name);
        Ok(name)
    }

    fn of_children(&mut self, form: usize) -> Result<(), TreeError> {
        let (a, b, c) = (self.expr(), self.expr(), self.expr());
        let op = self.random.pick(&BIN_OPS);
        let unary = self
            .random
            .pick(&[UnaryOpKind::Invert, UnaryOpKind::Negate]);
        self.push(match form {
            6 => Expr::Apply { fun: a, arg: b },
            7 => Expr::IfThenElse {
                cond: a,
                then_body: b,
                else_body: c,
            },
            8 | 9 => Expr::BinOp { lhs: a, rhs: b, op },
            10 => Expr::UnaryOp { op: unary, expr: a },
            11 => Expr::With { env: a, body: b },
            _ => Expr::Assert { cond: a, body: b },
        })
    }

    fn of_lists(&mut self, form: usize) -> Result<(), TreeError> {
        let (set, parts) = (self.expr(), self.some_exprs());
        let default_expr = (self.random.below(2) == 0).then_some(set);
        let attrpath = &parts;
        match form {
            13 => self.push(Expr::List(&parts)),
            14 => self.push(Expr::StringInterpolation(&parts)),
            15 => self.push(Expr::PathInterpolation(&parts)),
            16 => self.push(Expr::Select {
                set,
                attrpath,
                default_expr,
            }),
            17 => self.push(Expr::HasAttr { set, attrpath }),
            18 => self.lambda(set),
            _ => self.bindings(set),
        }
    }

    fn lambda(&mut self, body: ExprId) -> Result<(), TreeError> {
        let param = if self.random.below(2) == 0 {
            Some(self.name()?)
        } else {
            None
        };
        let mut pat = Vec::new();
        for default_expr in self.some_exprs() {
            pat.push(match self.random.below(4) {
                0 => (None, None),
                1 => (None, Some(default_expr)),
                2 => (Some(self.name()?), None),
                _ => (Some(self.name()?), Some(default_expr)),
            });
        }
        let pat = &pat;
        self.push(Expr::Lambda { param, pat, body })
    }

    fn bindings(&mut self, body: ExprId) -> Result<(), TreeError> {
        let mut statics = Vec::new();
        for expr in self.some_exprs() {
            let value = match self.random.below(3) {
                0 => BindingValue::Expr(expr),
                1 => BindingValue::Inherit(self.random.pick(&self.references)),
                _ => BindingValue::InheritFrom(expr),
            };
            statics.push((self.name()?, value));
        }
        let inherit_froms = self.some_exprs();
        let keys = self.some_exprs();
        let dynamics: Vec<_> = keys.into_iter().map(|key| (key, body)).collect();
        let bindings = Bindings {
            statics: &statics,
            inherit_froms: &inherit_froms,
            dynamics: &dynamics,
        };
        let form = self.random.below(3);
        self.push(if form == 0 {
            Expr::LetIn { bindings, body }
        } else {
            let is_rec = form == 1;
            Expr::AttrSet { is_rec, bindings }
        })
    }
}

//! The encoder of `rust/lang_ast` and the harness's own write the same bytes.

use harness::generate::{self, grow::Texts};
use harness::image::{Expr, Item, NONE, Tree, detail, kind, role};
use harness::notation::survey_case;
use harness::random::Random;
use lang_ast::tree::{
    self, BinOpKind, BindingValue, Bindings, ExprId, Literal, NameId, NameKind, TreeError,
    UnaryOpKind,
};

const BIN_OPS: [BinOpKind; 15] = [
    BinOpKind::Add,
    BinOpKind::Sub,
    BinOpKind::Mul,
    BinOpKind::Div,
    BinOpKind::Less,
    BinOpKind::LessOrEq,
    BinOpKind::More,
    BinOpKind::MoreOrEq,
    BinOpKind::NotEqual,
    BinOpKind::Equal,
    BinOpKind::And,
    BinOpKind::Implication,
    BinOpKind::Or,
    BinOpKind::ListConcat,
    BinOpKind::AttrUpdate,
];

const NAME_KINDS: [NameKind; 5] = [
    NameKind::LetIn,
    NameKind::PlainAttrset,
    NameKind::RecAttrset,
    NameKind::Param,
    NameKind::PatField,
];

/// A tree that is pushed again, text by text, name by name, expression by expression.
struct CopiedTree<'a> {
    of: &'a Tree,
    tree: lang_ast::Tree,
    exprs: Vec<ExprId>,
    names: Vec<NameId>,
}

/// The image of a copy; none where equal texts stand twice, since the other encoder makes them one.
fn image_of_copy(of: &Tree) -> Result<Option<Vec<u8>>, lang_ast::Error> {
    let mut copy = CopiedTree {
        of,
        tree: lang_ast::Tree::new(),
        exprs: Vec::new(),
        names: Vec::new(),
    };
    for (place, text) in of.texts.iter().enumerate() {
        if usize::from(copy.tree.text(text)?.number()) != place {
            return Ok(None);
        }
    }
    for name in &of.names {
        let kind = NAME_KINDS[name.kind as usize];
        copy.names.push(copy.tree.name(copy.text(name.text), kind)?);
    }
    for expr in &of.exprs {
        let id = copy.push(expr)?;
        copy.exprs.push(id);
    }
    let image = copy.tree.encode(copy.exprs[of.entry as usize])?;
    Ok(Some(image.as_bytes().to_vec()))
}

impl<'a> CopiedTree<'a> {
    fn text(&self, text: u32) -> &'a [u8] {
        &self.of.texts[text as usize]
    }

    fn expr(&self, item: &Item) -> Option<ExprId> {
        (item.expr != NONE).then(|| self.exprs[item.expr as usize])
    }

    fn name(&self, item: &Item) -> Option<NameId> {
        (item.name != NONE).then(|| self.names[item.name as usize])
    }

    /// The expressions of the items of one role.
    fn exprs(&self, e: &Expr, role: u32) -> Vec<ExprId> {
        let items = e.items.iter().filter(|item| item.role == role);
        items.filter_map(|item| self.expr(item)).collect()
    }

    fn push(&mut self, e: &Expr) -> Result<ExprId, TreeError> {
        let parts = self.exprs(e, role::CHILD);
        let attrpath = &self.exprs(e, role::PATH_KEY);
        self.tree.push(match (e.kind, &parts[..]) {
            (kind::MISSING, _) => tree::Expr::Missing,
            (kind::APPLY, &[fun, arg]) => tree::Expr::Apply { fun, arg },
            (kind::IF_THEN_ELSE, &[cond, then_body, else_body]) => tree::Expr::IfThenElse {
                cond,
                then_body,
                else_body,
            },
            (kind::LITERAL, _) => tree::Expr::Literal(self.literal(e)),
            (kind::LIST, parts) => tree::Expr::List(parts),
            (kind::BIN_OP, &[lhs, rhs]) => {
                let op = BIN_OPS[e.detail as usize];
                tree::Expr::BinOp { lhs, rhs, op }
            }
            (kind::UNARY_OP, &[expr]) => {
                let op = [UnaryOpKind::Invert, UnaryOpKind::Negate][e.detail as usize];
                tree::Expr::UnaryOp { op, expr }
            }
            (kind::REFERENCE, _) => tree::Expr::Reference(self.text(e.text)),
            (kind::SELECT, &[set]) => tree::Expr::Select {
                set,
                attrpath,
                default_expr: self.exprs(e, role::DEFAULT).first().copied(),
            },
            (kind::HAS_ATTR, &[set]) => tree::Expr::HasAttr { set, attrpath },
            (kind::WITH, &[env, body]) => tree::Expr::With { env, body },
            (kind::ASSERT, &[cond, body]) => tree::Expr::Assert { cond, body },
            (kind::STRING_INTERPOLATION, parts) => tree::Expr::StringInterpolation(parts),
            (kind::PATH_INTERPOLATION, parts) => tree::Expr::PathInterpolation(parts),
            _ => return self.push_binder(e, parts.first().copied()),
        })
    }

    fn literal(&self, e: &Expr) -> Literal<'a> {
        match e.detail {
            detail::FLOAT => Literal::Float,
            detail::INTEGER => Literal::Integer,
            detail::STRING => Literal::String(self.text(e.text)),
            detail::PATH => Literal::Path,
            _ => Literal::Uri,
        }
    }

    /// What binds names: a Lambda, a LetIn, an AttrSet.
    fn push_binder(&mut self, e: &Expr, body: Option<ExprId>) -> Result<ExprId, TreeError> {
        let of_role = |role| e.items.iter().filter(move |item| item.role == role);
        let field = |item| (self.name(item), self.expr(item));
        let pat: Vec<_> = of_role(role::PATTERN_FIELD).map(field).collect();
        let param = of_role(role::PARAMETER).find_map(|item| self.name(item));
        let statics: Vec<_> = e.items.iter().filter_map(|item| self.bound(item)).collect();
        let inherit_froms = self.exprs(e, role::INHERIT_BASE);
        let values = self.exprs(e, role::DYNAMIC_VALUE);
        let keys = self.exprs(e, role::DYNAMIC_KEY).into_iter();
        let dynamics: Vec<_> = keys.zip(values).collect();
        let bindings = Bindings {
            statics: &statics,
            inherit_froms: &inherit_froms,
            dynamics: &dynamics,
        };
        let (pat, is_rec) = (&pat, e.detail == detail::REC);
        self.tree.push(match (e.kind, body) {
            (kind::LAMBDA, Some(body)) => tree::Expr::Lambda { param, pat, body },
            (kind::LET_IN, Some(body)) => tree::Expr::LetIn { bindings, body },
            (kind::ATTR_SET, None) => tree::Expr::AttrSet { is_rec, bindings },
            _ => panic!("an expression that the format does not have: {e:?}"),
        })
    }

    fn bound(&self, item: &Item) -> Option<(NameId, BindingValue)> {
        let value = match item.role {
            role::STATIC => BindingValue::Expr,
            role::INHERIT => BindingValue::Inherit,
            role::INHERIT_FROM => BindingValue::InheritFrom,
            _ => return None,
        };
        Some((self.name(item)?, value(self.expr(item)?)))
    }
}

#[test]
fn generated_trees_have_the_same_bytes() -> Result<(), lang_ast::Error> {
    let mut random = Random::new(12);
    let mut same = 0;
    for _ in 0..4000 {
        let tree = generate::tree(&mut random, Texts::Bytes);
        if let Some(image) = image_of_copy(&tree)? {
            assert!(image == tree.encode());
            same += 1;
        }
    }
    assert!(same > 1000, "{same}");
    Ok(())
}

#[test]
fn the_printed_case_has_the_same_bytes() -> Result<(), lang_ast::Error> {
    let tree = survey_case();
    assert_eq!(image_of_copy(&tree)?, Some(tree.encode()));
    Ok(())
}

//! An image from tix's `Module`, written against the public types of tix's lang_ast alone: the way in for a service
//! that has a `Module`. It takes a copy of this file and changes the three imports below, as each one's comment says.

use std::collections::HashMap;
use std::{error, fmt};

// This repository's rust/lang_ast, which Cargo knows by another name where tix's lang_ast is a dependency too.
use ::lang_ast::tree::{self, TreeError};
use ::lang_ast::{Error, Image, Tree};

// tix's lang_ast: here the copy that the build assembles.
use super::lang_ast as tix;
// rnix's own.
use super::stand_ins::rnix::ast::UnaryOpKind;

use tix::{BinOP, BoolBinOp, Expr, ExprBinOp, InterpolPart, Module, NormalBinOp, OverloadBinOp};

/// Why a module has no image.
#[derive(Debug)]
pub enum NoImage {
    /// This expression is a part of itself.
    Cycle(tix::ExprId),
    /// It is past a limit of the format, an Inherit names something else than a Reference, or there is no archive.
    Error(Error),
}

impl fmt::Display for NoImage {
    fn fmt(&self, to: &mut fmt::Formatter<'_>) -> fmt::Result {
        match self {
            NoImage::Cycle(expr) => write!(to, "the expression {expr:?} is a part of itself"),
            NoImage::Error(error) => error.fmt(to),
        }
    }
}

impl error::Error for NoImage {}

impl<E: Into<Error>> From<E> for NoImage {
    fn from(error: E) -> Self {
        NoImage::Error(error.into())
    }
}

/// The image of a module, and what stands for what: questions go in by the module's ids, answers come out by them.
#[derive(Debug)]
pub struct ModuleImage {
    pub image: Image<'static>,
    exprs: HashMap<tix::ExprId, tree::ExprId>,
    names: HashMap<tix::NameId, tree::NameId>,
    /// By their numbers in the image.
    module_exprs: Vec<tix::ExprId>,
    module_names: Vec<tix::NameId>,
}

impl ModuleImage {
    /// The image of all expressions and names of a module. Each expression stands behind those that it is made of, and
    /// besides in the module's order: a module that was lowered children first keeps its numbers.
    pub fn new(module: &Module) -> Result<Self, NoImage> {
        let mut lowered = Lowered::default();
        for (id, name) in module.names() {
            let own = lowered
                .tree
                .name(name.text.as_str(), name_kind(name.kind))?;
            lowered.names.insert(id, own);
        }
        let module_exprs = children_first(module)?;
        for &id in &module_exprs {
            let own = lowered.push(&module[id])?;
            lowered.exprs.insert(id, own);
        }
        let entry = lowered.expr(module.entry_expr)?;
        Ok(ModuleImage {
            image: lowered.tree.encode(entry)?,
            exprs: lowered.exprs,
            names: lowered.names,
            module_exprs,
            module_names: module.names().map(|(id, _)| id).collect(),
        })
    }

    /// What stands in the image for an expression of the module.
    pub fn expr(&self, expr: tix::ExprId) -> Option<tree::ExprId> {
        self.exprs.get(&expr).copied()
    }

    /// What stands in the image for a name of the module.
    pub fn name(&self, name: tix::NameId) -> Option<tree::NameId> {
        self.names.get(&name).copied()
    }

    /// The expression of the module that an answer speaks of.
    pub fn module_expr(&self, expr: tree::ExprId) -> Option<tix::ExprId> {
        self.module_exprs.get(usize::from(expr.number())).copied()
    }

    /// The name of the module that an answer speaks of.
    pub fn module_name(&self, name: tree::NameId) -> Option<tix::NameId> {
        self.module_names.get(usize::from(name.number())).copied()
    }
}

/// What an expression is made of. The original's walk leaves out the selections that `inherit (e) x` stands for.
fn parts(expr: &Expr) -> Vec<tix::ExprId> {
    let mut parts = Vec::new();
    expr.walk_child_exprs(|part| parts.push(part));
    if let Expr::LetIn { bindings, .. } | Expr::AttrSet { bindings, .. } = expr {
        let selections = bindings
            .statics
            .iter()
            .filter_map(|&(_, value)| match value {
                tix::BindingValue::InheritFrom(selection) => Some(selection),
                tix::BindingValue::Expr(_) | tix::BindingValue::Inherit(_) => None,
            });
        parts.extend(selections);
    }
    parts
}

enum Step {
    Enter(tix::ExprId),
    Leave(tix::ExprId),
}

/// All expressions, each behind those that it is made of. Nothing here recurses, so a tree may be deep.
fn children_first(module: &Module) -> Result<Vec<tix::ExprId>, NoImage> {
    let mut order = Vec::with_capacity(module.exprs().len());
    let mut is_left = HashMap::new();
    let mut steps: Vec<Step> = module.exprs().map(|(id, _)| Step::Enter(id)).collect();
    steps.reverse();
    while let Some(step) = steps.pop() {
        match step {
            Step::Enter(expr) => match is_left.get(&expr) {
                Some(true) => {}
                Some(false) => return Err(NoImage::Cycle(expr)),
                None => {
                    is_left.insert(expr, false);
                    steps.push(Step::Leave(expr));
                    steps.extend(parts(&module[expr]).into_iter().rev().map(Step::Enter));
                }
            },
            Step::Leave(expr) => {
                is_left.insert(expr, true);
                order.push(expr);
            }
        }
    }
    Ok(order)
}

/// A tree that grows, and what has been pushed.
#[derive(Default)]
struct Lowered {
    tree: Tree,
    exprs: HashMap<tix::ExprId, tree::ExprId>,
    names: HashMap<tix::NameId, tree::NameId>,
}

impl Lowered {
    fn expr(&self, expr: tix::ExprId) -> Result<tree::ExprId, TreeError> {
        let own = self.exprs.get(&expr).copied();
        own.ok_or(TreeError::UnknownId)
    }

    fn name(&self, name: tix::NameId) -> Result<tree::NameId, TreeError> {
        let own = self.names.get(&name).copied();
        own.ok_or(TreeError::UnknownId)
    }

    fn all(&self, exprs: &[tix::ExprId]) -> Result<Vec<tree::ExprId>, TreeError> {
        exprs.iter().map(|&expr| self.expr(expr)).collect()
    }

    fn push(&mut self, expr: &Expr) -> Result<tree::ExprId, TreeError> {
        let own = match expr {
            Expr::Missing => tree::Expr::Missing,
            Expr::Apply { fun, arg } => tree::Expr::Apply {
                fun: self.expr(*fun)?,
                arg: self.expr(*arg)?,
            },
            Expr::IfThenElse {
                cond,
                then_body,
                else_body,
            } => tree::Expr::IfThenElse {
                cond: self.expr(*cond)?,
                then_body: self.expr(*then_body)?,
                else_body: self.expr(*else_body)?,
            },
            Expr::Literal(literal) => tree::Expr::Literal(own_literal(literal)),
            Expr::BinOp { lhs, rhs, op } => tree::Expr::BinOp {
                lhs: self.expr(*lhs)?,
                rhs: self.expr(*rhs)?,
                op: bin_op(*op),
            },
            Expr::UnaryOp { op, expr } => tree::Expr::UnaryOp {
                op: unary_op(*op),
                expr: self.expr(*expr)?,
            },
            Expr::Reference(text) => tree::Expr::reference(text.as_str()),
            Expr::With { env, body } => tree::Expr::With {
                env: self.expr(*env)?,
                body: self.expr(*body)?,
            },
            Expr::Assert { cond, body } => tree::Expr::Assert {
                cond: self.expr(*cond)?,
                body: self.expr(*body)?,
            },
            // Each by its name, so that a kind which is added to the original does not compile.
            Expr::Lambda { .. }
            | Expr::LetIn { .. }
            | Expr::List(_)
            | Expr::AttrSet { .. }
            | Expr::Select { .. }
            | Expr::HasAttr { .. }
            | Expr::StringInterpolation(_)
            | Expr::PathInterpolation(_) => return self.push_with_list(expr),
        };
        self.tree.push(own)
    }

    /// The kinds that have any number of parts.
    fn push_with_list(&mut self, expr: &Expr) -> Result<tree::ExprId, TreeError> {
        match expr {
            Expr::List(parts) => {
                let parts = self.all(parts)?;
                self.tree.push(tree::Expr::List(&parts))
            }
            Expr::StringInterpolation(parts) => {
                let parts = self.all(&interpolated(parts))?;
                self.tree.push(tree::Expr::StringInterpolation(&parts))
            }
            Expr::PathInterpolation(parts) => {
                let parts = self.all(&interpolated(parts))?;
                self.tree.push(tree::Expr::PathInterpolation(&parts))
            }
            Expr::Select {
                set,
                attrpath,
                default_expr,
            } => {
                let (set, attrpath) = (self.expr(*set)?, &self.all(attrpath)?);
                let default_expr = default_expr.map(|expr| self.expr(expr)).transpose()?;
                self.tree.push(tree::Expr::Select {
                    set,
                    attrpath,
                    default_expr,
                })
            }
            Expr::HasAttr { set, attrpath } => {
                let (set, attrpath) = (self.expr(*set)?, &self.all(attrpath)?);
                self.tree.push(tree::Expr::HasAttr { set, attrpath })
            }
            Expr::Lambda { param, pat, body } => self.push_lambda(*param, pat.as_ref(), *body),
            Expr::LetIn { bindings, body } => self.push_bindings(bindings, Around::LetIn(*body)),
            Expr::AttrSet { is_rec, bindings } => {
                self.push_bindings(bindings, Around::AttrSet { is_rec: *is_rec })
            }
            // `push` has taken all others.
            _ => Err(TreeError::UnknownId),
        }
    }

    /// A tree keeps no ellipsis, and an empty pattern like none.
    fn push_lambda(
        &mut self,
        param: Option<tix::NameId>,
        pat: Option<&tix::Pat>,
        body: tix::ExprId,
    ) -> Result<tree::ExprId, TreeError> {
        let fields = pat.map_or(&[][..], |pat| &pat.fields);
        let own = |&(name, default): &(Option<tix::NameId>, Option<tix::ExprId>)| {
            let name = name.map(|name| self.name(name)).transpose()?;
            Ok((name, default.map(|expr| self.expr(expr)).transpose()?))
        };
        let fields: Vec<_> = fields.iter().map(own).collect::<Result<_, TreeError>>()?;
        let param = param.map(|name| self.name(name)).transpose()?;
        let (pat, body) = (&fields, self.expr(body)?);
        self.tree.push(tree::Expr::Lambda { param, pat, body })
    }

    fn push_bindings(
        &mut self,
        bindings: &tix::Bindings,
        around: Around,
    ) -> Result<tree::ExprId, TreeError> {
        let own = |&(name, value): &(tix::NameId, tix::BindingValue)| {
            let value = match value {
                tix::BindingValue::Expr(e) => tree::BindingValue::Expr(self.expr(e)?),
                tix::BindingValue::Inherit(e) => tree::BindingValue::Inherit(self.expr(e)?),
                tix::BindingValue::InheritFrom(e) => tree::BindingValue::InheritFrom(self.expr(e)?),
            };
            Ok((self.name(name)?, value))
        };
        let statics = bindings.statics.iter().map(own);
        let statics: Vec<_> = statics.collect::<Result<_, TreeError>>()?;
        let pair =
            |&(key, value): &(tix::ExprId, tix::ExprId)| Ok((self.expr(key)?, self.expr(value)?));
        let dynamics = bindings.dynamics.iter().map(pair);
        let dynamics: Vec<_> = dynamics.collect::<Result<_, TreeError>>()?;
        let bindings = tree::Bindings {
            statics: &statics,
            inherit_froms: &self.all(&bindings.inherit_froms)?,
            dynamics: &dynamics,
        };
        let own = match around {
            Around::AttrSet { is_rec } => tree::Expr::AttrSet { is_rec, bindings },
            Around::LetIn(body) => tree::Expr::LetIn {
                bindings,
                body: self.expr(body)?,
            },
        };
        self.tree.push(own)
    }
}

/// What has bindings.
enum Around {
    LetIn(tix::ExprId),
    AttrSet { is_rec: bool },
}

/// What stands between the braces: an image does not keep the literal parts.
fn interpolated<T>(parts: &[InterpolPart<T>]) -> Vec<tix::ExprId> {
    let interpolated = parts.iter().filter_map(|part| match part {
        InterpolPart::Interpol(expr) => Some(*expr),
        InterpolPart::Literal(_) => None,
    });
    interpolated.collect()
}

fn name_kind(kind: tix::NameKind) -> tree::NameKind {
    match kind {
        tix::NameKind::LetIn => tree::NameKind::LetIn,
        tix::NameKind::PlainAttrset => tree::NameKind::PlainAttrset,
        tix::NameKind::RecAttrset => tree::NameKind::RecAttrset,
        tix::NameKind::Param => tree::NameKind::Param,
        tix::NameKind::PatField => tree::NameKind::PatField,
    }
}

fn own_literal(literal: &tix::Literal) -> tree::Literal<'_> {
    match literal {
        tix::Literal::Float(_) => tree::Literal::Float,
        tix::Literal::Integer(_) => tree::Literal::Integer,
        tix::Literal::String(text) => tree::Literal::String(text.as_str().as_bytes()),
        tix::Literal::Path(_) => tree::Literal::Path,
        tix::Literal::Uri => tree::Literal::Uri,
    }
}

fn unary_op(op: UnaryOpKind) -> tree::UnaryOpKind {
    match op {
        UnaryOpKind::Invert => tree::UnaryOpKind::Invert,
        UnaryOpKind::Negate => tree::UnaryOpKind::Negate,
    }
}

fn bin_op(op: BinOP) -> tree::BinOpKind {
    match op {
        BinOP::Overload(OverloadBinOp::Add) => tree::BinOpKind::Add,
        BinOP::Overload(OverloadBinOp::Sub) => tree::BinOpKind::Sub,
        BinOP::Overload(OverloadBinOp::Mul) => tree::BinOpKind::Mul,
        BinOP::Overload(OverloadBinOp::Div) => tree::BinOpKind::Div,
        BinOP::Normal(NormalBinOp::Expr(op)) => match op {
            ExprBinOp::Less => tree::BinOpKind::Less,
            ExprBinOp::LessOrEq => tree::BinOpKind::LessOrEq,
            ExprBinOp::More => tree::BinOpKind::More,
            ExprBinOp::MoreOrEq => tree::BinOpKind::MoreOrEq,
            ExprBinOp::NotEqual => tree::BinOpKind::NotEqual,
            ExprBinOp::Equal => tree::BinOpKind::Equal,
        },
        BinOP::Normal(NormalBinOp::Bool(BoolBinOp::And)) => tree::BinOpKind::And,
        BinOP::Normal(NormalBinOp::Bool(BoolBinOp::Implication)) => tree::BinOpKind::Implication,
        BinOP::Normal(NormalBinOp::Bool(BoolBinOp::Or)) => tree::BinOpKind::Or,
        BinOP::Normal(NormalBinOp::ListConcat) => tree::BinOpKind::ListConcat,
        BinOP::Normal(NormalBinOp::AttrUpdate) => tree::BinOpKind::AttrUpdate,
    }
}

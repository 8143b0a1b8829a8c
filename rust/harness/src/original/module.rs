//! The original's `Module`, built from an accepted image in image order.

use super::lang_ast::{
    BinOP, BindingValue, Bindings, BoolBinOp, Expr, ExprBinOp, ExprId, InterpolPart, Literal,
    Module, Name, NameId, NameKind, NormalBinOp, OverloadBinOp, Pat,
};
use super::stand_ins::la_arena::Idx;
use super::stand_ins::ordered_float::OrderedFloat;
use super::stand_ins::rnix::ast::UnaryOpKind;
use super::stand_ins::smol_str::SmolStr;
use crate::image::{self, Item, NONE, Tree, detail, kind, name_kind, role};

/// The module of an accepted image whose texts are UTF-8.
pub fn module_from_image(image: &[u8]) -> Module {
    module_from_tree(&Tree::decode(image))
}

pub fn module_from_tree(tree: &Tree) -> Module {
    let texts: Vec<SmolStr> = tree.texts.iter().zip(0..).map(smol).collect();
    let name = |name: &image::Name| Name {
        text: texts[name.text as usize].clone(),
        kind: name_kind(name.kind),
    };
    Module {
        exprs: tree.exprs.iter().map(|e| expr(e, &texts)).collect(),
        names: tree.names.iter().map(name).collect(),
        entry_expr: Idx::from_raw(tree.entry),
    }
}

fn smol((text, number): (&Vec<u8>, u32)) -> SmolStr {
    let text = str::from_utf8(text).expect("the original takes UTF-8 texts only");
    SmolStr::numbered(text, number)
}

fn name_kind(kind: u32) -> NameKind {
    match kind {
        name_kind::LET_IN => NameKind::LetIn,
        name_kind::PLAIN_ATTRSET => NameKind::PlainAttrset,
        name_kind::REC_ATTRSET => NameKind::RecAttrset,
        name_kind::PARAM => NameKind::Param,
        _ => NameKind::PatField,
    }
}

fn expr(e: &image::Expr, texts: &[SmolStr]) -> Expr {
    let child = |place: usize| expr_id(&e.items[place]);
    match e.kind {
        kind::MISSING => Expr::Missing,
        kind::APPLY => Expr::Apply {
            fun: child(0),
            arg: child(1),
        },
        kind::IF_THEN_ELSE => Expr::IfThenElse {
            cond: child(0),
            then_body: child(1),
            else_body: child(2),
        },
        kind::LITERAL => Expr::Literal(literal(e, texts)),
        kind::LIST => Expr::List(exprs(&e.items)),
        kind::BIN_OP => Expr::BinOp {
            lhs: child(0),
            rhs: child(1),
            op: bin_op(e.detail),
        },
        kind::UNARY_OP => Expr::UnaryOp {
            op: unary_op(e.detail),
            expr: child(0),
        },
        kind::REFERENCE => Expr::Reference(texts[e.text as usize].clone()),
        kind::WITH => Expr::With {
            env: child(0),
            body: child(1),
        },
        kind::ASSERT => Expr::Assert {
            cond: child(0),
            body: child(1),
        },
        kind::STRING_INTERPOLATION => Expr::StringInterpolation(interpolated(&e.items)),
        kind::PATH_INTERPOLATION => Expr::PathInterpolation(interpolated(&e.items)),
        _ => binder_or_path(e),
    }
}

/// The kinds whose items have several roles.
fn binder_or_path(e: &image::Expr) -> Expr {
    let last = || expr_id(e.items.last().expect("a body stands last"));
    let set = || expr_id(&e.items[0]);
    match e.kind {
        kind::LAMBDA => Expr::Lambda {
            param: of_role(e, role::PARAMETER).next().map(name_id),
            pat: pattern(e),
            body: last(),
        },
        kind::LET_IN => Expr::LetIn {
            bindings: bindings(e),
            body: last(),
        },
        kind::ATTR_SET => Expr::AttrSet {
            is_rec: e.detail == detail::REC,
            bindings: bindings(e),
        },
        kind::SELECT => Expr::Select {
            set: set(),
            attrpath: of_role(e, role::PATH_KEY).map(expr_id).collect(),
            default_expr: of_role(e, role::DEFAULT).next().map(expr_id),
        },
        _ => Expr::HasAttr {
            set: set(),
            attrpath: of_role(e, role::PATH_KEY).map(expr_id).collect(),
        },
    }
}

fn of_role(e: &image::Expr, role: u32) -> impl Iterator<Item = &Item> {
    e.items.iter().filter(move |item| item.role == role)
}

fn expr_id(item: &Item) -> ExprId {
    Idx::from_raw(item.expr)
}

fn name_id(item: &Item) -> NameId {
    Idx::from_raw(item.name)
}

fn exprs(items: &[Item]) -> Box<[ExprId]> {
    items.iter().map(expr_id).collect()
}

fn interpolated(items: &[Item]) -> Box<[InterpolPart<SmolStr>]> {
    let parts = items.iter().map(expr_id);
    parts.map(InterpolPart::Interpol).collect()
}

/// The image has no value for other literals than strings, and no pass looks at one.
fn literal(e: &image::Expr, texts: &[SmolStr]) -> Literal {
    match e.detail {
        detail::FLOAT => Literal::Float(OrderedFloat(0.5)),
        detail::INTEGER => Literal::Integer(1),
        detail::STRING => Literal::String(texts[e.text as usize].clone()),
        detail::PATH => Literal::Path("./.".to_string()),
        _ => Literal::Uri,
    }
}

fn pattern(e: &image::Expr) -> Option<Pat> {
    let field = |item: &Item| {
        let name = (item.name != NONE).then(|| name_id(item));
        let default = (item.expr != NONE).then(|| expr_id(item));
        (name, default)
    };
    let fields: Box<[_]> = of_role(e, role::PATTERN_FIELD).map(field).collect();
    let ellipsis = false;
    (!fields.is_empty()).then_some(Pat { fields, ellipsis })
}

fn bindings(e: &image::Expr) -> Bindings {
    let bound = |item: &Item| {
        let value = match item.role {
            role::STATIC => BindingValue::Expr(expr_id(item)),
            role::INHERIT => BindingValue::Inherit(expr_id(item)),
            role::INHERIT_FROM => BindingValue::InheritFrom(expr_id(item)),
            _ => return None,
        };
        Some((name_id(item), value))
    };
    let keys = of_role(e, role::DYNAMIC_KEY).map(expr_id);
    let values = of_role(e, role::DYNAMIC_VALUE).map(expr_id);
    Bindings {
        statics: e.items.iter().filter_map(bound).collect(),
        inherit_froms: of_role(e, role::INHERIT_BASE).map(expr_id).collect(),
        dynamics: keys.zip(values).collect(),
    }
}

fn unary_op(detail: u32) -> UnaryOpKind {
    match detail {
        detail::INVERT => UnaryOpKind::Invert,
        _ => UnaryOpKind::Negate,
    }
}

fn bin_op(detail: u32) -> BinOP {
    const OVERLOADED: [OverloadBinOp; 4] = [
        OverloadBinOp::Add,
        OverloadBinOp::Sub,
        OverloadBinOp::Mul,
        OverloadBinOp::Div,
    ];
    const NORMAL: [NormalBinOp; 11] = [
        NormalBinOp::Expr(ExprBinOp::Less),
        NormalBinOp::Expr(ExprBinOp::LessOrEq),
        NormalBinOp::Expr(ExprBinOp::More),
        NormalBinOp::Expr(ExprBinOp::MoreOrEq),
        NormalBinOp::Expr(ExprBinOp::NotEqual),
        NormalBinOp::Expr(ExprBinOp::Equal),
        NormalBinOp::Bool(BoolBinOp::And),
        NormalBinOp::Bool(BoolBinOp::Implication),
        NormalBinOp::Bool(BoolBinOp::Or),
        NormalBinOp::ListConcat,
        NormalBinOp::AttrUpdate,
    ];
    match detail as usize {
        place if place < OVERLOADED.len() => BinOP::Overload(OVERLOADED[place]),
        place => BinOP::Normal(NORMAL[place - OVERLOADED.len()]),
    }
}

//! What is read back from an image is what was pushed.

mod common;

use std::collections::HashMap;

use common::Grower;
use lang_ast::answer::NameDependencies;
use lang_ast::tree::{
    BinOpKind, BindingValue, Bindings, Expr, ExprId, Literal, NameId, NameKind, TextId, Tree,
    TreeError,
};
use lang_ast::view::{ExprKind, ExprView, Item, Role};
use lang_ast::{Error, Image};

const PRINTED: &[u8] = include_bytes!("../../../examples/printed.image");

/// A tree pushed again from what an image tells, in its order.
#[derive(Default)]
struct Copied {
    tree: Tree,
    exprs: Vec<ExprId>,
    names: Vec<NameId>,
}

fn copied(image: &Image<'_>) -> Result<Image<'static>, Error> {
    let mut copied = Copied::default();
    for (_, text) in image.texts() {
        copied.tree.text(text)?;
    }
    for (_, name) in image.names() {
        copied.names.push(copied.tree.name(name.text, name.kind)?);
    }
    for expr in image.exprs() {
        let id = copied.push(&expr)?;
        copied.exprs.push(id);
    }
    let entry = copied.expr(image.entry_expr());
    copied.tree.encode(entry)
}

impl Copied {
    fn expr(&self, of: ExprId) -> ExprId {
        self.exprs[usize::from(of.number())]
    }

    fn name(&self, of: NameId) -> NameId {
        self.names[usize::from(of.number())]
    }

    fn exprs(&self, of: &ExprView<'_>, role: Role) -> Vec<ExprId> {
        of.exprs_of(role).map(|expr| self.expr(expr)).collect()
    }

    fn push(&mut self, of: &ExprView<'_>) -> Result<ExprId, TreeError> {
        let parts = self.exprs(of, Role::Child);
        let attrpath = &self.exprs(of, Role::PathKey);
        self.tree.push(match (of.kind(), &parts[..]) {
            (ExprKind::Missing, []) => Expr::Missing,
            (ExprKind::Apply, &[fun, arg]) => Expr::Apply { fun, arg },
            (ExprKind::IfThenElse, &[cond, then_body, else_body]) => Expr::IfThenElse {
                cond,
                then_body,
                else_body,
            },
            (ExprKind::Literal(literal), []) => Expr::Literal(literal),
            (ExprKind::List, parts) => Expr::List(parts),
            (ExprKind::BinOp(op), &[lhs, rhs]) => Expr::BinOp { lhs, rhs, op },
            (ExprKind::UnaryOp(op), &[expr]) => Expr::UnaryOp { op, expr },
            (ExprKind::Reference(text), []) => Expr::Reference(text),
            (ExprKind::Select, &[set]) => Expr::Select {
                set,
                attrpath,
                default_expr: self.exprs(of, Role::Default).first().copied(),
            },
            (ExprKind::HasAttr, &[set]) => Expr::HasAttr { set, attrpath },
            (ExprKind::With, &[env, body]) => Expr::With { env, body },
            (ExprKind::Assert, &[cond, body]) => Expr::Assert { cond, body },
            (ExprKind::StringInterpolation, parts) => Expr::StringInterpolation(parts),
            (ExprKind::PathInterpolation, parts) => Expr::PathInterpolation(parts),
            (_, body) => return self.push_binder(of, body.first().copied()),
        })
    }

    fn push_binder(
        &mut self,
        of: &ExprView<'_>,
        body: Option<ExprId>,
    ) -> Result<ExprId, TreeError> {
        let (mut param, mut pat, mut statics) = (None, Vec::new(), Vec::new());
        for Item { role, name, expr } in of.items() {
            let name = name.map(|name| self.name(name));
            let expr = expr.map(|expr| self.expr(expr));
            match (role, name, expr) {
                (Role::Parameter, Some(name), None) => param = Some(name),
                (Role::PatternField, name, expr) => pat.push((name, expr)),
                (Role::Static, Some(name), Some(e)) => statics.push((name, BindingValue::Expr(e))),
                (Role::Inherit, Some(name), Some(e)) => {
                    statics.push((name, BindingValue::Inherit(e)));
                }
                (Role::InheritFrom, Some(name), Some(e)) => {
                    statics.push((name, BindingValue::InheritFrom(e)));
                }
                _ => assert!(name.is_none() && expr.is_some(), "{role:?}"),
            }
        }
        let keys = self.exprs(of, Role::DynamicKey).into_iter();
        let dynamics: Vec<_> = keys.zip(self.exprs(of, Role::DynamicValue)).collect();
        let bindings = Bindings {
            statics: &statics,
            inherit_froms: &self.exprs(of, Role::InheritBase),
            dynamics: &dynamics,
        };
        let pat = &pat;
        self.tree.push(match (of.kind(), body) {
            (ExprKind::Lambda, Some(body)) => Expr::Lambda { param, pat, body },
            (ExprKind::LetIn, Some(body)) => Expr::LetIn { bindings, body },
            (ExprKind::AttrSet { is_rec }, None) => Expr::AttrSet { is_rec, bindings },
            (kind, _) => panic!("an expression that no image has: {kind:?}"),
        })
    }
}

/// The copy takes its texts in the order in which the image has them, so it is the same byte for byte.
#[test]
fn what_is_read_back_and_pushed_again_is_the_same_image() -> Result<(), Error> {
    for seed in 0..2000u64 {
        let size = 1 + usize::try_from(seed % 90).unwrap_or_default();
        let grower = Grower::grown(seed, size)?;
        let image = grower.tree.encode(grower.exprs[size - 1])?;
        assert_eq!(copied(&image)?.as_bytes(), image.as_bytes());
    }
    assert_eq!(copied(&Image::check(PRINTED)?)?.as_bytes(), PRINTED);
    Ok(())
}

#[test]
fn the_printed_case_is_read_back() -> Result<(), Error> {
    let image = Image::check(PRINTED)?;
    assert_eq!(image.entry_expr().number(), 8);
    let counts = (
        image.expr_count(),
        image.name_count(),
        image.text_count(),
        image.item_count(),
    );
    assert_eq!(counts, (9, 2, 3, 9));
    let kinds: Vec<_> = image.exprs().map(|expr| expr.kind()).collect();
    let expected = [
        ExprKind::Reference(b"x"),
        ExprKind::Reference(b"null"),
        ExprKind::BinOp(BinOpKind::Equal),
        ExprKind::Reference(b"x"),
        ExprKind::Reference(b"y"),
        ExprKind::LetIn,
        ExprKind::Reference(b"x"),
        ExprKind::IfThenElse,
        ExprKind::Lambda,
    ];
    assert_eq!(kinds, expected);
    let names: Vec<_> = image
        .names()
        .map(|(id, it)| (id.number(), it.text, it.kind))
        .collect();
    let expected = [
        (0, &b"x"[..], NameKind::Param),
        (1, &b"y"[..], NameKind::LetIn),
    ];
    assert_eq!(names, expected);
    let numbers = |item: Item| {
        (
            item.role,
            item.name.map(NameId::number),
            item.expr.map(ExprId::number),
        )
    };
    let items: Vec<_> = image
        .exprs()
        .skip(5)
        .take(1)
        .flat_map(|expr| expr.items())
        .collect();
    let items: Vec<_> = items.into_iter().map(numbers).collect();
    assert_eq!(
        items,
        [
            (Role::Static, Some(1), Some(3)),
            (Role::Child, None, Some(4))
        ]
    );
    let conditions: Vec<_> = image.exprs().filter_map(|expr| expr.condition()).collect();
    assert_eq!(conditions, image.expr_id(2).into_iter().collect::<Vec<_>>());
    Ok(())
}

#[test]
fn ids_by_number_and_names_by_text() -> Result<(), Error> {
    let image = Image::check(PRINTED)?;
    assert_eq!((image.expr_id(9), image.name_id(2)), (None, None));
    let y = image.name_id(1);
    assert_eq!(
        image.names_by_text("y").collect::<Vec<_>>(),
        y.into_iter().collect::<Vec<_>>()
    );
    assert_eq!(image.names_by_text(b"null").count(), 0);
    // Ids of another tree are of nothing.
    let mut tree = Tree::new();
    let other = tree.push(Expr::Missing)?;
    let name = tree.name("x", NameKind::Param)?;
    let text: TextId = tree.text("x")?;
    assert!(image.expr(other).is_none());
    assert_eq!((image.name(name), image.text(text)), (None, None));
    // Several that bind the same text.
    let mut names: Vec<NameId> = Vec::new();
    for kind in [NameKind::LetIn, NameKind::PlainAttrset] {
        names.push(tree.name("again", kind)?);
    }
    let image = tree.encode(other)?;
    assert_eq!(image.names_by_text("again").collect::<Vec<_>>(), names);
    let defines: Vec<_> = image
        .names()
        .map(|(_, name)| name.kind.is_definition())
        .collect();
    assert_eq!(defines, [true, true, false]);
    Ok(())
}

#[test]
fn iterators_know_how_many_they_have() -> Result<(), Error> {
    let image = Image::check(PRINTED)?;
    let (resolution, indices) = (image.name_resolution(9)?, image.module_indices()?);
    let walk = image.name_dependencies(&resolution, &indices, 10)?;
    assert_eq!((resolution.iter().len(), indices.iter().len()), (5, 1));
    let walked = (
        walk.edges().len(),
        walk.narrow_scopes().len(),
        walk.name_to_expr().len(),
    );
    assert_eq!(walked, (1, 1, 1));
    let condition = image.expr_id(2);
    let told = condition.map(|it| image.analyze_condition(&resolution, &indices, it, 1));
    let told = told.transpose()?;
    assert_eq!(told.map(|told| told.then_branch.iter().len()), Some(1));
    let mut iter = resolution.iter();
    for left in (0..5).rev() {
        assert!(iter.next().is_some());
        assert_eq!(iter.len(), left);
    }
    assert_eq!((iter.next(), iter.len()), (None, 0));
    assert_eq!((image.exprs().len(), image.names().len()), (9, 2));
    Ok(())
}

/// What `by_binding` has of each name is what stands in the walk's lists, in their order.
fn same_by_binding(image: &Image<'_>, walk: &NameDependencies<'_>) -> Result<usize, Error> {
    let (mut edges, mut scopes) = (HashMap::<_, Vec<_>>::new(), HashMap::<_, Vec<_>>::new());
    for edge in walk.edges() {
        edges.entry(edge.from).or_default().push(edge.to);
    }
    for it in walk.narrow_scopes() {
        scopes.entry(it.binding).or_default().push(it.narrowing);
    }
    let by_binding = walk.by_binding()?;
    for (name, _) in image.names() {
        let own = edges.remove(&name).unwrap_or_default();
        assert_eq!(by_binding.edges(name).len(), own.len());
        assert_eq!(by_binding.edges(name).collect::<Vec<_>>(), own);
        let own = scopes.remove(&name).unwrap_or_default();
        assert_eq!(by_binding.narrow_scope(name).len(), own.len());
        assert_eq!(by_binding.narrow_scope(name).collect::<Vec<_>>(), own);
    }
    assert!(edges.is_empty() && scopes.is_empty());
    Ok(walk.edges().len() + walk.narrow_scopes().len())
}

#[test]
fn edges_and_narrowings_come_by_their_binding() -> Result<(), Error> {
    let mut compared = 0;
    for seed in 0..2000u64 {
        let size = 1 + usize::try_from(seed % 90).unwrap_or_default();
        let grower = Grower::grown(seed, size)?;
        let image = grower.tree.encode(grower.exprs[size - 1])?;
        let Ok(resolution) = image.name_resolution(10_000) else {
            continue;
        };
        let indices = image.module_indices()?;
        if let Ok(walk) = image.name_dependencies(&resolution, &indices, 10_000) {
            compared += same_by_binding(&image, &walk)?;
        }
    }
    assert!(compared > 1000, "{compared}");
    Ok(())
}

#[test]
fn answers_print_with_the_names_of_the_image() -> Result<(), Error> {
    let image = Image::check(PRINTED)?;
    let (resolution, indices) = (image.name_resolution(9)?, image.module_indices()?);
    let walk = image.name_dependencies(&resolution, &indices, 10)?;
    let edges: Vec<_> = walk
        .edges()
        .map(|it| it.display(&image).to_string())
        .collect();
    assert_eq!(edges, [r#""y" needs "x""#]);
    let scopes: Vec<_> = walk
        .narrow_scopes()
        .map(|it| it.display(&image).to_string())
        .collect();
    assert_eq!(scopes, [r#"at "y": "x" is null"#]);
    let else_branch = image.expr_id(2).map(|condition| {
        let told = image.analyze_condition(&resolution, &indices, condition, 1);
        told.map(|told| {
            told.else_branch
                .iter()
                .map(|it| it.predicate.display(&image).to_string())
                .collect::<Vec<_>>()
        })
    });
    assert_eq!(
        else_branch.transpose()?,
        Some(vec!["is not null".to_string()])
    );
    Ok(())
}

/// `x: cond`, where the condition is made of x: what it tells then and else, in words.
fn told(
    cond: impl Fn(&mut Tree, ExprId) -> Result<ExprId, TreeError>,
) -> Result<[String; 2], Error> {
    let mut tree = Tree::new();
    let name = tree.name("x\n", NameKind::Param)?;
    let x = tree.push(Expr::reference("x\n"))?;
    let body = cond(&mut tree, x)?;
    let param = Some(name);
    let entry = tree.push(Expr::Lambda {
        param,
        pat: &[],
        body,
    })?;
    let image = tree.encode(entry)?;
    let (resolution, indices) = (image.name_resolution(99)?, image.module_indices()?);
    let told = image.analyze_condition(&resolution, &indices, body, 99)?;
    Ok([told.then_branch, told.else_branch].map(|branch| {
        let words: Vec<_> = branch
            .iter()
            .map(|it| it.display(&image).to_string())
            .collect();
        words.join("; ")
    }))
}

/// `builtins.text x`
fn predicate(text: &str) -> impl Fn(&mut Tree, ExprId) -> Result<ExprId, TreeError> {
    move |tree, arg| {
        let set = tree.push(Expr::reference("builtins"))?;
        let key = tree.push(Expr::string(text))?;
        let fun = tree.push(Expr::Select {
            set,
            attrpath: &[key],
            default_expr: None,
        })?;
        tree.push(Expr::Apply { fun, arg })
    }
}

#[test]
fn each_predicate_has_its_words() -> Result<(), Error> {
    let x = r#""x\0a""#;
    let has_field = told(|tree, set| {
        let key = tree.push(Expr::string("a\"b"))?;
        tree.push(Expr::HasAttr {
            set,
            attrpath: &[key],
        })
    })?;
    let key = r#""a\"b""#;
    assert_eq!(
        has_field,
        [
            format!("{x} has field {key}"),
            format!("{x} lacks field {key}")
        ]
    );
    for (text, words) in [
        ("isAttrs", "set"),
        ("isList", "list"),
        ("isFunction", "function"),
    ] {
        assert_eq!(told(predicate(text))?[0], format!("{x} is {words}"));
    }
    let types = ["isNull", "isBool", "isInt", "isFloat", "isString", "isPath"];
    for (text, words) in types
        .into_iter()
        .zip(["null", "bool", "int", "float", "string", "path"])
    {
        let expected = [format!("{x} is {words}"), format!("{x} is not {words}")];
        assert_eq!(told(predicate(text))?, expected);
    }
    Ok(())
}

/// `x op literal`, or the literal first.
fn compared(
    op: BinOpKind,
    literal: Literal<'static>,
    is_first: bool,
) -> impl Fn(&mut Tree, ExprId) -> Result<ExprId, TreeError> {
    move |tree, x| {
        let literal = tree.push(Expr::Literal(literal))?;
        let (lhs, rhs) = if is_first { (literal, x) } else { (x, literal) };
        tree.push(Expr::BinOp { lhs, rhs, op })
    }
}

#[test]
fn a_number_literal_tells_a_number_where_it_is_equal() -> Result<(), Error> {
    let is_number = r#""x\0a" is number"#.to_string();
    for literal in [Literal::Integer, Literal::Float] {
        for is_first in [false, true] {
            let equal = told(compared(BinOpKind::Equal, literal, is_first))?;
            assert_eq!(equal, [is_number.clone(), String::new()]);
            let unequal = told(compared(BinOpKind::NotEqual, literal, is_first))?;
            assert_eq!(unequal, [String::new(), is_number.clone()]);
            let less = told(compared(BinOpKind::Less, literal, is_first))?;
            assert_eq!(less, [String::new(), String::new()]);
        }
    }
    let path = told(compared(BinOpKind::Equal, Literal::Path, true))?;
    assert_eq!(path, [r#""x\0a" is path"#.to_string(), String::new()]);
    Ok(())
}

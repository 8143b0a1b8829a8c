//! Tables carry their image: those of another are turned back, also of another image of the same tree.

use lang_ast::answer::{ModuleIndices, NameResolution, ResolveResult};
use lang_ast::raw::{self, Analysis, Tables};
use lang_ast::tree::{BinOpKind, BindingValue, Bindings, Expr, ExprId, NameId, NameKind};
use lang_ast::{Error, Image, Tree};

const BUDGET: u32 = 1000;

fn is_foreign<T>(answer: &Result<T, Error>) -> bool {
    matches!(answer, Err(Error::ForeignTable))
}

fn own_tables(
    image: &Image<'_>,
) -> Result<(NameResolution<'static>, ModuleIndices<'static>), Error> {
    Ok((image.name_resolution(BUDGET)?, image.module_indices()?))
}

/// What is asked with two tables: a condition and a walk, each with buffers made and lent.
fn each_call(
    image: &Image<'_>,
    resolution: &NameResolution<'_>,
    indices: &ModuleIndices<'_>,
    condition: ExprId,
) -> [bool; 3] {
    let (mut then_list, mut else_list) = ([0; 64], [0; 64]);
    let lent = image.analyze_condition_in(
        resolution,
        indices,
        condition,
        BUDGET,
        &mut then_list,
        &mut else_list,
    );
    [
        is_foreign(&lent),
        is_foreign(&image.analyze_condition(resolution, indices, condition, BUDGET)),
        is_foreign(&image.name_dependencies(resolution, indices, BUDGET)),
    ]
}

/// `let null = null; in x: x == null`, with the entry at the let and at the function: of the second, `null` is the
/// builtin, of the first a name.
struct TwoEntries {
    images: [Image<'static>; 2],
    condition: ExprId,
    null: ExprId,
}

fn two_entries() -> Result<TwoEntries, Error> {
    let mut tree = Tree::new();
    let x = tree.name("x", NameKind::Param)?;
    let lhs = tree.push(Expr::reference("x"))?;
    let rhs = tree.push(Expr::reference("null"))?;
    let op = BinOpKind::Equal;
    let condition = tree.push(Expr::BinOp { lhs, rhs, op })?;
    let inner = tree.push(Expr::Lambda {
        param: Some(x),
        pat: &[],
        body: condition,
    })?;
    let shadow = tree.name("null", NameKind::LetIn)?;
    let value = tree.push(Expr::reference("null"))?;
    let bindings = Bindings {
        statics: &[(shadow, BindingValue::Expr(value))],
        ..Bindings::default()
    };
    let outer = tree.push(Expr::LetIn {
        bindings,
        body: inner,
    })?;
    Ok(TwoEntries {
        images: [tree.encode(outer)?, tree.encode(inner)?],
        condition,
        null: rhs,
    })
}

#[test]
fn tables_of_another_image_of_the_same_tree_are_refused() -> Result<(), Error> {
    let TwoEntries {
        images: [whole, part],
        condition,
        null,
    } = two_entries()?;
    let (resolution, indices) = own_tables(&whole)?;
    let (parts_resolution, parts_indices) = own_tables(&part)?;
    // Ids are the tree's, and mean the same in both; what they refer to does not.
    assert!(matches!(
        resolution.get(null),
        Some(ResolveResult::Definition(_))
    ));
    assert_eq!(
        parts_resolution.get(null),
        Some(ResolveResult::Builtin("null"))
    );
    assert_eq!(
        each_call(&part, &resolution, &indices, condition),
        [true; 3]
    );
    assert_eq!(
        each_call(&part, &parts_resolution, &indices, condition),
        [true; 3]
    );
    assert_eq!(
        each_call(&part, &resolution, &parts_indices, condition),
        [true; 3]
    );
    assert_eq!(
        each_call(&whole, &parts_resolution, &parts_indices, condition),
        [true; 3]
    );
    assert_eq!(
        each_call(&part, &parts_resolution, &parts_indices, condition),
        [false; 3]
    );
    Ok(())
}

/// The plain call takes any tables that keep their rules, and its answer is then not the image's.
#[test]
fn such_tables_would_give_another_answer() -> Result<(), Error> {
    let TwoEntries {
        images: [whole, part],
        condition,
        ..
    } = two_entries()?;
    let (resolution, indices) = own_tables(&whole)?;
    let tables = Tables {
        resolutions: resolution.as_bytes(),
        bindings: indices.as_bytes(),
    };
    let mut mixed = Analysis::default();
    let answer = raw::analyze_condition(
        part.as_bytes(),
        tables,
        condition.number().into(),
        BUDGET,
        &mut [0; 4],
        &mut [0; 4],
        &mut mixed,
    );
    assert_eq!((answer, mixed.then_count), (Ok(()), 0));
    let (resolution, indices) = own_tables(&part)?;
    let own = part.analyze_condition(&resolution, &indices, condition, BUDGET)?;
    assert_eq!(own.then_branch.len(), 1);
    Ok(())
}

/// `x: y: y == x`, pushed with either side of the `==` first: one tree, whose expressions have other numbers.
fn pushed(sides: [&str; 2]) -> Result<(Image<'static>, [ExprId; 2], NameId), Error> {
    let mut tree = Tree::new();
    let [x, y] = ["x", "y"].map(|text| tree.name(text, NameKind::Param));
    let (x, y) = (x?, y?);
    let [first, second] = sides.map(|text| tree.push(Expr::reference(text)));
    let (first, second) = (first?, second?);
    let (lhs, rhs) = if sides[0] == "y" {
        (first, second)
    } else {
        (second, first)
    };
    let op = BinOpKind::Equal;
    let condition = tree.push(Expr::BinOp { lhs, rhs, op })?;
    let lambda = |param, body| Expr::Lambda {
        param: Some(param),
        pat: &[],
        body,
    };
    let inner = tree.push(lambda(y, condition))?;
    let entry = tree.push(lambda(x, inner))?;
    Ok((tree.encode(entry)?, [lhs, condition], y))
}

#[test]
fn tables_of_the_same_tree_numbered_differently_are_refused() -> Result<(), Error> {
    let (image, [lhs, condition], y) = pushed(["y", "x"])?;
    let (other, [others_lhs, others_condition], others_y) = pushed(["x", "y"])?;
    assert_ne!(image.as_bytes(), other.as_bytes());
    assert_ne!(lhs.number(), others_lhs.number());
    let (resolution, indices) = own_tables(&image)?;
    let (others_resolution, others_indices) = own_tables(&other)?;
    assert_eq!(resolution.get(lhs), Some(ResolveResult::Definition(y)));
    let others = Some(ResolveResult::Definition(others_y));
    assert_eq!(others_resolution.get(others_lhs), others);
    let mixed = each_call(&image, &others_resolution, &others_indices, condition);
    assert_eq!(mixed, [true; 3]);
    let mixed = each_call(&other, &resolution, &indices, others_condition);
    assert_eq!(mixed, [true; 3]);
    // As bytes, the same: each accepted image is one of its own.
    let again = Image::check(image.as_bytes())?;
    assert!(is_foreign(&again.name_dependencies(
        &resolution,
        &indices,
        BUDGET
    )));
    Ok(())
}

#[test]
fn a_clone_and_an_owned_copy_are_the_same_image() -> Result<(), Error> {
    let (image, [_, condition], _) = pushed(["y", "x"])?;
    let bytes = image.as_bytes().to_vec();
    let lent = Image::check(bytes.as_slice())?;
    let (resolution, indices) = own_tables(&lent)?;
    let clone = lent.clone();
    let kept: Image<'static> = lent.into_owned();
    for same in [&clone, &kept] {
        let own = same.expr_id(condition.number());
        let asked = own.map(|own| same.analyze_condition(&resolution, &indices, own, BUDGET));
        assert!(asked.is_some_and(|told| told.is_ok()));
    }
    Ok(())
}

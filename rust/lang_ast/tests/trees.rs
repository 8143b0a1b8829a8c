//! Trees become images that are accepted and mean what was pushed, within the limits of the format.

#![allow(
    clippy::cast_possible_truncation,
    reason = "lengths of buffers that are made"
)]

mod common;

use common::Grower;
use lang_ast::answer::{
    Edge, ModuleIndices, NameResolution, NarrowPredicate, PrimitiveTy, ResolveResult,
};
use lang_ast::image::WalkBuffers;
use lang_ast::tree::{
    BinOpKind, BindingValue, Bindings, Expr, ExprId, NameId, NameKind, Tree, TreeError, UnaryOpKind,
};
use lang_ast::{Error, Image, Refusal, raw};

/// The most expressions of a tree.
const MOST_EXPRS: usize = 16383;

const PRINTED: &[u8] = include_bytes!("../../../examples/printed.image");

/// `x: if x == null then let y = x; in y else x`, with its expressions and names by their numbers.
fn printed() -> Result<(Image<'static>, Vec<ExprId>, [NameId; 2]), Error> {
    let mut tree = Tree::new();
    let x = tree.name("x", NameKind::Param)?;
    let lhs = tree.push(Expr::reference("x"))?;
    let rhs = tree.push(Expr::reference("null"))?;
    let op = BinOpKind::Equal;
    let cond = tree.push(Expr::BinOp { lhs, rhs, op })?;
    let value = tree.push(Expr::reference("x"))?;
    let y = tree.name("y", NameKind::LetIn)?;
    let body = tree.push(Expr::reference("y"))?;
    let bindings = Bindings {
        statics: &[(y, BindingValue::Expr(value))],
        ..Bindings::default()
    };
    let then_body = tree.push(Expr::LetIn { bindings, body })?;
    let else_body = tree.push(Expr::reference("x"))?;
    let guarded = tree.push(Expr::IfThenElse {
        cond,
        then_body,
        else_body,
    })?;
    let entry = tree.push(Expr::Lambda {
        param: Some(x),
        pat: &[],
        body: guarded,
    })?;
    let image = tree.encode(entry)?;
    let exprs = vec![
        lhs, rhs, cond, value, body, then_body, else_body, guarded, entry,
    ];
    Ok((image, exprs, [x, y]))
}

#[test]
fn the_printed_case_has_its_bytes() -> Result<(), Error> {
    let (image, exprs, names) = printed()?;
    assert_eq!(image.as_bytes(), PRINTED);
    let numbers: Vec<u16> = exprs.iter().map(|e| e.number()).collect();
    assert_eq!(numbers, [0, 1, 2, 3, 4, 5, 6, 7, 8]);
    assert_eq!(names.map(NameId::number), [0, 1]);
    assert_eq!(image.levels(), 4);
    Ok(())
}

#[test]
fn the_printed_case_is_answered() -> Result<(), Error> {
    let (image, exprs, [x, y]) = printed()?;
    let resolution = image.name_resolution(9)?;
    let definition = ResolveResult::Definition;
    let expected = [
        (exprs[0], definition(x)),
        (exprs[1], ResolveResult::Builtin("null")),
        (exprs[3], definition(x)),
        (exprs[4], definition(y)),
        (exprs[6], definition(x)),
    ];
    assert_eq!(resolution.iter().collect::<Vec<_>>(), expected);
    assert_eq!(resolution.steps(), 9);
    let indices = image.module_indices()?;
    assert_eq!(indices.iter().collect::<Vec<_>>(), [(y, exprs[3])]);
    let told = image.analyze_condition(&resolution, &indices, exprs[2], 1)?;
    let of = |told: &lang_ast::answer::NarrowBindings<'_>| {
        told.iter()
            .map(|b| (b.name, b.predicate))
            .collect::<Vec<_>>()
    };
    let null = PrimitiveTy::Null;
    assert_eq!(of(&told.then_branch), [(x, NarrowPredicate::IsType(null))]);
    assert_eq!(
        of(&told.else_branch),
        [(x, NarrowPredicate::IsNotType(null))]
    );
    assert_eq!(told.steps, 1);
    Ok(())
}

#[test]
fn lent_buffers_hold_the_same_answers() -> Result<(), Error> {
    let (image, exprs, _) = printed()?;
    let (mut table, mut working) = ([7; 20], [7; 60]);
    let need = image.resolution_need(9)?;
    assert_eq!((need.table_bytes, need.working_bytes), (18, 60));
    assert_eq!(image.resolution_bytes(), 18);
    let resolution = image.name_resolution_in(9, &mut table, &mut working)?;
    assert_eq!(resolution, image.name_resolution(9)?);
    let mut bindings = [7; 5];
    assert_eq!(image.indices_bytes(), 4);
    let indices = image.module_indices_in(&mut bindings)?;
    assert_eq!(indices, image.module_indices()?);
    let (mut then_list, mut else_list) = ([7; 5], [7; 4]);
    assert_eq!(image.list_bytes(exprs[2])?, 4);
    let told = image.analyze_condition_in(
        &resolution,
        &indices,
        exprs[2],
        1,
        &mut then_list,
        &mut else_list,
    )?;
    let own = image.analyze_condition(&resolution, &indices, exprs[2], 1)?;
    assert_eq!(told, own);
    // What stands behind an answer is left as it was.
    let behind = (&table[18..], bindings[4], then_list[4]);
    assert_eq!(behind, (&[7, 7][..], 7, 7));
    Ok(())
}

#[test]
fn what_is_short_is_refused_with_its_reason() -> Result<(), Error> {
    let (image, exprs, _) = printed()?;
    let refusal = |error: Option<Error>| match error {
        Some(Error::Refused(refusal)) => Some(refusal),
        _ => None,
    };
    let over_budget = Some(Refusal::OverBudget);
    let too_short = Some(Refusal::BufferTooShort);
    assert_eq!(refusal(image.name_resolution(8).err()), over_budget);
    let (mut table, mut working) = ([0; 18], [0; 60]);
    for (table, working) in [
        (&mut table[..17], &mut working[..]),
        (&mut [0; 18], &mut [0; 59]),
    ] {
        let answer = image.name_resolution_in(9, table, working);
        assert_eq!(refusal(answer.err()), too_short);
    }
    let short = image.module_indices_in(&mut [0; 3]).err();
    assert_eq!(refusal(short), too_short);
    let (resolution, indices) = (image.name_resolution(9)?, image.module_indices()?);
    let told = image.analyze_condition(&resolution, &indices, exprs[2], 0);
    assert_eq!(refusal(told.err()), over_budget);
    Ok(())
}

#[test]
fn the_printed_case_is_walked() -> Result<(), Error> {
    let (image, exprs, [x, y]) = printed()?;
    let (resolution, indices) = (image.name_resolution(9)?, image.module_indices()?);
    let walk = image.name_dependencies(&resolution, &indices, 10)?;
    let edges: Vec<Edge> = walk.edges().collect();
    assert_eq!(edges, [Edge { from: y, to: x }]);
    let recorded: Vec<_> = walk
        .narrow_scopes()
        .map(|it| (it.binding, it.narrowing.name, it.narrowing.predicate))
        .collect();
    assert_eq!(
        recorded,
        [(y, x, NarrowPredicate::IsType(PrimitiveTy::Null))]
    );
    let bound: Vec<_> = walk.name_to_expr().collect();
    assert_eq!((bound, walk.steps()), (vec![(y, exprs[3])], 10));
    let refused = image.name_dependencies(&resolution, &indices, 9).err();
    assert!(matches!(refused, Some(Error::Refused(Refusal::OverBudget))));
    let (other, ..) = printed()?;
    let foreign = other.name_dependencies(&resolution, &indices, 10).err();
    assert!(matches!(foreign, Some(Error::ForeignTable)));
    Ok(())
}

#[test]
fn the_printed_case_tells_what_its_calls_need() -> Result<(), Error> {
    let (image, ..) = printed()?;
    let need = image.resolution_need(9)?;
    // The root, the function and the let.
    assert_eq!((need.steps, need.scopes, need.bytes()), (9, 3, 18 + 60));
    let over = image.resolution_need(8).err();
    assert!(matches!(over, Some(Error::Refused(Refusal::OverBudget))));
    let (resolution, indices) = (image.name_resolution(9)?, image.module_indices()?);
    let need = image.dependencies_need(&resolution, &indices, 10)?;
    // One Reference in a binding; one binding under one narrowing; two names.
    assert_eq!((need.steps, need.edges, need.edges_bytes), (10, 1, 4));
    assert_eq!((need.narrowings, need.narrowings_bytes), (1, 8));
    assert_eq!((need.most_in_force, need.working_bytes), (1, 4));
    assert_eq!((need.exprs_bytes, need.bytes()), (4, 4 + 8 + 4 + 4));
    let over = image.dependencies_need(&resolution, &indices, 9).err();
    assert!(matches!(over, Some(Error::Refused(Refusal::OverBudget))));
    let (other, ..) = printed()?;
    let foreign = other.dependencies_need(&resolution, &indices, 10).err();
    assert!(matches!(foreign, Some(Error::ForeignTable)));
    Ok(())
}

/// `x: optional (isNull x && isNull x) (let y = x; in {inherit (x) y;})`: two records of the condition are in force.
#[test]
fn a_walk_records_what_the_condition_of_a_call_tells() -> Result<(), Error> {
    let mut tree = Tree::new();
    let x = tree.push(Expr::reference("x"))?;
    let fun = tree.push(Expr::reference("isNull"))?;
    let test = tree.push(Expr::Apply { fun, arg: x })?;
    let condition = tree.push(Expr::BinOp {
        lhs: test,
        rhs: test,
        op: BinOpKind::And,
    })?;
    let fun = tree.push(Expr::reference("optional"))?;
    let fun = tree.push(Expr::Apply {
        fun,
        arg: condition,
    })?;
    let y = tree.name("y", NameKind::LetIn)?;
    let inherited = tree.push(Expr::Missing)?;
    let body = tree.push(Expr::AttrSet {
        is_rec: false,
        bindings: Bindings {
            statics: &[(y, BindingValue::InheritFrom(inherited))],
            inherit_froms: &[x],
            dynamics: &[],
        },
    })?;
    let bindings = Bindings {
        statics: &[(y, BindingValue::Expr(x))],
        ..Bindings::default()
    };
    let arg = tree.push(Expr::LetIn { bindings, body })?;
    let body = tree.push(Expr::Apply { fun, arg })?;
    let param = Some(tree.name("x", NameKind::Param)?);
    let pat = &[];
    let entry = tree.push(Expr::Lambda { param, pat, body })?;
    let image = tree.encode(entry)?;
    let (resolution, indices) = (image.name_resolution(99)?, image.module_indices()?);
    let need = image.dependencies_need(&resolution, &indices, 99)?;
    // One edge from y to x; both records at y; 15 visits and 3 nodes.
    assert_eq!((need.steps, need.edges), (18, 1));
    assert_eq!((need.narrowings, need.most_in_force), (2, 2));
    Ok(())
}

/// The same guard of Nix's own `builtins` and of a set that the program names so.
#[test]
fn a_guard_of_another_builtins_tells_nothing() -> Result<(), Error> {
    let image = Image::check(include_bytes!("../../../examples/own-builtins.image"))?;
    let (resolution, indices) = (image.name_resolution(99)?, image.module_indices()?);
    let walk = image.name_dependencies(&resolution, &indices, 99)?;
    let needs: Vec<_> = walk.edges().map(|edge| edge.from).collect();
    let seen: Vec<NameId> = image.names_by_text("seen").collect();
    let unseen: Vec<NameId> = image.names_by_text("unseen").collect();
    assert_eq!(needs, [seen[0], unseen[0]]);
    let recorded: Vec<_> = walk
        .narrow_scopes()
        .map(|it| (it.binding, it.narrowing.predicate))
        .collect();
    let string = NarrowPredicate::IsType(PrimitiveTy::String);
    assert_eq!(recorded, [(seen[0], string)]);
    Ok(())
}

/// An assert of an arrow, an if with it, and an if with what its negation may be rewritten to.
#[test]
fn an_arrow_tells_something_where_it_is_false_and_nothing_behind_an_assert() -> Result<(), Error> {
    let image = Image::check(include_bytes!("../../../examples/implication.image"))?;
    let (resolution, indices) = (image.name_resolution(99)?, image.module_indices()?);
    let walk = image.name_dependencies(&resolution, &indices, 99)?;
    let named = |text: &str| image.names_by_text(text).next();
    let recorded: Vec<_> = walk
        .narrow_scopes()
        .map(|it| {
            let told = it.narrowing;
            (Some(it.binding), Some(told.name), told.predicate)
        })
        .collect();
    let not_null = NarrowPredicate::IsNotType(PrimitiveTy::Null);
    let no_string = NarrowPredicate::IsNotType(PrimitiveTy::String);
    let both = ["fails", "same"].map(|binding| {
        [("cert", not_null), ("key", no_string)]
            .map(|(name, predicate)| (named(binding), named(name), predicate))
    });
    assert_eq!(recorded, both.concat());
    let bound = ["asserted", "holds", "other"].map(named);
    assert!(bound.iter().all(Option::is_some));
    Ok(())
}

/// `a -> b` and `!a || b` over `x == null` and `y == null`.
#[test]
fn an_arrow_tells_what_the_guard_tells_that_it_may_be_rewritten_to() -> Result<(), Error> {
    let mut tree = Tree::new();
    let [x, y] = ["x", "y"].map(|text| tree.name(text, NameKind::Param));
    let (x, y) = (x?, y?);
    let null = tree.push(Expr::reference("null"))?;
    let mut test = |text: &str| {
        let (rhs, op) = (null, BinOpKind::Equal);
        let lhs = tree.push(Expr::reference(text))?;
        tree.push(Expr::BinOp { lhs, rhs, op })
    };
    let (lhs, rhs) = (test("x")?, test("y")?);
    let op = BinOpKind::Implication;
    let arrow = tree.push(Expr::BinOp { lhs, rhs, op })?;
    let (op, expr) = (UnaryOpKind::Invert, lhs);
    let lhs = tree.push(Expr::UnaryOp { op, expr })?;
    let op = BinOpKind::Or;
    let either = tree.push(Expr::BinOp { lhs, rhs, op })?;
    let mut body = tree.push(Expr::List(&[arrow, either]))?;
    for name in [y, x] {
        let (param, pat) = (Some(name), &[][..]);
        body = tree.push(Expr::Lambda { param, pat, body })?;
    }
    let image = tree.encode(body)?;
    let (resolution, indices) = (image.name_resolution(99)?, image.module_indices()?);
    let [is, is_not] = [NarrowPredicate::IsType, NarrowPredicate::IsNotType];
    for (condition, steps) in [(arrow, 3), (either, 4)] {
        let told = image.analyze_condition(&resolution, &indices, condition, steps)?;
        let lists = [told.then_branch, told.else_branch].map(|list| {
            let told = list.iter().map(|it| (it.name, it.predicate));
            told.collect::<Vec<_>>()
        });
        let both = vec![(x, is(PrimitiveTy::Null)), (y, is_not(PrimitiveTy::Null))];
        assert_eq!(lists, [vec![], both]);
        assert_eq!(told.steps, steps);
    }
    Ok(())
}

/// How many records `x: let inherit (builtins) isNull; in isNull x` has where it is true, with the base that is given.
fn inherited(
    base: impl Fn(&mut Tree, ExprId) -> Result<ExprId, TreeError>,
) -> Result<usize, Error> {
    let mut tree = Tree::new();
    let set = tree.push(Expr::reference("builtins"))?;
    let key = tree.push(Expr::string("isNull"))?;
    let selection = tree.push(Expr::Select {
        set,
        attrpath: &[key],
        default_expr: None,
    })?;
    let fun = tree.push(Expr::reference("isNull"))?;
    let arg = tree.push(Expr::reference("x"))?;
    let condition = tree.push(Expr::Apply { fun, arg })?;
    let is_null = tree.name("isNull", NameKind::LetIn)?;
    let base = base(&mut tree, set)?;
    let bindings = Bindings {
        statics: &[(is_null, BindingValue::InheritFrom(selection))],
        inherit_froms: &[base],
        dynamics: &[],
    };
    let body = tree.push(Expr::LetIn {
        bindings,
        body: condition,
    })?;
    let param = Some(tree.name("x", NameKind::Param)?);
    let pat = &[];
    let entry = tree.push(Expr::Lambda { param, pat, body })?;
    let image = tree.encode(entry)?;
    let (resolution, indices) = (image.name_resolution(99)?, image.module_indices()?);
    let told = image.analyze_condition(&resolution, &indices, condition, 99)?;
    Ok(told.then_branch.iter().count())
}

#[test]
fn an_inherited_predicate_counts_where_the_base_is_what_it_is_selected_from() -> Result<(), Error> {
    assert_eq!(inherited(|_, set| Ok(set))?, 1);
    let another = inherited(|tree, _| tree.push(Expr::reference("builtins")))?;
    assert_eq!(another, 0);
    Ok(())
}

#[test]
fn an_image_from_elsewhere_is_checked() -> Result<(), Error> {
    let image = Image::check(PRINTED)?;
    assert_eq!(image.as_bytes(), PRINTED);
    let refusal = |error: Option<Error>| match error {
        Some(Error::Refused(refusal)) => Some(refusal),
        _ => None,
    };
    let refused = Image::check(&PRINTED[..145]).err();
    assert_eq!(refusal(refused), Some(Refusal::Length));
    let damaged: [(&[u8], Refusal); 3] = [
        (
            include_bytes!("../../../examples/damaged-role.image"),
            Refusal::Item,
        ),
        (
            include_bytes!("../../../examples/damaged.image"),
            Refusal::NotSmaller,
        ),
        (
            include_bytes!("../../../examples/damaged-inherit.image"),
            Refusal::InheritsOther,
        ),
    ];
    for (bytes, expected) in damaged {
        assert_eq!(refusal(Image::check(bytes).err()), Some(expected));
    }
    Ok(())
}

#[test]
fn generated_trees_are_accepted_with_the_buffers_they_need() -> Result<(), Error> {
    let (mut answered, mut kinds) = (0, [false; 17]);
    for seed in 0..3000 {
        let size = 1 + (seed % 90) as usize;
        let grower = Grower::grown(seed, size)?;
        let entry = grower.exprs[size - 1];
        let image = grower.tree.encode(entry)?;
        assert_eq!(raw::check(image.as_bytes()), Ok(()));
        assert_eq!(image.expr_count(), size);
        // An expression starts with the 5 bits of its kind.
        let starts = image.as_bytes()[12..].chunks(8).take(size);
        starts.for_each(|start| kinds[usize::from(start[0] >> 3)] = true);
        match image.name_resolution(100_000) {
            Ok(resolution) => {
                answered += 1;
                exactly_the_working_buffer(&image);
                let indices = image.module_indices()?;
                every_condition(&image, &resolution, &indices, &grower.exprs)?;
                a_walk(&image, &resolution, &indices)?;
            }
            // The buffers are never what is short.
            Err(error) => assert!(matches!(error, Error::Refused(Refusal::OverBudget))),
        }
    }
    assert!(answered > 2500, "{answered}");
    assert_eq!(kinds, [true; 17]);
    Ok(())
}

/// A working buffer of the length that the image says is enough, and a shorter one is not.
fn exactly_the_working_buffer(image: &Image<'_>) {
    let mut table = vec![0; image.resolution_bytes()];
    let need = image.resolution_need(100_000);
    let mut working = vec![0; need.map_or(0, |need| need.working_bytes)];
    let enough = image.name_resolution_in(100_000, &mut table, &mut working);
    assert!(enough.is_ok());
    working.pop();
    let short = image.name_resolution_in(100_000, &mut table, &mut working);
    assert!(matches!(
        short,
        Err(Error::Refused(Refusal::BufferTooShort))
    ));
}

/// Every expression as a condition, with lists that the call makes and with lent ones.
fn every_condition(
    image: &Image<'_>,
    resolution: &NameResolution<'_>,
    indices: &ModuleIndices<'_>,
    exprs: &[ExprId],
) -> Result<(), Error> {
    for &condition in exprs {
        let lists_bytes = image.list_bytes(condition)?;
        let own = image.analyze_condition(resolution, indices, condition, 10_000);
        let Ok(own) = own else {
            assert!(matches!(own, Err(Error::Refused(Refusal::OverBudget))));
            assert!(lists_bytes > 40_000);
            continue;
        };
        assert_eq!(own.steps as usize * 4, lists_bytes);
        let mut lists = [(); 2].map(|()| vec![0; lists_bytes]);
        let [then_list, else_list] = &mut lists;
        let lent = image.analyze_condition_in(
            resolution, indices, condition, own.steps, then_list, else_list,
        )?;
        assert_eq!(lent, own);
    }
    Ok(())
}

/// A walk with buffers that the call makes and with lent ones, which are exactly what the image says that it needs.
fn a_walk(
    image: &Image<'_>,
    resolution: &NameResolution<'_>,
    indices: &ModuleIndices<'_>,
) -> Result<(), Error> {
    let need = image.dependencies_need(resolution, indices, 10_000);
    let own = image.name_dependencies(resolution, indices, 10_000);
    let (Ok(need), Ok(own)) = (&need, &own) else {
        for error in [need.err(), own.err()] {
            assert!(matches!(error, Some(Error::Refused(Refusal::OverBudget))));
        }
        return Ok(());
    };
    assert_eq!(need.steps, own.steps());
    let lengths = [
        need.edges_bytes,
        need.narrowings_bytes,
        need.exprs_bytes,
        need.working_bytes,
    ];
    let lent = |lengths: [usize; 4]| {
        let mut lent = lengths.map(|length| vec![0; length]);
        let [edges, narrowings, exprs, working] = lent.each_mut().map(Vec::as_mut_slice);
        let buffers = WalkBuffers {
            edges,
            narrowings,
            exprs,
            working,
        };
        match image.name_dependencies_in(resolution, indices, own.steps(), buffers) {
            Err(Error::Refused(Refusal::BufferTooShort)) => Ok(false),
            answer => answer.map(|answer| answer == *own),
        }
    };
    assert!(lent(lengths)?);
    for place in (0..4).filter(|&place| lengths[place] > 0) {
        let mut short = lengths;
        short[place] -= 1;
        assert!(!lent(short)?);
    }
    Ok(())
}

/// An expression of which each of 50 levels has the one below twice.
fn doubled(
    tree: &mut Tree,
    twice: fn(ExprId) -> Expr<'static>,
) -> Result<(ExprId, ExprId), TreeError> {
    let leaf = tree.push(Expr::reference("x"))?;
    let mut levels = 0..50;
    let top = levels.try_fold(leaf, |below, _| tree.push(twice(below)))?;
    Ok((leaf, top))
}

#[test]
fn runs_that_sharing_makes_endless_are_refused_without_their_buffers() -> Result<(), Error> {
    let is_over = |error: Option<Error>| matches!(error, Some(Error::Refused(Refusal::OverBudget)));
    let mut tree = Tree::new();
    let (_, entry) = doubled(&mut tree, |e| Expr::With { env: e, body: e })?;
    let image = tree.encode(entry)?;
    assert!(is_over(image.resolution_need(u32::MAX).err()));
    assert!(is_over(image.name_resolution(100_000).err()));

    let mut tree = Tree::new();
    let (entry, condition) = doubled(&mut tree, |e| Expr::BinOp {
        lhs: e,
        rhs: e,
        op: BinOpKind::And,
    })?;
    let image = tree.encode(entry)?;
    let (resolution, indices) = (image.name_resolution(1)?, image.module_indices()?);
    // A record of each step that a budget may have.
    assert_eq!(image.list_bytes(condition)?, 4 * u32::MAX as usize);
    let told = image.analyze_condition(&resolution, &indices, condition, 100_000);
    assert!(is_over(told.err()));
    Ok(())
}

#[test]
fn the_most_expressions_fit_and_one_more_does_not() -> Result<(), Error> {
    let mut tree = Tree::new();
    let mut last = tree.push(Expr::Missing)?;
    for _ in 1..MOST_EXPRS {
        last = tree.push(Expr::List(&[last]))?;
    }
    assert_eq!(tree.push(Expr::Missing), Err(TreeError::TooManyExprs));
    let image = tree.encode(last)?;
    assert_eq!((last.number(), image.levels()), (16382, MOST_EXPRS));
    Ok(())
}

#[test]
fn the_most_names_and_texts_fit_and_one_more_does_not() -> Result<(), Error> {
    let mut tree = Tree::new();
    for number in 0..16383u32 {
        tree.name(number.to_be_bytes(), NameKind::LetIn)?;
    }
    let more = tree.name([0; 4], NameKind::LetIn);
    assert_eq!(more, Err(TreeError::TooManyNames));
    assert_eq!(tree.text("more"), Err(TreeError::TooManyTexts));
    assert_eq!(
        tree.push(Expr::reference("more")),
        Err(TreeError::TooManyTexts)
    );
    // A text that is there already is not one more.
    let entry = tree.push(Expr::Reference(&[0; 4]))?;
    assert_eq!(tree.encode(entry)?.indices_bytes(), 2 * 16383);
    Ok(())
}

#[test]
fn the_most_text_bytes_fit_and_one_more_does_not() -> Result<(), Error> {
    let mut tree = Tree::new();
    let too_long = tree.text([0; 4096]);
    assert_eq!(too_long, Err(TreeError::TextTooLong));
    for number in 0..256u32 {
        let mut text = vec![0; 4095];
        text[..4].copy_from_slice(&number.to_be_bytes());
        tree.text(text)?;
    }
    // 1,048,575 less 256 times 4,095.
    assert_eq!(tree.text([1; 256]), Err(TreeError::TooManyTextBytes));
    tree.text([1; 255])?;
    tree.text("")?;
    assert_eq!(tree.text("a"), Err(TreeError::TooManyTextBytes));
    let entry = tree.push(Expr::reference(""))?;
    let image = tree.encode(entry)?;
    assert_eq!(image.as_bytes().len(), 12 + 8 + 4 * 258 + 1_048_575);
    Ok(())
}

#[test]
fn the_most_items_fit_and_one_more_does_not() -> Result<(), Error> {
    let mut tree = Tree::new();
    let part = tree.push(Expr::Missing)?;
    let parts = vec![part; 1_048_576];
    let too_many = tree.push(Expr::List(&parts));
    assert_eq!(too_many, Err(TreeError::TooManyItems));
    tree.push(Expr::List(&parts[..1_048_570]))?;
    let too_many = tree.push(Expr::List(&[part; 6]));
    assert_eq!(too_many, Err(TreeError::TooManyItems));
    let entry = tree.push(Expr::List(&[part; 5]))?;
    let image = tree.encode(entry)?;
    assert_eq!(image.as_bytes().len(), 12 + 8 * 3 + 4 * 1_048_575);
    Ok(())
}

#[test]
fn what_is_not_taken_changes_nothing() -> Result<(), Error> {
    let (mut tree, mut other) = (Tree::new(), Tree::new());
    let (body, foreign) = (tree.push(Expr::Missing)?, other.push(Expr::Missing)?);
    let name = other.name("x", NameKind::Param)?;
    let unknown = Err(TreeError::UnknownId);
    assert_eq!(tree.push(Expr::List(&[body, foreign])), unknown);
    let (param, pat) = (Some(name), &[][..]);
    assert_eq!(tree.push(Expr::Lambda { param, pat, body }), unknown);
    let own = tree.name("y", NameKind::LetIn)?;
    let inherit = Bindings {
        statics: &[(own, BindingValue::Inherit(body))],
        ..Bindings::default()
    };
    let let_in = Expr::LetIn {
        bindings: inherit,
        body,
    };
    assert_eq!(tree.push(let_in), Err(TreeError::InheritOfNoReference));
    let refused = tree.encode(foreign).err();
    assert!(matches!(refused, Some(Error::Tree(TreeError::UnknownId))));
    let image = tree.encode(body)?;
    assert_eq!(image.as_bytes().len(), 12 + 8 + 4 + 4 + 1);
    Ok(())
}

#[test]
fn ids_and_tables_of_another_tree_are_an_error() -> Result<(), Error> {
    let ((image, exprs, [_, y]), (other, ..)) = (printed()?, printed()?);
    let (resolution, indices) = (image.name_resolution(9)?, image.module_indices()?);
    let (others_resolution, others_indices) = (other.name_resolution(9)?, other.module_indices()?);
    let is_unknown =
        |error: Option<Error>| matches!(error, Some(Error::Tree(TreeError::UnknownId)));
    let condition = exprs[2];
    let told = other.analyze_condition(&others_resolution, &others_indices, condition, 1);
    assert!(is_unknown(told.err()));
    let is_foreign = |error: Option<Error>| matches!(error, Some(Error::ForeignTable));
    let told = image.analyze_condition(&others_resolution, &indices, condition, 1);
    assert!(is_foreign(told.err()));
    let told = image.analyze_condition(&resolution, &others_indices, condition, 1);
    assert!(is_foreign(told.err()));
    assert!(is_unknown(other.list_bytes(condition).err()));
    assert_eq!(others_resolution.get(exprs[0]), None);
    assert_eq!(others_indices.binding_expr(y), None);
    assert_eq!(indices.binding_expr(y), Some(exprs[3]));
    Ok(())
}

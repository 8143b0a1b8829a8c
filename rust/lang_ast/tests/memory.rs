//! What a call takes of the heap: no more than its run needs, and nothing where that is more than is allowed.

use std::alloc::{GlobalAlloc, Layout, System};
use std::cell::Cell;

use lang_ast::answer::{ModuleIndices, NameResolution};
use lang_ast::image::DEFAULT_MEMORY_LIMIT;
use lang_ast::tree::{
    BinOpKind, BindingValue, Bindings, Expr, ExprId, Literal, NameKind, Tree, TreeError,
};
use lang_ast::{Error, Image};

/// The system's memory, with the bytes that each thread has of it counted.
struct Counting;

thread_local! {
    static HELD: Cell<isize> = const { Cell::new(0) };
    static MOST_HELD: Cell<isize> = const { Cell::new(0) };
}

fn count(change: isize) {
    HELD.set(HELD.get() + change);
    MOST_HELD.set(MOST_HELD.get().max(HELD.get()));
}

// Each call is the system's own, with the same arguments.
unsafe impl GlobalAlloc for Counting {
    unsafe fn alloc(&self, layout: Layout) -> *mut u8 {
        count(layout.size().cast_signed());
        unsafe { System.alloc(layout) }
    }

    unsafe fn dealloc(&self, at: *mut u8, layout: Layout) {
        count(-layout.size().cast_signed());
        unsafe { System.dealloc(at, layout) }
    }

    unsafe fn realloc(&self, at: *mut u8, layout: Layout, size: usize) -> *mut u8 {
        count(size.cast_signed() - layout.size().cast_signed());
        unsafe { System.realloc(at, layout, size) }
    }
}

#[global_allocator]
static ALLOCATOR: Counting = Counting;

/// What a call on this thread gives, and the most bytes that it had at once.
fn held<T>(call: impl FnOnce() -> T) -> (T, usize) {
    let before = HELD.get();
    MOST_HELD.set(before);
    let given = call();
    (given, (MOST_HELD.get() - before).unsigned_abs())
}

/// The bytes that would be needed, of a call that is allowed less.
fn needed<T>(answer: &Result<T, Error>, limit: usize) -> Option<usize> {
    match answer {
        Err(Error::OverMemoryLimit { needed, allowed }) if *allowed == limit => Some(*needed),
        _ => None,
    }
}

const BUDGET: u32 = 1_000_000;

fn tables(image: &Image<'_>) -> Result<(NameResolution<'static>, ModuleIndices<'static>), Error> {
    Ok((image.name_resolution(BUDGET)?, image.module_indices()?))
}

/// So many levels over an expression, each of which has the one below twice: a condition of twice as many nodes.
fn doubled(tree: &mut Tree, leaf: ExprId, levels: usize) -> Result<ExprId, TreeError> {
    let twice = |below| Expr::BinOp {
        lhs: below,
        rhs: below,
        op: BinOpKind::And,
    };
    (0..levels).try_fold(leaf, |below, _| tree.push(twice(below)))
}

/// `x: if GUARD then let y = 1; .. in x else x`, with 1,000 bindings under a guard of 2^17 times `x`, which tells nothing.
fn guarded() -> Result<(Image<'static>, ExprId), Error> {
    let mut tree = Tree::new();
    let x = tree.push(Expr::reference("x"))?;
    let cond = doubled(&mut tree, x, 17)?;
    let value = tree.push(Expr::Literal(Literal::Integer))?;
    let y = tree.name("y", NameKind::LetIn)?;
    let statics = vec![(y, BindingValue::Expr(value)); 1000];
    let bindings = Bindings {
        statics: &statics,
        ..Bindings::default()
    };
    let then_body = tree.push(Expr::LetIn { bindings, body: x })?;
    let body = tree.push(Expr::IfThenElse {
        cond,
        then_body,
        else_body: x,
    })?;
    let param = Some(tree.name("x", NameKind::Param)?);
    let pat = &[];
    let entry = tree.push(Expr::Lambda { param, pat, body })?;
    Ok((tree.encode(entry)?, cond))
}

/// A record of each node for each binding would be 2 GB.
#[test]
fn a_guard_that_tells_nothing_needs_almost_nothing() -> Result<(), Error> {
    let (image, guard) = guarded()?;
    assert_eq!(image.as_bytes().len(), 4366);
    assert_eq!(image.memory_limit(), DEFAULT_MEMORY_LIMIT);
    let (resolution, indices) = tables(&image)?;
    let (need, of_need) = held(|| image.dependencies_need(&resolution, &indices, BUDGET));
    let need = need?;
    assert_eq!((need.edges, need.narrowings, need.most_in_force), (0, 0, 0));
    // Two names.
    assert_eq!((need.bytes(), of_need), (4, 0));
    let (walk, of_walk) = held(|| image.name_dependencies(&resolution, &indices, BUDGET));
    assert_eq!((walk?.steps(), of_walk), (need.steps, 4));
    let told = || image.analyze_condition(&resolution, &indices, guard, BUDGET);
    let (told, of_condition) = held(told);
    assert_eq!((told?.steps, of_condition), ((1 << 18) - 1, 0));
    assert_eq!(image.list_bytes(guard)?, 4 * ((1 << 18) - 1));
    Ok(())
}

/// `x: if isNull x && .. then let y = x; in y else x`, with 2^levels times `isNull x`.
fn telling(levels: usize) -> Result<(Image<'static>, ExprId), Error> {
    let mut tree = Tree::new();
    let x = tree.push(Expr::reference("x"))?;
    let fun = tree.push(Expr::reference("isNull"))?;
    let test = tree.push(Expr::Apply { fun, arg: x })?;
    let cond = doubled(&mut tree, test, levels)?;
    let y = tree.name("y", NameKind::LetIn)?;
    let statics = &[(y, BindingValue::Expr(x))];
    let bindings = Bindings {
        statics,
        ..Bindings::default()
    };
    let then_body = tree.push(Expr::LetIn { bindings, body: x })?;
    let body = tree.push(Expr::IfThenElse {
        cond,
        then_body,
        else_body: x,
    })?;
    let param = Some(tree.name("x", NameKind::Param)?);
    let pat = &[];
    let entry = tree.push(Expr::Lambda { param, pat, body })?;
    Ok((tree.encode(entry)?, cond))
}

type Call<'c> = &'c dyn Fn(&Image<'_>) -> Result<(), Error>;

/// With exactly what is needed each call is answered, and takes just that; with less it takes nothing and says so.
#[test]
fn each_call_takes_what_it_needs_or_says_it() -> Result<(), Error> {
    let (image, guard) = telling(3)?;
    let (resolution, indices) = tables(&image)?;
    // 9 expressions and 3 scopes; 2 names; 8 records; an edge, as many narrowings and all of them in force.
    let of_resolution = 2 * 9 + 4 * 9 + 8 * 3;
    let of_walk = 4 + 8 * 8 + 2 * 2 + 4 * 8;
    let (of_indices, of_condition) = (2 * 2, 4 * 8);
    assert_eq!(image.resolution_need(BUDGET)?.bytes(), of_resolution);
    let need = image.dependencies_need(&resolution, &indices, BUDGET)?;
    assert_eq!(need.bytes(), of_walk);
    let calls: [(usize, Call<'_>); 4] = [
        (of_resolution, &|it| it.name_resolution(BUDGET).map(drop)),
        (of_indices, &|it| it.module_indices().map(drop)),
        (of_condition, &|it| {
            let told = it.analyze_condition(&resolution, &indices, guard, BUDGET);
            told.map(drop)
        }),
        (of_walk, &|it| {
            let walk = it.name_dependencies(&resolution, &indices, BUDGET);
            walk.map(drop)
        }),
    ];
    for (need, call) in calls {
        let allowed = image.clone().with_memory_limit(need);
        let (answer, taken) = held(|| call(&allowed));
        assert!(answer.is_ok(), "{answer:?}");
        assert_eq!(taken, need);
        let short = image.clone().with_memory_limit(need - 1);
        let (answer, taken) = held(|| call(&short));
        assert_eq!((needed(&answer, need - 1), taken), (Some(need), 0));
    }
    Ok(())
}

/// A condition of 2^13 records: how much it tells is found by trying, within what is allowed.
#[test]
fn a_condition_is_tried_within_what_is_allowed() -> Result<(), Error> {
    let (image, guard) = telling(13)?;
    let (resolution, indices) = tables(&image)?;
    let (records, nodes) = (1 << 13, (1 << 14) - 1);
    // Two lists of the same length, though only one has records.
    for limit in [8 * records, 8 * nodes, DEFAULT_MEMORY_LIMIT] {
        let image = image.clone().with_memory_limit(limit);
        let (told, taken) = held(|| image.analyze_condition(&resolution, &indices, guard, BUDGET));
        let told = told?;
        let lengths = [told.then_branch.len(), told.else_branch.len()];
        assert_eq!(lengths, [records, 0]);
        assert!(taken <= limit.min(8 * nodes), "{taken} of {limit}");
        drop(told);
    }
    for limit in [0, 8 * 256, 8 * records - 1] {
        let image = image.clone().with_memory_limit(limit);
        let (told, taken) = held(|| image.analyze_condition(&resolution, &indices, guard, BUDGET));
        assert_eq!(needed(&told, limit), Some(8 * nodes));
        assert!(taken <= limit, "{taken} of {limit}");
    }
    Ok(())
}

/// The list that is kept has the memory of its records alone.
#[test]
fn an_answer_keeps_its_records_alone() -> Result<(), Error> {
    let (image, guard) = telling(9)?;
    let (resolution, indices) = tables(&image)?;
    let before = HELD.get();
    let told = image.analyze_condition(&resolution, &indices, guard, BUDGET)?;
    assert_eq!(HELD.get() - before, 4 << 9);
    let walk = image.name_dependencies(&resolution, &indices, BUDGET)?;
    let answer = (4 << 9) + 4 + (8 << 9) + 4;
    assert_eq!(HELD.get() - before, answer);
    assert_eq!((told.then_branch.len(), walk.edges().len()), (1 << 9, 1));
    Ok(())
}

//! Trees of every depth, from threads whose stack is too small for them.

#![allow(
    clippy::cast_possible_truncation,
    reason = "lengths of buffers that are made"
)]

use std::process::Command;
use std::thread;

use lang_ast::answer::ResolveResult;
use lang_ast::tree::{
    BinOpKind, BindingValue, Bindings, Expr, ExprId, NameId, NameKind, TreeError, UnaryOpKind,
};
use lang_ast::{Error, Image, Tree};

/// The most levels over `isNull x`, its two parts and the outermost function: 16,383 expressions.
const MOST_LEVELS: usize = 16383 - 4;

/// What a thread of Rust has.
const USUAL_STACK: usize = 2 << 20;

/// What musl gives a thread.
const SMALL_STACK: usize = 128 << 10;

fn on_stack<T: Send>(bytes: usize, call: impl FnOnce() -> T + Send) -> T {
    let builder = thread::Builder::new().stack_size(bytes);
    thread::scope(|scope| {
        let thread = builder.spawn_scoped(scope, call).expect("a small thread");
        thread.join().expect("no panic")
    })
}

/// An expression around the inner one, whose other parts are the leaf.
type Nesting = fn(&mut Tree, NameId, ExprId, ExprId) -> Result<ExprId, TreeError>;

fn let_in(tree: &mut Tree, name: NameId, inner: ExprId, body: ExprId) -> Result<ExprId, TreeError> {
    let bindings = Bindings {
        statics: &[(name, BindingValue::Expr(inner))],
        ..Bindings::default()
    };
    tree.push(Expr::LetIn { bindings, body })
}

fn rec_set(tree: &mut Tree, _: NameId, inner: ExprId, leaf: ExprId) -> Result<ExprId, TreeError> {
    let bindings = Bindings {
        dynamics: &[(leaf, inner)],
        ..Bindings::default()
    };
    let is_rec = true;
    tree.push(Expr::AttrSet { is_rec, bindings })
}

const NESTINGS: [Nesting; 10] = [
    let_in,
    rec_set,
    |tree, _, fun, arg| tree.push(Expr::Apply { fun, arg }),
    |tree, _, else_body, leaf| {
        tree.push(Expr::IfThenElse {
            cond: leaf,
            then_body: leaf,
            else_body,
        })
    },
    |tree, name, body, _| {
        let param = Some(name);
        tree.push(Expr::Lambda {
            param,
            pat: &[],
            body,
        })
    },
    |tree, _, inner, _| tree.push(Expr::List(&[inner])),
    |tree, _, set, leaf| {
        tree.push(Expr::Select {
            set,
            attrpath: &[leaf],
            default_expr: None,
        })
    },
    |tree, _, body, env| tree.push(Expr::With { env, body }),
    |tree, _, cond, body| tree.push(Expr::Assert { cond, body }),
    |tree, _, inner, _| tree.push(Expr::StringInterpolation(&[inner])),
];

/// A way of nesting conditions, and what a chain of it tells of `x` in each branch, in records.
struct ConditionNesting {
    nesting: Nesting,
    /// What one node of the chain adds to the steps.
    steps: usize,
    counts: fn(usize) -> [usize; 2],
}

const CONDITIONS: [ConditionNesting; 5] = [
    ConditionNesting {
        nesting: |tree, _, expr, _| {
            let op = UnaryOpKind::Invert;
            tree.push(Expr::UnaryOp { op, expr })
        },
        steps: 1,
        counts: |_| [1, 1],
    },
    ConditionNesting {
        nesting: |tree, _, lhs, rhs| {
            let op = BinOpKind::And;
            tree.push(Expr::BinOp { lhs, rhs, op })
        },
        steps: 2,
        counts: |levels| [levels + 1, 0],
    },
    ConditionNesting {
        nesting: |tree, _, rhs, lhs| {
            let op = BinOpKind::Or;
            tree.push(Expr::BinOp { lhs, rhs, op })
        },
        steps: 2,
        counts: |levels| [0, levels + 1],
    },
    ConditionNesting {
        nesting: |tree, _, rhs, lhs| {
            let op = BinOpKind::Implication;
            tree.push(Expr::BinOp { lhs, rhs, op })
        },
        steps: 2,
        counts: |levels| [0, levels + 1],
    },
    ConditionNesting {
        nesting: |tree, _, lhs, rhs| {
            let op = BinOpKind::Implication;
            tree.push(Expr::BinOp { lhs, rhs, op })
        },
        steps: 2,
        // Where an arrow is true nothing is known, so of the left side only the innermost tells something.
        counts: |levels| [0, if levels == 1 { 2 } else { 1 }],
    },
];

/// A chain of so many levels over `isNull x`, in `x: ..`; the leaf's `x` and the outermost of the chain.
struct Chain {
    image: Image<'static>,
    name: NameId,
    leaf: ExprId,
    top: ExprId,
}

fn chain(nesting: Nesting, levels: usize) -> Result<Chain, Error> {
    let mut tree = Tree::new();
    let x = tree.name("x", NameKind::Param)?;
    let bound = tree.name("y", NameKind::LetIn)?;
    let leaf = tree.push(Expr::reference("x"))?;
    let fun = tree.push(Expr::reference("isNull"))?;
    let test = tree.push(Expr::Apply { fun, arg: leaf })?;
    let mut top = test;
    for _ in 0..levels {
        top = nesting(&mut tree, bound, top, test)?;
    }
    let (param, body) = (Some(x), top);
    let entry = tree.push(Expr::Lambda {
        param,
        pat: &[],
        body,
    })?;
    Ok(Chain {
        image: tree.encode(entry)?,
        name: x,
        leaf,
        top,
    })
}

fn leaf_is_resolved(nesting: Nesting, levels: usize) -> Result<(), Error> {
    let chain = chain(nesting, levels)?;
    assert_eq!(chain.image.levels(), levels + 3);
    let resolution = chain.image.name_resolution(u32::MAX)?;
    let definition = ResolveResult::Definition(chain.name);
    assert_eq!(resolution.get(chain.leaf), Some(definition));
    assert!(resolution.steps() as usize >= levels + 4);
    Ok(())
}

fn chain_is_analysed(condition: &ConditionNesting, levels: usize) -> Result<(), Error> {
    let Chain { image, top, .. } = chain(condition.nesting, levels)?;
    assert_eq!(image.condition_levels(), levels + 1);
    let (resolution, indices) = (image.name_resolution(u32::MAX)?, image.module_indices()?);
    let told = image.analyze_condition(&resolution, &indices, top, u32::MAX)?;
    let counts = [told.then_branch.len(), told.else_branch.len()];
    assert_eq!(counts, (condition.counts)(levels));
    assert_eq!(told.steps as usize, condition.steps * levels + 1);
    Ok(())
}

fn chain_is_walked(nesting: Nesting, levels: usize) -> Result<(), Error> {
    let Chain { image, .. } = chain(nesting, levels)?;
    let (resolution, indices) = (image.name_resolution(u32::MAX)?, image.module_indices()?);
    let walk = image.name_dependencies(&resolution, &indices, u32::MAX)?;
    assert!(walk.steps() as usize >= levels + 4);
    Ok(())
}

#[test]
fn the_deepest_trees_are_resolved_from_a_usual_stack() -> Result<(), Error> {
    on_stack(USUAL_STACK, || {
        let mut nestings = NESTINGS.into_iter();
        nestings.try_for_each(|nesting| leaf_is_resolved(nesting, MOST_LEVELS))
    })
}

#[test]
fn the_deepest_conditions_are_analysed_from_a_usual_stack() -> Result<(), Error> {
    on_stack(USUAL_STACK, || {
        let mut conditions = CONDITIONS.iter();
        conditions.try_for_each(|condition| chain_is_analysed(condition, MOST_LEVELS))
    })
}

/// The image's levels say nothing of an expression that the entry does not lead to.
#[test]
fn the_deepest_conditions_need_not_be_reached() -> Result<(), Error> {
    for condition in &CONDITIONS {
        let mut tree = Tree::new();
        let name = tree.name("y", NameKind::LetIn)?;
        let leaf = tree.push(Expr::reference("x"))?;
        let mut top = leaf;
        for _ in 0..MOST_LEVELS {
            top = (condition.nesting)(&mut tree, name, top, leaf)?;
        }
        let image = tree.encode(leaf)?;
        assert_eq!(image.levels(), 1);
        let (resolution, indices) = (image.name_resolution(1)?, image.module_indices()?);
        let told = on_stack(USUAL_STACK, || {
            image.analyze_condition(&resolution, &indices, top, u32::MAX)
        })?;
        assert_eq!(told.steps as usize, condition.steps * MOST_LEVELS + 1);
    }
    Ok(())
}

#[test]
fn the_deepest_trees_are_walked_from_a_usual_stack() -> Result<(), Error> {
    on_stack(USUAL_STACK, || {
        let conditions = CONDITIONS.map(|condition| condition.nesting);
        let mut nestings = NESTINGS.into_iter().chain(conditions);
        nestings.try_for_each(|nesting| chain_is_walked(nesting, MOST_LEVELS))
    })
}

/// The levels on both sides of where a call moves to a thread, from a small stack.
#[test]
fn a_call_in_place_takes_little() -> Result<(), Error> {
    on_stack(SMALL_STACK, || {
        for levels in 1..300 {
            leaf_is_resolved(NESTINGS[levels % NESTINGS.len()], levels)?;
            chain_is_walked(NESTINGS[levels % NESTINGS.len()], levels)?;
            chain_is_analysed(&CONDITIONS[levels % CONDITIONS.len()], levels)?;
        }
        Ok(())
    })
}

/// `[x1 x2 ..]`, of so many expressions with so many texts.
fn flat(exprs: usize, texts: usize) -> Result<Image<'static>, Error> {
    let mut tree = Tree::new();
    let mut parts = Vec::new();
    for number in 1..exprs {
        parts.push(tree.push(Expr::reference(&format!("x{}", number % texts)))?);
    }
    let entry = tree.push(Expr::List(&parts))?;
    tree.encode(entry)
}

/// What a resolution counts and settles stands on the stack too: the sizes on both sides of where it takes more for that.
#[test]
fn a_flat_tree_takes_little_of_the_stack() -> Result<(), Error> {
    on_stack(SMALL_STACK, || {
        for (exprs, texts) in [
            (64, 64),
            (1024, 1024),
            (1025, 9),
            (1025, 1025),
            (16383, 16382),
        ] {
            let image = flat(exprs, texts.min(exprs - 1))?;
            assert_eq!(image.resolution_need(u32::MAX)?.steps as usize, exprs);
            let (resolution, indices) = (image.name_resolution(u32::MAX)?, image.module_indices()?);
            assert_eq!(resolution.steps() as usize, exprs);
            let walk = image.name_dependencies(&resolution, &indices, u32::MAX)?;
            assert_eq!(walk.steps() as usize, exprs);
        }
        Ok(())
    })
}

/// The plain call on the same stack ends its process, which is therefore one of its own.
#[test]
fn the_plain_call_overflows_a_usual_stack() -> Result<(), Error> {
    const VARIABLE: &str = "LANG_AST_TEST_OVERFLOW";
    if std::env::var_os(VARIABLE).is_some() {
        let image = chain(NESTINGS[0], MOST_LEVELS)?.image;
        let mut table = vec![0; image.resolution_bytes()];
        let mut working = vec![0; image.resolution_need(u32::MAX)?.working_bytes];
        let (bytes, budget) = (image.as_bytes(), u32::MAX);
        on_stack(USUAL_STACK, || {
            lang_ast::raw::name_resolution(bytes, budget, &mut table, &mut working, &mut 0)
        })?;
        return Ok(());
    }
    let program = std::env::current_exe().expect("the path of this program");
    let mut again = Command::new(program);
    again.args(["--exact", "the_plain_call_overflows_a_usual_stack"]);
    let output = again.env(VARIABLE, "1").output().expect("a process");
    // Without a code a signal ended it.
    assert_eq!(output.status.code(), None);
    Ok(())
}

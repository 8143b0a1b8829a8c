//! Every generated image to the original's `Module`, and back through the adapter: the image again, up to numbering.
#![cfg(original)]

use std::collections::{BTreeSet, HashMap};

use harness::generate::{
    self, conditions, grow, grow::Texts, guards, modules, shapes, small, walks,
};
use harness::image::{Expr, Item, MOST_NUMBERED, NONE, Name, Tree, detail, kind, role};
use harness::notation::survey_case;
use harness::original::adapter::{ModuleImage, NoImage};
use harness::original::lang_ast::nameres::{
    ModuleScopes, NameResolution, ResolveResult, compute_name_resolution,
};
use harness::original::lang_ast::{self as tix, Module};
use harness::original::module::module_from_tree;
use harness::original::stand_ins::la_arena::Idx;
use harness::random::Random;
use harness::{examples, starred};
use lang_ast::answer;
use lang_ast::tree::TreeError;

/// The same tree with these expressions and names, numbered in this order, and with the texts in use, distinct and in
/// the order of their bytes: whatever does not hang on numbers stays.
fn renumbered(tree: &Tree, exprs: &[u32], names: &[u32]) -> Tree {
    let places = |order: &[u32]| -> HashMap<u32, u32> { order.iter().copied().zip(0..).collect() };
    let (expr_places, name_places) = (places(exprs), places(names));
    let text_of = |text: u32| &tree.texts[text as usize];
    let of_exprs = exprs.iter().map(|&e| tree.exprs[e as usize].text);
    let of_names = names.iter().map(|&n| tree.names[n as usize].text);
    let used = of_exprs.chain(of_names).filter(|&text| text != NONE);
    let texts: Vec<Vec<u8>> = used
        .map(text_of)
        .collect::<BTreeSet<_>>()
        .into_iter()
        .cloned()
        .collect();
    let text_places: HashMap<&[u8], u32> = texts.iter().map(Vec::as_slice).zip(0..).collect();
    let or_none =
        |number: u32, place: &dyn Fn(u32) -> u32| if number == NONE { NONE } else { place(number) };
    let text = |text: u32| or_none(text, &|text| text_places[text_of(text).as_slice()]);
    let item = |item: &Item| Item {
        role: item.role,
        name: or_none(item.name, &|name| name_places[&name]),
        expr: or_none(item.expr, &|expr| expr_places[&expr]),
    };
    let expr = |e: &Expr| Expr {
        text: text(e.text),
        items: e.items.iter().map(item).collect(),
        ..*e
    };
    let name = |name: &Name| Name {
        text: text(name.text),
        kind: name.kind,
    };
    Tree {
        exprs: exprs
            .iter()
            .map(|&e| expr(&tree.exprs[e as usize]))
            .collect(),
        names: names
            .iter()
            .map(|&n| name(&tree.names[n as usize]))
            .collect(),
        entry: expr_places[&tree.entry],
        texts: texts.clone(),
    }
}

/// All expressions and names by their own numbers: only texts are numbered anew.
fn with_own_numbers(tree: &Tree) -> Tree {
    let all = |length: usize| (0..length as u32).collect::<Vec<_>>();
    renumbered(tree, &all(tree.exprs.len()), &all(tree.names.len()))
}

/// Numbered from the tree's shape alone: expressions that the entry leads to when their items are done, names by their
/// first mention in the new order.
fn canonical(tree: &Tree) -> Tree {
    let (mut order, mut seen) = (Vec::new(), vec![false; tree.exprs.len()]);
    let mut steps = vec![(tree.entry, false)];
    while let Some((e, is_done)) = steps.pop() {
        if is_done {
            order.push(e);
        } else if !std::mem::replace(&mut seen[e as usize], true) {
            steps.push((e, true));
            let items = tree.exprs[e as usize].items.iter().rev();
            let parts = items.filter(|item| item.expr != NONE);
            steps.extend(parts.map(|item| (item.expr, false)));
        }
    }
    let (mut names, mut named) = (Vec::new(), vec![false; tree.names.len()]);
    for item in order.iter().flat_map(|&e| &tree.exprs[e as usize].items) {
        if item.name != NONE && !std::mem::replace(&mut named[item.name as usize], true) {
            names.push(item.name);
        }
    }
    renumbered(tree, &order, &names)
}

/// A random order of so many numbers.
fn shuffled(random: &mut Random, length: usize) -> Vec<u32> {
    let mut order: Vec<u32> = (0..length as u32).collect();
    for place in (1..length).rev() {
        order.swap(place, random.below(place + 1));
    }
    order
}

fn is_utf8(tree: &Tree) -> bool {
    tree.texts.iter().all(|text| str::from_utf8(text).is_ok())
}

fn image_of(module: &Module) -> ModuleImage {
    ModuleImage::new(module).expect("a generated tree has an image")
}

fn decoded(adapted: &ModuleImage) -> Tree {
    Tree::decode(adapted.image.as_bytes())
}

struct RoundTrips {
    random: Random,
    trees: usize,
}

impl RoundTrips {
    fn new(seed: u64) -> Self {
        RoundTrips {
            random: Random::new(seed),
            trees: 0,
        }
    }

    fn try_tree(&mut self, tree: &Tree) {
        // The original takes UTF-8 texts only.
        if !is_utf8(tree) {
            return;
        }
        let module = module_from_tree(tree);
        let adapted = image_of(&module);
        // Children come first here, so every expression and name keeps its number.
        assert!(with_own_numbers(&decoded(&adapted)) == with_own_numbers(tree));
        self.try_shuffled(tree);
        self.trees += 1;
    }

    /// A module whose arenas have another order, so that owners stand before their parts.
    fn try_shuffled(&mut self, tree: &Tree) {
        let exprs = shuffled(&mut self.random, tree.exprs.len());
        let names = shuffled(&mut self.random, tree.names.len());
        let module = module_from_tree(&renumbered(tree, &exprs, &names));
        let adapted = image_of(&module);
        let back = decoded(&adapted);
        assert_eq!(back.exprs.len(), tree.exprs.len());
        assert!(canonical(&back) == canonical(tree));
        ids_lead_there_and_back(&module, &adapted);
    }
}

fn ids_lead_there_and_back(module: &Module, adapted: &ModuleImage) {
    for (expr, _) in module.exprs() {
        let own = adapted.expr(expr).and_then(|own| adapted.module_expr(own));
        assert_eq!(own, Some(expr));
    }
    for (name, _) in module.names() {
        let own = adapted.name(name).and_then(|own| adapted.module_name(own));
        assert_eq!(own, Some(name));
    }
}

#[test]
fn trees_of_all_shapes_come_back() {
    let mut trips = RoundTrips::new(31);
    for _ in 0..3000 {
        let tree = generate::tree(&mut trips.random, Texts::Utf8);
        trips.try_tree(&tree);
    }
    assert_eq!(trips.trees, 3000);
}

#[test]
fn trees_of_each_generator_come_back() {
    let mut trips = RoundTrips::new(32);
    for round in 0..300 {
        let random = &mut trips.random;
        let size = random.between(1, 120);
        let trees = [
            conditions::tree(random),
            walks::tree(random),
            guards::tree(random, size + 1),
            modules::tree(random, size + 3, 1 + size / 10),
            modules::nested(round % 20),
            modules::wide(round),
            grow::tree(random, size, Texts::Utf8),
            shapes::wide(random, size),
            shapes::wide_pattern(size),
            shapes::long_texts(1 + round % 9),
            shapes::guard_chain(round % 40),
            shapes::conditional_calls(size + 20),
            shapes::doubling(round % 60),
        ];
        trees.iter().for_each(|tree| trips.try_tree(tree));
    }
    assert_eq!(trips.trees, 300 * 13);
}

#[test]
fn nested_and_largest_trees_come_back() {
    let mut trips = RoundTrips::new(33);
    for nesting in &shapes::NESTINGS {
        trips.try_tree(&nesting.chain(60));
        trips.try_tree(&nesting.chain(MOST_NUMBERED));
    }
    for nesting in &shapes::CONDITION_NESTINGS {
        trips.try_tree(&shapes::condition_chain(nesting, 500));
        trips.try_tree(&shapes::guarded_by_chain(nesting, 500));
    }
    for guard in &shapes::GUARDS {
        trips.try_tree(&guard.chain(500));
    }
    trips.try_tree(&shapes::largest());
    assert_eq!(trips.trees, 2 * 37 + 2 * 7 + 4 + 1);
}

#[test]
fn small_and_written_trees_come_back() {
    let mut trips = RoundTrips::new(34);
    trips.try_tree(&small::missing());
    trips.try_tree(&survey_case());
    for kind in 0..kind::COUNT {
        trips.try_tree(&every_item(kind));
    }
    starred::cases()
        .iter()
        .for_each(|case| trips.try_tree(&case.tree));
    let images = examples::all()
        .into_iter()
        .flat_map(|example| example.files());
    for (name, image) in images.filter(|(name, _)| name.ends_with(".image")) {
        if harness::port::check(&image) == 0 {
            trips.try_tree(&Tree::decode(&image));
        } else {
            assert!(name.starts_with("damaged"), "{name}");
        }
    }
    assert!(trips.trees > 40, "{}", trips.trees);
}

/// An expression of a kind with an item of each role that it may have.
fn every_item(kind: u32) -> Tree {
    let roles: &[u32] = match kind {
        kind::MISSING | kind::LITERAL | kind::REFERENCE => &[],
        kind::UNARY_OP => &[role::CHILD],
        kind::IF_THEN_ELSE => &[role::CHILD; 3],
        kind::LAMBDA => &[role::PARAMETER, role::PATTERN_FIELD, role::CHILD],
        kind::SELECT => &[role::CHILD, role::PATH_KEY, role::PATH_KEY, role::DEFAULT],
        kind::HAS_ATTR => &[role::CHILD, role::PATH_KEY],
        kind::LET_IN => &[
            role::STATIC,
            role::INHERIT,
            role::INHERIT_FROM,
            role::INHERIT_BASE,
            role::DYNAMIC_KEY,
            role::DYNAMIC_VALUE,
            role::CHILD,
        ],
        kind::ATTR_SET => &[
            role::INHERIT_FROM,
            role::STATIC,
            role::INHERIT,
            role::INHERIT_BASE,
            role::DYNAMIC_KEY,
            role::DYNAMIC_VALUE,
        ],
        _ => &[role::CHILD; 2],
    };
    small::above_leaves(kind, small::right_items(roles))
}

/// The most steps of a run that is made here.
const MOST_STEPS: u64 = 100_000;

/// What the original says of an expression of the module, and what the image's resolution says of the same.
fn same_resolution(
    adapted: &ModuleImage,
    original: &NameResolution,
    expr: tix::ExprId,
    own: &answer::NameResolution<'_>,
) {
    let result = adapted.expr(expr).and_then(|expr| own.get(expr));
    match (original.get(expr), result) {
        (None, None) => {}
        (Some(ResolveResult::Definition(name)), Some(answer::ResolveResult::Definition(own))) => {
            assert_eq!(adapted.module_name(own), Some(*name));
        }
        (Some(ResolveResult::Builtin(name)), Some(answer::ResolveResult::Builtin(own))) => {
            assert_eq!(own, *name);
        }
        (Some(ResolveResult::WithExprs(with, _)), Some(answer::ResolveResult::With(own))) => {
            assert_eq!(adapted.module_expr(own), Some(*with));
        }
        (original, own) => panic!("{original:?} and {own:?}"),
    }
}

/// Asked through the adapter, names of a module in any order refer to what the original says.
#[test]
fn answers_come_back_by_the_modules_ids() {
    let (mut random, mut resolved) = (Random::new(35), 0);
    for _ in 0..1500 {
        let tree = generate::tree(&mut random, Texts::Utf8);
        if tree.visits()[tree.entry as usize] > MOST_STEPS || tree.exprs.len() > 3000 {
            continue;
        }
        let exprs = shuffled(&mut random, tree.exprs.len());
        let names = shuffled(&mut random, tree.names.len());
        let module = module_from_tree(&renumbered(&tree, &exprs, &names));
        let original = compute_name_resolution(&module, &ModuleScopes::new(&module));
        let adapted = image_of(&module);
        let own = adapted.image.name_resolution(MOST_STEPS as u32);
        let own = own.expect("the budget is enough");
        for (expr, _) in module.exprs() {
            same_resolution(&adapted, &original, expr, &own);
        }
        resolved += own.iter().len();
    }
    assert!(resolved > 10_000, "{resolved}");
}

#[test]
fn what_has_no_image_is_an_error() {
    // A list that has itself.
    let list = Expr::new(kind::LIST, vec![Item::child(1), Item::child(0)]);
    let cyclic = Tree {
        exprs: vec![list, Expr::new(kind::MISSING, vec![])],
        ..Tree::default()
    };
    let refused = ModuleImage::new(&module_from_tree(&cyclic)).err();
    let is_entry = |expr: tix::ExprId| expr == Idx::from_raw(0);
    assert!(matches!(refused, Some(NoImage::Cycle(expr)) if is_entry(expr)));
    // An Inherit of something else than a Reference.
    let inherit = Item {
        role: role::INHERIT,
        name: 0,
        expr: 0,
    };
    let set = Expr::with_detail(kind::ATTR_SET, detail::PLAIN, vec![inherit]);
    let inherits = Tree {
        exprs: vec![Expr::new(kind::MISSING, vec![]), set],
        names: vec![Name { text: 0, kind: 1 }],
        texts: vec![b"x".to_vec()],
        entry: 1,
    };
    let refused = ModuleImage::new(&module_from_tree(&inherits)).err();
    let no_reference = TreeError::InheritOfNoReference;
    assert!(
        matches!(refused, Some(NoImage::Error(lang_ast::Error::Tree(error))) if error == no_reference)
    );
    // One expression too many.
    let missing = Expr::new(kind::MISSING, vec![]);
    let many = Tree {
        exprs: vec![missing; MOST_NUMBERED + 1],
        ..Tree::default()
    };
    let refused = ModuleImage::new(&module_from_tree(&many)).err();
    let too_many = TreeError::TooManyExprs;
    assert!(
        matches!(refused, Some(NoImage::Error(lang_ast::Error::Tree(error))) if error == too_many)
    );
}

//! Hand-written trees of the list: every kind, every role and every form of guard.

use std::rc::Rc;

use crate::generate::small;
use crate::generate::words::{CONDITIONALS, GLOBALS, PREDICATES};
use crate::image::{Tree, detail};
use crate::notation::*;

/// A condition that speaks of x and y, and what is bound around it.
pub struct Form {
    around: Option<Bindings>,
    condition: Node,
}

impl Form {
    /// `x: y: body`, with the bindings around the body.
    fn below(&self, body: Node) -> Tree {
        let bound = match &self.around {
            Some(bindings) => let_in(bindings.clone(), body),
            None => body,
        };
        tree(&lambda("x", lambda("y", bound)))
    }

    /// The tree with the condition alone, and the condition's number.
    pub fn asked(&self) -> (Tree, u32) {
        let tree = self.below(Rc::clone(&self.condition));
        let condition = tree.entry - 2 - u32::from(self.around.is_some());
        (tree, condition)
    }

    /// The tree in which the condition guards a binding in each branch.
    pub fn branches(&self) -> Tree {
        let condition = Rc::clone(&self.condition);
        self.below(if_(condition, bound("z"), bound("w")))
    }
}

/// `let name = x; in name`.
fn bound(name: &str) -> Node {
    let_(&[(name, var("x"))], var(name))
}

/// Every form of a condition.
pub fn forms() -> Vec<Form> {
    let plain = comparisons()
        .into_iter()
        .chain(field_tests())
        .chain(operators())
        .chain(predicates())
        .chain(look_alikes());
    let plain = plain.map(|condition| Form {
        around: None,
        condition,
    });
    plain.chain(aliases()).chain(arrows()).collect()
}

/// With each literal and each keyword, equal and unequal, the name on each side.
fn comparisons() -> Vec<Node> {
    let literals = [
        null(),
        var("true"),
        var("false"),
        int(),
        float(),
        string("a"),
        path(),
        uri(),
    ];
    let mut comparisons = Vec::new();
    for literal in &literals {
        for compare in [eq, ne] {
            comparisons.push(compare(var("x"), Rc::clone(literal)));
            comparisons.push(compare(Rc::clone(literal), var("x")));
        }
    }
    comparisons
}

fn field_tests() -> Vec<Node> {
    vec![
        has_attr(var("x"), &["f"]),
        has_attr(var("x"), &["a", "b"]),
        has_attr(var("x"), &[]),
        has_attr_by(var("x"), &[string_interpolation(&[var("y")])]),
        has_attr(var("lib"), &["f"]),
        apply2(select(var("builtins"), &["hasAttr"]), string("f"), var("x")),
        apply2(select(var("builtins"), &["hasAttr"]), var("y"), var("x")),
        apply2(select(var("lib"), &["hasAttr"]), string("f"), var("x")),
        apply2(var("hasAttr"), string("f"), var("x")),
    ]
}

fn operators() -> Vec<Node> {
    let is_null = || eq(var("x"), null());
    let has = || has_attr(var("y"), &["f"]);
    vec![
        not(is_null()),
        not(not(has())),
        not(has_attr(var("x"), &["f"])),
        and(is_null(), has()),
        or(is_null(), has()),
        or(is_null(), is_null()),
        not(and(is_null(), has())),
        not(or(is_null(), has())),
        and(not(is_null()), or(has(), is_null())),
        or(and(is_null(), has()), not(has())),
        implies(is_null(), has()),
        not(eq(var("x"), int())),
        and(
            eq(var("x"), int()),
            apply(select(var("builtins"), &["isInt"]), var("x")),
        ),
        or(ne(float(), var("x")), ne(var("y"), int())),
        and(
            apply(var("isNull"), var("x")),
            apply(select(var("builtins"), &["isList"]), var("y")),
        ),
    ]
}

/// Each predicate by itself, of `builtins`, of another set, and at the end of a longer path.
fn predicates() -> Vec<Node> {
    let spellings = PREDICATES.iter().flat_map(|&word| {
        [
            var(word),
            select(var("builtins"), &[word]),
            select(var("lib"), &[word]),
            select(var("lib"), &["types", word]),
        ]
    });
    spellings.map(|called| apply(called, var("x"))).collect()
}

/// What nearly is a test, and tells nothing or something else.
fn look_alikes() -> Vec<Node> {
    let x = || var("x");
    vec![
        x(),
        eq(x(), var("y")),
        eq(null(), null()),
        bin_op(detail::LESS, x(), int()),
        negate(x()),
        apply(var("isNullx"), x()),
        apply(var("isNull"), int()),
        apply(select(var("builtins"), &["types", "isNull"]), x()),
        apply(
            select_by(var("builtins"), &[string("isNull")], Some(var("y"))),
            x(),
        ),
        apply(select_by(var("lib"), &[var("isNull")], None), x()),
    ]
}

/// Names around the condition: predicates under their own name and under others, and shadowed words.
fn aliases() -> Vec<Form> {
    let form = |around: Bindings, condition: Node| Form {
        around: Some(around),
        condition,
    };
    let bind = |name: &str, value: Node| Bindings::new().bind(name, &value);
    let of_builtins = |word: &str| select(var("builtins"), &[word]);
    let mut forms: Vec<Form> = PREDICATES
        .iter()
        .map(|&word| form(bind(word, of_builtins(word)), apply(var(word), var("x"))))
        .collect();
    let has = || apply2(var("hasAttr"), string("f"), var("x"));
    let inherited = Bindings::new().inherit_from(var("builtins"), &["hasAttr"]);
    // No visit resolves the `builtins` of it.
    let alone = Bindings::new().inherit_without_base("isNull", &of_builtins("isNull"));
    let is_null = || apply(var("isNull"), var("x"));
    forms.extend([
        form(bind("hasAttr", of_builtins("hasAttr")), has()),
        form(inherited, has()),
        form(bind("isNull", of_builtins("isString")), is_null()),
        form(bind("isNull", select(var("lib"), &["isNull"])), is_null()),
        form(bind("isNull", int()), is_null()),
        form(bind("null", int()), eq(var("x"), null())),
        form(
            bind("builtins", int()),
            apply(of_builtins("isNull"), var("x")),
        ),
        form(alone, is_null()),
    ]);
    forms
}

/// Besides the arrow among the operators: it is negated, is a side of another, and is written out, negated and not.
fn arrows() -> Vec<Form> {
    let is_null = || eq(var("x"), null());
    let has = || has_attr(var("y"), &["f"]);
    let conditions = [
        not(implies(is_null(), has())),
        implies(has(), implies(is_null(), is_null())),
        or(not(is_null()), has()),
        and(is_null(), not(has())),
    ];
    let form = |condition| Form {
        around: None,
        condition,
    };
    conditions.map(form).into()
}

/// An assert of an arrow, and a conditional call with one that is negated.
pub fn arrow_guards() -> Vec<Tree> {
    let arrow = || implies(eq(var("x"), null()), has_attr(var("y"), &["f"]));
    let called = select(var("lib"), &["mkIf"]);
    let guards = [
        assert_(arrow(), bound("z")),
        apply2(called, not(arrow()), bound("z")),
    ];
    let below = |guard| tree(&lambda("x", lambda("y", guard)));
    guards.map(below).into()
}

/// Each conditional function by itself, of a set, at the end of a longer path, and with a default, which it does not mind.
pub fn conditional_calls() -> Vec<Tree> {
    let spellings = CONDITIONALS.iter().flat_map(|&word| {
        [
            var(word),
            select(var("lib"), &[word]),
            select(var("lib"), &["x", word]),
            select_by(var("lib"), &[string(word)], Some(int())),
        ]
    });
    let call = |called| apply2(called, eq(var("x"), null()), bound("z"));
    spellings
        .map(|called| tree(&lambda("x", call(called))))
        .collect()
}

/// Trees of every kind with every role.
pub fn trees() -> Vec<Tree> {
    let nodes = [everything(), scopes(), inherited(), shared(), narrowed()];
    let nodes = nodes.iter().map(tree);
    nodes.chain([small::missing(), survey_case()]).collect()
}

/// `{ a, b ? 1, .. }@x: with x; assert a == null; let .. in [ .. ]`, with a field that lacks its name.
fn everything() -> Node {
    let plain = set(Bindings::values(&[("e", int())])
        .inherit("a")
        .dynamic(var("b"), float()));
    let bindings = Bindings::values(&[("y", plain)])
        .inherit("b")
        .inherit_from(var("x"), &["c", "d"])
        .dynamic(string("k"), path());
    let elements = [
        missing(),
        negate(uri()),
        string_interpolation(&[var("a"), var("c")]),
        path_interpolation(&[var("d")]),
        select_by(var("x"), &[string("k")], Some(var("unbound"))),
        if_(
            has_attr(var("x"), &["k"]),
            var("y"),
            apply(var("map"), var("b")),
        ),
    ];
    let body = let_in(bindings, list(&elements));
    let asserted = assert_(eq(var("a"), null()), body);
    let fields = [
        (Some("a"), None),
        (Some("b"), Some(int())),
        (None, None),
        (None, Some(var("a"))),
    ];
    lambda_pattern(Some("x"), &fields, with_(var("x"), asserted))
}

/// Names that are shadowed, bound twice, found in a With, or not found because a plain set defines nothing.
fn scopes() -> Node {
    let twice = let_(&[("x", int()), ("x", var("x"))], var("x"));
    let plain = set(Bindings::values(&[("p", int()), ("q", var("p"))]));
    let rec_ = rec_set(Bindings::values(&[("p", var("q")), ("q", var("map"))]));
    let withs = with_(
        var("x"),
        with_(var("p"), list(&[var("p"), var("null"), var("x")])),
    );
    let shadowed = lambda("null", list(&[var("null"), var("toString")]));
    lambda("x", list(&[twice, plain, rec_, withs, shadowed]))
}

/// Inherited names in a let, in a set that is rec and in one that is not.
fn inherited() -> Node {
    let mixed = |name: &str| {
        Bindings::new()
            .inherit("a")
            .inherit_from(var("a"), &[name])
            .bind("c", &var(name))
            .dynamic(var("a"), var(name))
    };
    let sets = list(&[set(mixed("b")), rec_set(mixed("b"))]);
    lambda("a", let_in(mixed("b"), sets))
}

/// One Reference in several scopes, which keeps its last, and a With that is entered twice.
fn shared() -> Node {
    let (x, with) = (var("x"), with_(var("y"), var("z")));
    let here = |name: &str| lambda(name, list(&[Rc::clone(&x), Rc::clone(&with)]));
    list(&[here("x"), here("y"), Rc::clone(&x), here("z")])
}

/// Guards within guards, over bindings of every role.
fn narrowed() -> Node {
    let bindings = |name: &str| {
        Bindings::values(&[(name, var("x"))])
            .inherit("y")
            .inherit_from(var("x"), &["b"])
            .dynamic(var("y"), bound("z"))
    };
    let checked = assert_(apply(var("isNull"), var("y")), rec_set(bindings("c")));
    let optional = apply2(
        select(var("lib"), &["optional"]),
        ne(var("y"), int()),
        set(bindings("d")),
    );
    let inner = if_(not(has_attr(var("x"), &["f"])), checked, optional);
    lambda(
        "x",
        lambda("y", if_(ne(var("x"), null()), inner, bound("w"))),
    )
}

/// A let of so many names, of which the first, one in the middle and the last are referred to.
pub fn wide(names: usize) -> Tree {
    let name = |place: usize| format!("n{place}");
    let value = int();
    let bind = |bindings: Bindings, place| bindings.bind(&name(place), &value);
    let bindings = (0..names).fold(Bindings::new(), bind);
    let references = [0, names / 2, names - 1, names].map(|place| var(&name(place)));
    tree(&let_in(bindings, list(&references)))
}

/// A Reference to each global builtin.
pub fn builtins() -> Tree {
    tree(&list(&GLOBALS.map(var)))
}

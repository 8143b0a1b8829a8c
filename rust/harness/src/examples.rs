//! The examples of the repository: their trees, and the files that are written from them.

use crate::image::{Expr, Item, NONE, Name, Tree, detail, kind, name_kind, role};
use crate::nix_text::{expr_text, nix_text};
use crate::notation::*;
use crate::survey_text::survey_text;

/// So many inherits within each other double the walk beyond the budget of `survey`.
const DOUBLINGS: usize = 14;
/// The longest line of a list of expressions.
const LONGEST_LINE: usize = 76;

pub struct Example {
    pub name: &'static str,
    tree: Tree,
    image: Vec<u8>,
}

fn example(name: &'static str, tree: Tree) -> Example {
    let image = tree.encode();
    Example { name, tree, image }
}

pub fn all() -> Vec<Example> {
    let written: [(&'static str, Node); 16] = [
        ("unguarded", unguarded()),
        ("alias", alias()),
        ("own-builtins", own_builtins()),
        ("with", withs()),
        ("with-builtin", with_builtin()),
        ("half-written", half_written()),
        ("assert", asserted()),
        ("optional", optional()),
        ("has-field", has_field()),
        ("and-or", and_or()),
        ("implication", implication()),
        ("literals", literals()),
        ("numbers", numbers()),
        ("sets", sets()),
        ("nest", nest()),
        ("refused-walk", inherits(DOUBLINGS)),
    ];
    let mut examples = vec![
        example("printed", survey_case()),
        example("guarded", guarded()),
    ];
    examples.extend(written.map(|(name, root)| example(name, tree(&root))));
    examples.extend(DAMAGED.map(|(name, _, change)| damaged(name, change)));
    examples
}

impl Example {
    /// The example's files by their names.
    pub fn files(&self) -> [(String, Vec<u8>); 3] {
        let named = |ending: &str| format!("{}.{ending}", self.name);
        let survey = survey_text(&self.image);
        [
            (named("nix"), self.source().into_bytes()),
            (named("image"), self.image.clone()),
            (named("survey"), survey.into_bytes()),
        ]
    }

    /// The source, and behind it what the numbers of the output mean.
    fn source(&self) -> String {
        let tree = &self.tree;
        let text = |text: u32| String::from_utf8_lossy(&tree.texts[text as usize]);
        let names = tree.names.iter().map(|name| text(name.text).into_owned());
        let texts = (0..tree.texts.len() as u32).map(|t| format!("\"{}\"", text(t)));
        let mut lines = vec![nix_text(tree), String::new()];
        lines.push(format!("# names: {}", numbered(names)));
        lines.push(format!("# texts: {}", numbered(texts)));
        lines.push("# expressions that the output can name:".to_string());
        let exprs = (0..tree.exprs.len() as u32).filter(|&e| is_nameable(tree, e));
        lines.extend(exprs.map(|e| cut(format!("# {e:3}  {}", expr_text(tree, e)))));
        lines.join("\n") + "\n"
    }
}

fn numbered(texts: impl Iterator<Item = String>) -> String {
    let texts = texts
        .enumerate()
        .map(|(number, text)| format!("{number} {text}"));
    texts.collect::<Vec<String>>().join(", ")
}

/// References, Withs, and what a binding gives to its name.
fn is_nameable(tree: &Tree, e: u32) -> bool {
    const BINDING: [u32; 3] = [role::STATIC, role::INHERIT, role::INHERIT_FROM];
    let binds = |item: &Item| item.expr == e && BINDING.contains(&item.role);
    let kind = tree.exprs[e as usize].kind;
    [kind::REFERENCE, kind::WITH].contains(&kind)
        || tree.exprs.iter().any(|owner| owner.items.iter().any(binds))
}

fn cut(line: String) -> String {
    match line.char_indices().nth(LONGEST_LINE) {
        Some((end, _)) => format!("{} ..", line[..end].trim_end()),
        None => line,
    }
}

/// `let name = value; in name`: a binding is where a walk records what is in force.
fn bound(name: &str, value: Node) -> Node {
    let_(&[(name, value)], var(name))
}

fn is_null(name: &str) -> Node {
    eq(var(name), null())
}

fn is_given(name: &str) -> Node {
    ne(var(name), null())
}

fn builtin(name: &str, argument: &str) -> Node {
    apply(select(var("builtins"), &[name]), var(argument))
}

fn lambdas(parameters: &[&str], body: Node) -> Node {
    let inner_first = parameters.iter().rev();
    inner_first.fold(body, |body, parameter| lambda(parameter, body))
}

/// The tree of the definitions' witness, with the numbers that it has there.
fn guarded() -> Tree {
    let item = |role, name, expr| Item { role, name, expr };
    let bound = vec![item(role::STATIC, 1, 3), Item::child(16)];
    let function = vec![item(role::PARAMETER, 0, NONE), Item::child(17)];
    let mut exprs = guarded_conditions();
    exprs.push(of_children(kind::IF_THEN_ELSE, 0, &[15, 0, 0]));
    exprs.push(Expr::new(kind::LET_IN, bound));
    exprs.push(Expr::new(kind::LAMBDA, function));
    let names = [(0, name_kind::PARAM), (1, name_kind::LET_IN)];
    let texts = ["x", "isNull", "builtins", "hasAttr", "f", "null"];
    Tree {
        exprs,
        names: names.map(|(text, kind)| Name { text, kind }).to_vec(),
        texts: texts.map(|text| text.as_bytes().to_vec()).to_vec(),
        entry: 18,
    }
}

fn guarded_conditions() -> Vec<Expr> {
    let key_of_builtins = |key| {
        let items = vec![Item::child(1), Item::of(role::PATH_KEY, key)];
        Expr::new(kind::SELECT, items)
    };
    vec![
        Expr::reference(0),
        Expr::reference(2),
        Expr::string(1),
        key_of_builtins(2),
        Expr::reference(1),
        of_children(kind::APPLY, 0, &[4, 0]),
        Expr::string(3),
        key_of_builtins(6),
        Expr::string(4),
        of_children(kind::APPLY, 0, &[7, 8]),
        of_children(kind::APPLY, 0, &[9, 0]),
        of_children(kind::UNARY_OP, detail::INVERT, &[10]),
        of_children(kind::BIN_OP, detail::AND, &[5, 11]),
        Expr::reference(5),
        of_children(kind::BIN_OP, detail::EQUAL, &[0, 13]),
        of_children(kind::BIN_OP, detail::AND, &[12, 14]),
    ]
}

fn of_children(kind: u32, detail: u32, children: &[u32]) -> Expr {
    let items = children.iter().map(|&e| Item::child(e));
    Expr::with_detail(kind, detail, items.collect())
}

fn unguarded() -> Node {
    let checked = if_(
        is_null("limit"),
        var("fallback"),
        bound("safe", var("limit")),
    );
    let unchecked = bound("risky", var("limit"));
    let fields = [(Some("limit"), Some(null())), (Some("fallback"), None)];
    let values = [("checked", checked), ("unchecked", unchecked)];
    lambda_pattern(None, &fields, set(Bindings::values(&values)))
}

fn alias() -> Node {
    let test = |predicate: &str, name: &str| {
        let condition = apply(var(predicate), var("x"));
        if_(condition, bound(name, var("x")), int())
    };
    let p = select(var("builtins"), &["isNull"]);
    let bindings = Bindings::new()
        .inherit_from(var("builtins"), &["isString"])
        .bind("p", &p);
    let tests = list(&[test("isString", "seen"), test("p", "unseen")]);
    let_in(bindings, lambda("x", tests))
}

/// One guard, of Nix's own `builtins` and of a set that has its name.
fn own_builtins() -> Node {
    let guarded = |name: &str| {
        let seen = bound(name, var("x"));
        if_(builtin("isString", "x"), seen, int())
    };
    let is_string = lambda("q", var("true"));
    let own = set(Bindings::values(&[("isString", is_string)]));
    let own = let_(&[("builtins", own)], guarded("unseen"));
    lambda("x", list(&[guarded("seen"), own]))
}

fn withs() -> Node {
    let body = let_(
        &[("chosen", var("tool"))],
        list(&[var("chosen"), var("lib")]),
    );
    let scopes = with_(var("lib"), with_(var("pkgs"), body));
    lambdas(&["lib", "pkgs"], scopes)
}

fn with_builtin() -> Node {
    let values = [("map", int()), ("other", int())];
    let env = set(Bindings::values(&values));
    with_(env, list(&[var("map"), var("other")]))
}

fn half_written() -> Node {
    let unfinished = select_by(var("x"), &[], None);
    let values = [("y", unfinished), ("z", missing())];
    let body = let_(&values, list(&[var("y"), missing()]));
    lambda("x", if_(is_null("x"), missing(), body))
}

fn asserted() -> Node {
    lambda("x", assert_(is_given("x"), bound("y", var("x"))))
}

fn optional() -> Node {
    let field = |key: &str| select(var("cfg"), &[key]);
    let call = |function: &str, key: &str, body: Node| {
        let function = select(var("lib"), &[function]);
        apply2(function, has_attr(var("cfg"), &[key]), body)
    };
    let port = rec_set(Bindings::new().bind("port", &field("port")));
    let calls = [
        call("optionalAttrs", "port", port),
        call("mkIf", "host", bound("host", field("host"))),
        call("other", "user", bound("user", field("user"))),
    ];
    lambdas(&["lib", "cfg"], list(&calls))
}

fn has_field() -> Node {
    let test = |keys: &[&str]| has_attr(var("x"), keys);
    let field = |key: &str| select(var("x"), &[key]);
    let rest = if_(
        test(&["a", "b"]),
        bound("deep", field("key")),
        bound("has", field("key")),
    );
    lambda(
        "x",
        if_(not(test(&["key"])), bound("lacks", var("x")), rest),
    )
}

fn and_or() -> Node {
    let pair = |name| bound(name, list(&[var("x"), var("y")]));
    let both = and(is_given("x"), builtin("isString", "y"));
    let either = or(is_null("x"), is_null("y"));
    let rest = if_(either, pair("unknown"), pair("neither"));
    lambdas(&["x", "y"], if_(both, pair("both"), rest))
}

/// An assert of an arrow, an if with it, and one with what it may be rewritten to where it is false.
fn implication() -> Node {
    let pair = |name| bound(name, list(&[var("cert"), var("key")]));
    let (given, known) = (|| is_given("cert"), || builtin("isString", "key"));
    let arrow = || implies(given(), known());
    let elements = [
        assert_(arrow(), pair("asserted")),
        if_(arrow(), pair("holds"), pair("fails")),
        if_(and(given(), not(known())), pair("same"), pair("other")),
    ];
    lambdas(&["cert", "key"], list(&elements))
}

fn literals() -> Node {
    let x = || var("x");
    let last = if_(
        ne(x(), float()),
        bound("other", x()),
        bound("fraction", x()),
    );
    let rest = if_(eq(x(), int()), bound("whole", x()), last);
    lambda("x", if_(eq(x(), string("a")), bound("text", x()), rest))
}

/// A name that is compared with 1 and is 1.0.
fn numbers() -> Node {
    let step = || var("step");
    let tested = if_(builtin("isInt", "step"), bound("whole", step()), step());
    let compared = if_(eq(step(), int()), bound("equal", step()), tested);
    let_(&[("step", float())], compared)
}

fn sets() -> Node {
    let inner = Bindings::new().bind("c", &int()).bind("e", &var("c"));
    let bindings = Bindings::new()
        .inherit("x")
        .inherit_from(var("base"), &["a", "b"])
        .bind("c", &list(&[var("a"), var("b")]))
        .bind("d", &set(inner));
    lambdas(&["base", "x"], rec_set(bindings))
}

fn nest() -> Node {
    let all = bound("all", list(&["a", "b", "c", "d"].map(var)));
    let two = bound("two", list(&["a", "b"].map(var)));
    let innermost = if_(builtin("isList", "d"), all, int());
    let inner = if_(has_attr(var("c"), &["key"]), innermost, int());
    let outer = if_(builtin("isString", "b"), inner, two);
    lambdas(&["a", "b", "c", "d"], assert_(is_given("a"), outer))
}

/// Each inherit takes two names from the one within it, so a walk sees that one twice.
fn inherits(levels: usize) -> Node {
    let around = |base: Node, _| {
        let bindings = Bindings::new().inherit_from(base, &["a", "b"]);
        let_in(bindings, var("a"))
    };
    lambda("x", (0..levels).fold(var("x"), around))
}

type Change = fn(&mut Tree);

/// The printed case as faulty exporters may write it, by the refusal that each gets.
const DAMAGED: [(&str, u32, Change); 3] = [
    ("damaged-role", 6, |tree| body(tree).role = role::DEFAULT),
    ("damaged", 10, |tree| body(tree).expr = tree.entry),
    ("damaged-inherit", 11, |tree| {
        let binding = item_of(tree, kind::LET_IN);
        (binding.role, binding.expr) = (role::INHERIT, COMPARISON);
    }),
];
/// The expression `x == null` of the printed case.
const COMPARISON: u32 = 2;

/// The body of the printed case's function.
fn body(tree: &mut Tree) -> &mut Item {
    let items = &mut tree.exprs[tree.entry as usize].items;
    items.last_mut().expect("a function has a body")
}

/// The first item of the first expression of a kind.
fn item_of(tree: &mut Tree, kind: u32) -> &mut Item {
    let expr = tree.exprs.iter_mut().find(|expr| expr.kind == kind);
    &mut expr.expect("the printed case has one").items[0]
}

fn damaged(name: &'static str, change: Change) -> Example {
    let mut broken = survey_case();
    change(&mut broken);
    Example {
        name,
        tree: survey_case(),
        image: broken.encode(),
    }
}

#[cfg(test)]
mod tests {
    use super::*;
    use crate::second_reading::check;

    fn survey(name: &str) -> String {
        let examples = all();
        let example = examples.iter().find(|example| example.name == name);
        survey_text(&example.expect("an example of that name").image)
    }

    /// The lines of one word, without it.
    fn lines(name: &str, word: &str) -> Vec<String> {
        let survey = survey(name);
        let words = survey.lines().filter_map(|line| line.strip_prefix(word));
        words.map(|rest| rest.trim().to_string()).collect()
    }

    #[test]
    fn all_images_but_the_damaged_ones_are_accepted() {
        for example in all() {
            let damaged = DAMAGED.iter().find(|(name, ..)| *name == example.name);
            let refusal = damaged.map_or(0, |&(_, refusal, _)| refusal);
            assert_eq!(check(&example.image), refusal, "{}", example.name);
        }
        for (name, refusal, _) in DAMAGED {
            assert_eq!(survey(name), format!("refused {refusal}\n"));
        }
    }

    #[test]
    fn the_two_images_that_the_definitions_cite_are_as_they_were() {
        let kept: [&[u8]; 2] = [
            include_bytes!("../../../examples/printed.image"),
            include_bytes!("../../../examples/guarded.image"),
        ];
        let examples = all();
        assert_eq!([&examples[0].image, &examples[1].image], kept);
    }

    /// What each example is there to show, by hand from the description.
    #[test]
    fn each_shows_what_it_is_for() {
        // limit 0, fallback 1, checked 2, safe 3, unchecked 4, risky 5.
        assert_eq!(lines("unguarded", "edge"), ["3 0", "5 0"]);
        assert_eq!(lines("unguarded", "narrow"), ["3 0 1 0"]);
        // isString 0, p 1, x 2, seen 3, unseen 4: an alias counts by the builtin's own name alone.
        assert_eq!(lines("alias", "edge"), ["3 2", "4 2"]);
        assert_eq!(lines("alias", "narrow"), ["3 2 0 4"]);
        // x 0, seen 1, builtins 2, isString 3, q 4, unseen 5: the guard of another `builtins` tells nothing.
        assert_eq!(lines("own-builtins", "edge"), ["1 0", "5 0"]);
        assert_eq!(lines("own-builtins", "narrow"), ["1 0 0 4"]);
        assert_eq!(lines("assert", "narrow"), ["1 0 1 0"]);
        // x 0, y 1, z 2.
        assert_eq!(lines("half-written", "narrow"), ["1 0 1 0", "2 0 1 0"]);
        // x 0, text 1, whole 2, other 3, fraction 4.
        assert_eq!(
            lines("literals", "narrow"),
            ["1 0 0 4", "2 0 7 0", "4 0 7 0"]
        );
        // step 0, equal 1, whole 2: what is equal to 1 may be 1.0.
        assert_eq!(lines("numbers", "narrow"), ["1 0 7 0", "2 0 0 2"]);
        // x 0, y 1, both 2, unknown 3, neither 4.
        let told = ["2 0 1 0", "2 1 0 4", "4 0 1 0", "4 1 1 0"];
        assert_eq!(lines("and-or", "narrow"), told);
        // cert 0, key 1, asserted 2, holds 3, fails 4, same 5, other 6: an arrow tells something where it is false alone.
        let told = ["4 0 1 0", "4 1 1 4", "5 0 1 0", "5 1 1 4"];
        assert_eq!(lines("implication", "narrow"), told);
    }

    #[test]
    fn keys_are_told_by_their_texts() {
        let key = |name: &str, key: &str| {
            let examples = all();
            let example = examples.iter().find(|example| example.name == name);
            let texts = &example.expect("an example of that name").tree.texts;
            let place = texts.iter().position(|text| text == key.as_bytes());
            place.expect("a text of the tree")
        };
        // lib 0, cfg 1, port 2, host 3, user 4; the last call is of no known function.
        let [port, host] = ["port", "host"].map(|text| key("optional", text));
        let told = [format!("2 1 2 {port}"), format!("3 1 2 {host}")];
        assert_eq!(lines("optional", "narrow"), told);
        // x 0, lacks 1, deep 2, has 3.
        let of_x = key("has-field", "key");
        let told = [
            format!("1 0 3 {of_x}"),
            format!("2 0 2 {of_x}"),
            format!("3 0 2 {of_x}"),
        ];
        assert_eq!(lines("has-field", "narrow"), told);
        // a to d 0 to 3, all 4, two 5.
        let of_c = key("nest", "key");
        let told = [
            "4 0 1 0",
            "4 1 0 4",
            &format!("4 2 2 {of_c}"),
            "4 3 5 0",
            "5 0 1 0",
            "5 1 1 4",
        ];
        assert_eq!(lines("nest", "narrow"), told);
    }

    #[test]
    fn names_go_to_what_the_description_says() {
        let resolved = |name: &str, word: &str| {
            let survey = survey(name);
            let lines = survey.lines().filter(|line| line.contains(word));
            lines.map(str::to_string).collect::<Vec<String>>()
        };
        // The inner With is the fourth expression from above.
        let examples = all();
        let with = examples.iter().find(|example| example.name == "with");
        let inner = with.expect("the example").tree.exprs.len() - 4;
        let [with] = &resolved("with", "with")[..] else {
            panic!("one name is looked for in a With");
        };
        assert!(with.ends_with(&format!(" with {inner}")), "{with}");
        assert_eq!(resolved("with-builtin", "builtin"), ["3 builtin 14"]);
        assert_eq!(resolved("with-builtin", "with"), ["4 with 6"]);
        // base 0, x 1 outside; x 2, a 3, b 4, c 5, d 6 within, c 7 and e 8 of the plain set.
        assert_eq!(
            lines("sets", "edge"),
            ["2 1", "3 0", "4 0", "5 3", "5 4", "6 5"]
        );
    }

    #[test]
    fn a_walk_is_refused_where_one_level_less_is_not() {
        let image = |levels| tree(&inherits(levels)).encode();
        let survey = survey_text(&image(DOUBLINGS));
        assert!(survey.starts_with("resolve ") && survey.ends_with("\nrefused 8\n"));
        assert!(!survey_text(&image(DOUBLINGS - 1)).contains("refused 8"));
    }
}

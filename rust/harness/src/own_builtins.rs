//! The cases of document 02, order 2, a profile with its own `builtins`, as crates/semantics/specs/OwnBuiltins.antt has them:
//! what selections from it tell, and which calls are recognised. And the smallest trees on which the original goes by the
//! text.

use std::rc::Rc;

use crate::builtin_set;
use crate::image::{Expr, Name, Tree, kind, name_kind};
use crate::notation::*;
use crate::port::own_tables;
use crate::records::sort::{
    HAS_FIELD as HAS, IS_NOT_TYPE as IS_NOT, IS_TYPE as IS, NOT_HAS_FIELD as LACKS,
};
use crate::records::{Narrowing, Record, narrowing, record, ty};
use crate::tables::{BUILTIN, DEFINITION, Given, WITH, resolution, table};

/// The name that all of them speak of.
const X: u32 = 0;

pub struct Case {
    pub name: &'static str,
    pub tree: Tree,
    pub given: Given,
    pub reading: Reading,
    /// Which of the questions are asked.
    asked: Vec<usize>,
}

/// Which of the four conditions tell what they test, and which of the three calls are recognised.
#[derive(Clone, Copy, Debug, PartialEq, Eq)]
pub struct Reading {
    pub told: [bool; 4],
    pub recognised: [bool; 3],
}

/// The set is the builtin: "other chains keep both".
pub const FROM_BUILTINS: Reading = Reading {
    told: [true; 4],
    recognised: [true; 3],
};
/// The set is "a reference of that text not so resolved": only the chain whose set is itself a selection keeps its last key.
pub const FROM_ANOTHER: Reading = Reading {
    told: [false, false, true, false],
    recognised: [false, false, true],
};
/// The set has another text: last keys count, and it is no callee.
pub const FROM_OTHER: Reading = Reading {
    told: [true, true, true, false],
    recognised: [true; 3],
};

/// How many of the questions are conditions, and how many there are: behind them three calls and a guard.
pub const CONDITIONS: usize = 4;
const QUESTIONS: usize = 8;
const ALL: [usize; QUESTIONS] = [0, 1, 2, 3, 4, 5, 6, 7];
/// The last condition.
pub const HAS_ATTR: usize = CONDITIONS - 1;
/// The calls and the guard, which a walk is asked for.
pub const OF_WALK: &[usize] = ALL.split_at(CONDITIONS).1;

/// `SET.isNull x`, `SET.f.isNull x`, `(SET.f).isNull x`, `SET.hasAttr "f" x`; calls of `optional` selected in the first three
/// ways, and an if with the first condition, each around a name that is bound.
fn questions(set: &str) -> [Node; QUESTIONS] {
    let (set, x) = (var(set), var("x"));
    let ways = |word: &str| {
        let within = select(Rc::clone(&set), &["f"]);
        [
            select(Rc::clone(&set), &[word]),
            select(Rc::clone(&set), &["f", word]),
            select(within, &[word]),
        ]
    };
    let bound = || let_(&[("bound", Rc::clone(&x))], int());
    let [one, several, within] = ways("isNull").map(|called| apply(called, Rc::clone(&x)));
    let has_attr = select(Rc::clone(&set), &["hasAttr"]);
    let has_field = apply2(has_attr, string("f"), Rc::clone(&x));
    let test = || eq(Rc::clone(&x), null());
    let [call, call_several, call_within] =
        ways("optional").map(|called| apply2(called, test(), bound()));
    let guard = if_(Rc::clone(&one), bound(), int());
    [
        one,
        several,
        within,
        has_field,
        call,
        call_several,
        call_within,
        guard,
    ]
}

/// What stands around the questions within `x: ..`.
type Around = fn(Node) -> Node;

/// A way to resolve the set.
struct Way {
    name: &'static str,
    set: &'static str,
    around: Around,
    /// What given tables resolve the set to; else the tree has its own tables.
    entry: Option<fn(&Tree) -> u16>,
    reading: Reading,
}

impl Way {
    fn case(&self, asked: &[usize]) -> Case {
        let questions = questions(self.set);
        let body: Vec<Node> = asked.iter().map(|&q| Rc::clone(&questions[q])).collect();
        let tree = tree(&lambda("x", (self.around)(list(&body))));
        let given = match self.entry {
            Some(entry) => self.tables(&tree, entry(&tree)),
            None => own_tables(&tree.encode()),
        };
        Case {
            name: self.name,
            tree,
            given,
            reading: self.reading,
            asked: asked.to_vec(),
        }
    }

    /// Tables that resolve x, and the set so.
    fn tables(&self, tree: &Tree, entry: u16) -> Given {
        let resolved = |expr: &Expr| match expr.kind {
            kind::REFERENCE => match &tree.texts[expr.text as usize][..] {
                b"x" => resolution(DEFINITION, X),
                text if text == self.set.as_bytes() => entry,
                _ => 0,
            },
            _ => 0,
        };
        let mut given = Given::empty(tree.exprs.len(), tree.names.len());
        given.resolutions = table(tree.exprs.iter().map(resolved));
        given
    }
}

impl Case {
    /// The questions with their expressions.
    fn asked(&self) -> impl Iterator<Item = (usize, u32)> {
        let list = self.tree.exprs.iter().find(|e| e.kind == kind::LIST);
        let exprs = list.expect("the questions").items.iter();
        let exprs = exprs.map(|item| item.expr);
        self.asked.iter().copied().zip(exprs)
    }

    /// Each condition with its lists.
    pub fn conditions(&self) -> Vec<(u32, [Vec<Record>; 2])> {
        let key = self.tree.texts.iter().position(|text| text == b"f");
        let null = [IS, IS_NOT].map(|sort| record(X, sort, ty::NULL));
        let field = [HAS, LACKS].map(|sort| record(X, sort, key.unwrap_or_default() as u32));
        let conditions = self.asked().filter(|(question, _)| *question < CONDITIONS);
        let lists = |question: usize| {
            let lists = if question == HAS_ATTR { field } else { null };
            lists.map(|record| match self.reading.told[question] {
                true => vec![record],
                false => vec![],
            })
        };
        conditions
            .map(|(question, expr)| (expr, lists(question)))
            .collect()
    }

    /// What the walk records: that x is null, where a name is bound within a recognised call or a guard that tells it.
    pub fn narrowings(&self) -> Vec<Narrowing> {
        let [told, ..] = self.reading.told;
        let is_recognised = |question: usize| match question {
            QUESTIONS.. | ..CONDITIONS => false,
            guard if guard == QUESTIONS - 1 => told,
            call => self.reading.recognised[call - CONDITIONS],
        };
        let recognised = self
            .asked()
            .filter(|(question, _)| is_recognised(*question));
        let recorded = recognised.map(|(_, expr)| {
            let bound = self.tree.exprs[expr as usize].items[1].expr;
            let name = self.tree.exprs[bound as usize].items[0].name;
            narrowing(name, record(X, IS, ty::NULL))
        });
        recorded.collect()
    }
}

/// The ways in which `builtins` may be defined, or not, and in which given tables may resolve it, each with all questions.
pub fn cases() -> Vec<Case> {
    cases_asking(&ALL)
}

/// The same with some of the questions.
pub fn cases_asking(asked: &[usize]) -> Vec<Case> {
    let ways = undefined().into_iter().chain(defined()).chain(given());
    ways.map(|way| way.case(asked)).collect()
}

fn own(name: &'static str, around: Around, reading: Reading) -> Way {
    Way {
        name,
        set: builtin_set::TEXT,
        around,
        entry: None,
        reading,
    }
}

/// Nothing shadows the builtin set.
fn undefined() -> Vec<Way> {
    let in_plain_set = |body| set(Bindings::values(&[("builtins", var("x")), ("y", body)]));
    vec![
        own("nowhere", |body| body, FROM_BUILTINS),
        own("under a With", |body| with_(var("x"), body), FROM_BUILTINS),
        own("in a plain set", in_plain_set, FROM_BUILTINS),
        Way {
            set: "foo",
            ..own("another text", |body| body, FROM_OTHER)
        },
    ]
}

/// Something defines a name spelt so.
fn defined() -> Vec<Way> {
    let ways: [(&str, Around); 8] = [
        ("let", |body| let_(&[("builtins", var("x"))], body)),
        ("parameter", |body| lambda("builtins", body)),
        ("inherit", |body| {
            let_in(Bindings::new().inherit("builtins"), body)
        }),
        ("inherit from x", |body| {
            let bindings = Bindings::new().inherit_from(var("x"), &["builtins"]);
            let_in(bindings, body)
        }),
        ("inherit from x, no base", |body| {
            let selected = select(var("x"), &["builtins"]);
            let bindings = Bindings::new().inherit_without_base("builtins", &selected);
            let_in(bindings, body)
        }),
        ("rec", |body| {
            rec_set(Bindings::values(&[("builtins", var("x")), ("y", body)]))
        }),
        ("field", |body| {
            lambda_pattern(None, &[(Some("builtins"), None)], body)
        }),
        ("field with default", |body| {
            lambda_pattern(None, &[(Some("builtins"), Some(var("x")))], body)
        }),
    ];
    let ways = ways.map(|(name, around)| own(name, around, FROM_ANOTHER));
    ways.into()
}

/// Given tables, below a With.
fn given() -> Vec<Way> {
    let within = |tree: &Tree| {
        let with = tree.exprs.iter().position(|e| e.kind == kind::WITH);
        resolution(WITH, with.expect("the With") as u32)
    };
    let given = |name, entry, reading| Way {
        entry: Some(entry),
        ..own(name, |body| with_(var("x"), body), reading)
    };
    vec![
        given("given place 2", |_| builtin_set::entry(), FROM_BUILTINS),
        given("given place 3", |_| resolution(BUILTIN, 3), FROM_ANOTHER),
        given("given With", within, FROM_ANOTHER),
        given("given nothing", |_| 0, FROM_ANOTHER),
        given("given x", |_| resolution(DEFINITION, X), FROM_ANOTHER),
        Way {
            set: "foo",
            ..given(
                "another text, place 2",
                |_| builtin_set::entry(),
                FROM_OTHER,
            )
        },
    ]
}

/// `builtins.isInt builtins`, expression 3, in a set of that name that is `rec`: the smallest tree whose own tables part the
/// original, which tells that the name is an integer, from the description.
pub fn smallest_condition() -> Tree {
    let set = var("builtins");
    let call = apply(select(Rc::clone(&set), &["isInt"]), set);
    tree(&rec_set(Bindings::values(&[("builtins", call)])))
}

/// `builtins.isInt isInt`, expression 4, of which given tables resolve the argument to a name and `builtins` to nothing.
pub fn smallest_unresolved() -> (Tree, Given) {
    let mut tree = tree(&apply(select(var("builtins"), &["isInt"]), var("isInt")));
    let (text, kind) = (0, name_kind::LET_IN);
    tree.names.push(Name { text, kind });
    let mut given = Given::empty(tree.exprs.len(), tree.names.len());
    given.resolutions = table([0, 0, 0, resolution(DEFINITION, 0), 0].into_iter());
    (tree, given)
}

/// `builtins.mkIf builtins builtins`, likewise of a walk: the original analyses a condition.
pub fn smallest_walk() -> Tree {
    let set = var("builtins");
    let called = select(Rc::clone(&set), &["mkIf"]);
    let call = apply2(called, Rc::clone(&set), set);
    tree(&rec_set(Bindings::values(&[("builtins", call)])))
}

/// The same without the set around it, which given tables do without.
pub fn without_set(tree: &Tree) -> Tree {
    let mut tree = tree.clone();
    tree.exprs.pop();
    tree.entry -= 1;
    tree
}

//! A notation for trees in Rust: `lambda("x", eq(var("x"), null()))` is `x: x == null`.
//!
//! `tree` numbers the expressions children first in field order and the names in the order in which
//! they are bound; equal texts are shared. A node that stands in several places (a clone of its
//! `Rc`) is one expression.

use std::collections::HashMap;
use std::rc::Rc;

use crate::image::{Expr, Item, NONE, Name, Tree, detail, kind, name_kind, role};

pub type Node = Rc<NodeData>;

/// An expression: its fields, and its items in order.
#[derive(Debug)]
pub struct NodeData {
    kind: u32,
    detail: u32,
    text: Option<String>,
    parts: Vec<Part>,
}

/// An item before its numbers are known.
#[derive(Clone, Debug)]
struct Part {
    role: u32,
    name: Option<(String, u32)>,
    node: Option<Node>,
}

impl Part {
    fn of(role: u32, node: &Node) -> Self {
        let node = Some(Rc::clone(node));
        let name = None;
        Part { role, name, node }
    }
}

fn node(kind: u32, detail: u32, parts: Vec<Part>) -> Node {
    let text = None;
    Rc::new(NodeData {
        kind,
        detail,
        text,
        parts,
    })
}

fn text_node(kind: u32, detail: u32, text: &str) -> Node {
    Rc::new(NodeData {
        kind,
        detail,
        text: Some(text.to_string()),
        parts: Vec::new(),
    })
}

fn children(kind: u32, detail: u32, nodes: &[Node]) -> Node {
    let parts = nodes.iter().map(|node| Part::of(role::CHILD, node));
    node(kind, detail, parts.collect())
}

pub fn missing() -> Node {
    node(kind::MISSING, 0, vec![])
}

pub fn var(name: &str) -> Node {
    text_node(kind::REFERENCE, 0, name)
}

/// `null`, `true` and `false` are references.
pub fn null() -> Node {
    var("null")
}

pub fn string(text: &str) -> Node {
    text_node(kind::LITERAL, detail::STRING, text)
}

pub fn int() -> Node {
    node(kind::LITERAL, detail::INTEGER, vec![])
}

pub fn float() -> Node {
    node(kind::LITERAL, detail::FLOAT, vec![])
}

pub fn path() -> Node {
    node(kind::LITERAL, detail::PATH, vec![])
}

pub fn uri() -> Node {
    node(kind::LITERAL, detail::URI, vec![])
}

pub fn apply(fun: Node, arg: Node) -> Node {
    children(kind::APPLY, 0, &[fun, arg])
}

/// `fun first second`.
pub fn apply2(fun: Node, first: Node, second: Node) -> Node {
    apply(apply(fun, first), second)
}

pub fn if_(cond: Node, then_body: Node, else_body: Node) -> Node {
    children(kind::IF_THEN_ELSE, 0, &[cond, then_body, else_body])
}

pub fn with_(env: Node, body: Node) -> Node {
    children(kind::WITH, 0, &[env, body])
}

pub fn assert_(cond: Node, body: Node) -> Node {
    children(kind::ASSERT, 0, &[cond, body])
}

pub fn list(elements: &[Node]) -> Node {
    children(kind::LIST, 0, elements)
}

pub fn string_interpolation(parts: &[Node]) -> Node {
    children(kind::STRING_INTERPOLATION, 0, parts)
}

pub fn path_interpolation(parts: &[Node]) -> Node {
    children(kind::PATH_INTERPOLATION, 0, parts)
}

/// A binary operator by its detail.
pub fn bin_op(op: u32, lhs: Node, rhs: Node) -> Node {
    children(kind::BIN_OP, op, &[lhs, rhs])
}

pub fn eq(lhs: Node, rhs: Node) -> Node {
    bin_op(detail::EQUAL, lhs, rhs)
}

pub fn ne(lhs: Node, rhs: Node) -> Node {
    bin_op(detail::NOT_EQUAL, lhs, rhs)
}

pub fn and(lhs: Node, rhs: Node) -> Node {
    bin_op(detail::AND, lhs, rhs)
}

pub fn or(lhs: Node, rhs: Node) -> Node {
    bin_op(detail::OR, lhs, rhs)
}

pub fn implies(lhs: Node, rhs: Node) -> Node {
    bin_op(detail::IMPLICATION, lhs, rhs)
}

pub fn not(expr: Node) -> Node {
    children(kind::UNARY_OP, detail::INVERT, &[expr])
}

pub fn negate(expr: Node) -> Node {
    children(kind::UNARY_OP, detail::NEGATE, &[expr])
}

/// `set.a.b` with keys that are known.
pub fn select(set: Node, keys: &[&str]) -> Node {
    select_by(set, &strings(keys), None)
}

/// `set.a.b or default`, with keys of any form.
pub fn select_by(set: Node, keys: &[Node], default: Option<Node>) -> Node {
    let mut parts = set_and_keys(&set, keys);
    parts.extend(default.iter().map(|node| Part::of(role::DEFAULT, node)));
    node(kind::SELECT, 0, parts)
}

/// `set ? a.b` with keys that are known.
pub fn has_attr(set: Node, keys: &[&str]) -> Node {
    has_attr_by(set, &strings(keys))
}

pub fn has_attr_by(set: Node, keys: &[Node]) -> Node {
    node(kind::HAS_ATTR, 0, set_and_keys(&set, keys))
}

fn strings(keys: &[&str]) -> Vec<Node> {
    keys.iter().map(|key| string(key)).collect()
}

fn set_and_keys(set: &Node, keys: &[Node]) -> Vec<Part> {
    let keys = keys.iter().map(|key| Part::of(role::PATH_KEY, key));
    std::iter::once(Part::of(role::CHILD, set))
        .chain(keys)
        .collect()
}

/// `name: body`.
pub fn lambda(name: &str, body: Node) -> Node {
    lambda_pattern(Some(name), &[], body)
}

/// `{ a, b ? default }@name: body`; a field may lack its name.
pub fn lambda_pattern(
    name: Option<&str>,
    fields: &[(Option<&str>, Option<Node>)],
    body: Node,
) -> Node {
    let parameter = name.map(|name| Part {
        role: role::PARAMETER,
        name: Some((name.to_string(), name_kind::PARAM)),
        node: None,
    });
    let mut parts: Vec<Part> = parameter.into_iter().collect();
    parts.extend(fields.iter().map(|(name, default)| Part {
        role: role::PATTERN_FIELD,
        name: name.map(|name| (name.to_string(), name_kind::PAT_FIELD)),
        node: default.clone(),
    }));
    parts.push(Part::of(role::CHILD, &body));
    node(kind::LAMBDA, 0, parts)
}

/// `let name = value; .. in body`.
pub fn let_(values: &[(&str, Node)], body: Node) -> Node {
    let_in(Bindings::values(values), body)
}

pub fn let_in(bindings: Bindings, body: Node) -> Node {
    let mut parts = bindings.into_parts(name_kind::LET_IN);
    parts.push(Part::of(role::CHILD, &body));
    node(kind::LET_IN, 0, parts)
}

/// `{ .. }`.
pub fn set(bindings: Bindings) -> Node {
    let parts = bindings.into_parts(name_kind::PLAIN_ATTRSET);
    node(kind::ATTR_SET, detail::PLAIN, parts)
}

/// `rec { .. }`.
pub fn rec_set(bindings: Bindings) -> Node {
    let parts = bindings.into_parts(name_kind::REC_ATTRSET);
    node(kind::ATTR_SET, detail::REC, parts)
}

/// What stands between `let` and `in`, or in a set.
#[derive(Clone, Debug, Default)]
pub struct Bindings {
    statics: Vec<(u32, String, Node)>,
    bases: Vec<Node>,
    dynamics: Vec<(Node, Node)>,
}

impl Bindings {
    pub fn new() -> Self {
        Self::default()
    }

    pub fn values(values: &[(&str, Node)]) -> Self {
        let bind = |bindings: Self, (name, value): &(&str, Node)| bindings.bind(name, value);
        values.iter().fold(Self::new(), bind)
    }

    fn entry(mut self, role: u32, name: &str, node: Node) -> Self {
        self.statics.push((role, name.to_string(), node));
        self
    }

    /// `name = value;`
    pub fn bind(self, name: &str, value: &Node) -> Self {
        self.entry(role::STATIC, name, Rc::clone(value))
    }

    /// `inherit name;`
    pub fn inherit(self, name: &str) -> Self {
        self.entry(role::INHERIT, name, var(name))
    }

    /// `inherit (base) names;`: each is a selection from the base, which all of them share.
    pub fn inherit_from(mut self, base: Node, names: &[&str]) -> Self {
        for name in names {
            let value = select(Rc::clone(&base), &[name]);
            self = self.entry(role::INHERIT_FROM, name, value);
        }
        self.bases.push(base);
        self
    }

    /// The same of one name where no item is the base: no visit resolves what the selection refers to.
    pub fn inherit_without_base(self, name: &str, value: &Node) -> Self {
        self.entry(role::INHERIT_FROM, name, Rc::clone(value))
    }

    /// `${key} = value;`
    pub fn dynamic(mut self, key: Node, value: Node) -> Self {
        self.dynamics.push((key, value));
        self
    }

    fn into_parts(self, kind: u32) -> Vec<Part> {
        let statics = self.statics.into_iter().map(|(role, name, node)| Part {
            role,
            name: Some((name, kind)),
            node: Some(node),
        });
        let mut parts: Vec<Part> = statics.collect();
        let bases = self.bases.iter();
        parts.extend(bases.map(|base| Part::of(role::INHERIT_BASE, base)));
        for (key, value) in &self.dynamics {
            parts.push(Part::of(role::DYNAMIC_KEY, key));
            parts.push(Part::of(role::DYNAMIC_VALUE, value));
        }
        parts
    }
}

/// The tree whose entry is this expression.
pub fn tree(root: &Node) -> Tree {
    let mut builder = Builder::default();
    builder.tree.entry = builder.expr(root);
    builder.tree
}

#[derive(Default)]
struct Builder {
    tree: Tree,
    texts: HashMap<String, u32>,
    numbered: HashMap<*const NodeData, u32>,
}

impl Builder {
    fn expr(&mut self, node: &Node) -> u32 {
        if let Some(&number) = self.numbered.get(&Rc::as_ptr(node)) {
            return number;
        }
        let text = node.text.as_ref().map_or(NONE, |text| self.text(text));
        let items = node.parts.iter().map(|part| self.item(part)).collect();
        let number = self.tree.exprs.len() as u32;
        self.tree.exprs.push(Expr {
            kind: node.kind,
            detail: node.detail,
            text,
            items,
        });
        self.numbered.insert(Rc::as_ptr(node), number);
        number
    }

    fn item(&mut self, part: &Part) -> Item {
        let name = part.name.as_ref();
        Item {
            role: part.role,
            name: name.map_or(NONE, |(text, kind)| self.name(text, *kind)),
            expr: part.node.as_ref().map_or(NONE, |node| self.expr(node)),
        }
    }

    fn name(&mut self, text: &str, kind: u32) -> u32 {
        let text = self.text(text);
        self.tree.names.push(Name { text, kind });
        self.tree.names.len() as u32 - 1
    }

    fn text(&mut self, text: &str) -> u32 {
        if let Some(&number) = self.texts.get(text) {
            return number;
        }
        let number = self.tree.texts.len() as u32;
        self.tree.texts.push(text.as_bytes().to_vec());
        self.texts.insert(text.to_string(), number);
        number
    }
}

/// `x: if x == null then let y = x; in y else x`, the case whose answers are printed in the papers.
pub fn survey_case() -> Tree {
    let body = let_(&[("y", var("x"))], var("y"));
    tree(&lambda("x", if_(eq(var("x"), null()), body, var("x"))))
}

#[cfg(test)]
mod tests {
    use super::*;
    use crate::second_reading::check;

    #[test]
    fn the_survey_case_has_its_numbers() {
        let tree = survey_case();
        let kinds: Vec<u32> = tree.exprs.iter().map(|e| e.kind).collect();
        assert_eq!(kinds, [10, 10, 7, 10, 10, 5, 10, 2, 4]);
        let texts: Vec<u32> = [0, 1, 3, 4, 6].map(|e: usize| tree.exprs[e].text).to_vec();
        assert_eq!(texts, [0, 1, 0, 2, 0]);
        assert_eq!(tree.texts, [&b"x"[..], b"null", b"y"]);
        assert_eq!(tree.names[0], Name { text: 0, kind: 3 });
        assert_eq!(tree.names[1], Name { text: 2, kind: 0 });
        assert_eq!(tree.entry, 8);
        assert_eq!(tree.encode().len(), 146);
        assert_eq!(check(&tree.encode()), 0);
    }

    fn everything() -> Tree {
        let bindings = Bindings::new()
            .bind("a", &int())
            .inherit("b")
            .inherit_from(var("lib"), &["c", "d"])
            .dynamic(string_interpolation(&[var("k")]), float());
        let fields = [
            (Some("p"), None),
            (Some("q"), Some(missing())),
            (None, None),
        ];
        let keys = [string("a"), var("k")];
        let selection = select_by(set(bindings.clone()), &keys, Some(uri()));
        let test = assert_(has_attr(rec_set(bindings.clone()), &["a"]), selection);
        let body = with_(path(), list(&[test, not(negate(path_interpolation(&[])))]));
        let function = lambda_pattern(Some("all"), &fields, apply(body, string("")));
        tree(&let_in(
            bindings,
            if_(implies(null(), int()), function, missing()),
        ))
    }

    #[test]
    fn all_kinds_and_roles_can_be_written() {
        let tree = everything();
        assert_eq!(check(&tree.encode()), 0);
        for kind in 0..kind::COUNT {
            assert!(tree.exprs.iter().any(|e| e.kind == kind), "kind {kind}");
        }
        let items: Vec<&Item> = tree.exprs.iter().flat_map(|e| &e.items).collect();
        for role in 0..=role::PARAMETER {
            assert!(items.iter().any(|item| item.role == role), "role {role}");
        }
    }

    #[test]
    fn an_inherit_base_is_one_expression() {
        let tree = tree(&set(Bindings::new().inherit_from(var("l"), &["a", "b"])));
        let kinds: Vec<u32> = tree.exprs.iter().map(|e| e.kind).collect();
        assert_eq!(kinds, [10, 3, 11, 3, 11, 8]);
        let roles: Vec<(u32, u32)> = tree.exprs[5]
            .items
            .iter()
            .map(|i| (i.role, i.expr))
            .collect();
        assert_eq!(roles, [(6, 2), (6, 4), (7, 0)]);
    }
}

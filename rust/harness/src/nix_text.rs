//! The Nix source of a tree. What stands between operands goes by the precedences of the Nix manual, so the source reads
//! back as this tree; an expression that several items name is written at each of them.
//!
//! What half-written input lacks is written as `MISSING`. An image has no values of numbers, paths and URIs and no literal
//! parts of interpolations, so each of them is written in one form.

use std::iter::Peekable;

use crate::image::{Expr, Item, NONE, Tree, detail, kind, role};
use crate::layout::{Doc, nested, text};

/// Where an expression, a key or a name is missing.
pub const MISSING: &str = "/* missing */";

/// How tightly an expression holds together, as the manual numbers its operators: 0 holds on its own.
type Level = u32;
const SIMPLE: Level = 0;
const SELECT: Level = 1;
const APPLY: Level = 2;
const NEGATE: Level = 3;
const HAS_ATTR: Level = 4;
const NOT: Level = 8;
/// Functions, conditionals and the like reach as far as they can.
const OPEN: Level = 15;

/// An operator, its level, and the levels that its operands may have without parentheses.
struct Operator {
    sign: &'static str,
    level: Level,
    sides: [Level; 2],
}

const fn left(sign: &'static str, level: Level) -> Operator {
    let sides = [level, level - 1];
    Operator { sign, level, sides }
}

const fn right(sign: &'static str, level: Level) -> Operator {
    let sides = [level - 1, level];
    Operator { sign, level, sides }
}

const fn alone(sign: &'static str, level: Level) -> Operator {
    let sides = [level - 1, level - 1];
    Operator { sign, level, sides }
}

/// The operators by the detail of a BinOp.
const OPERATORS: [Operator; 15] = [
    left("+", 7),
    left("-", 7),
    left("*", 6),
    left("/", 6),
    alone("<", 10),
    alone("<=", 10),
    alone(">", 10),
    alone(">=", 10),
    alone("!=", 11),
    alone("==", 11),
    left("&&", 12),
    alone("->", 14),
    left("||", 13),
    right("++", 5),
    right("//", 9),
];

const KEYWORDS: [&str; 9] = [
    "assert", "else", "if", "in", "inherit", "let", "rec", "then", "with",
];

/// The source of the tree, set in lines.
pub fn nix_text(tree: &Tree) -> String {
    let source = Source { tree };
    source.doc(tree.entry, OPEN).set()
}

/// The source of one expression on one line.
pub fn expr_text(tree: &Tree, e: u32) -> String {
    Source { tree }.doc(e, OPEN).flat()
}

struct Source<'a> {
    tree: &'a Tree,
}

impl Source<'_> {
    fn expr(&self, e: u32) -> &Expr {
        &self.tree.exprs[e as usize]
    }

    fn text(&self, text: u32) -> String {
        String::from_utf8_lossy(&self.tree.texts[text as usize]).into_owned()
    }

    /// The expression, in parentheses if it holds together less than asked.
    fn doc(&self, e: u32, most: Level) -> Doc {
        let (level, parts) = self.parts(self.expr(e));
        let group = Doc::Group(parts);
        if level <= most {
            return group;
        }
        Doc::Group(vec![text("("), group, text(")")])
    }

    fn parts(&self, e: &Expr) -> (Level, Vec<Doc>) {
        let child = |place: usize, most| self.doc(e.items[place].expr, most);
        match e.kind {
            kind::MISSING => (SIMPLE, vec![text(MISSING)]),
            kind::LITERAL => (SIMPLE, vec![text(self.literal(e))]),
            kind::REFERENCE => (SIMPLE, vec![text(self.text(e.text))]),
            kind::APPLY => (APPLY, vec![child(0, APPLY), text(" "), child(1, SELECT)]),
            kind::BIN_OP => {
                let Operator { sign, level, sides } = &OPERATORS[e.detail as usize];
                let sign = text(format!(" {sign}"));
                let [lhs, rhs] = [child(0, sides[0]), child(1, sides[1])];
                (*level, vec![lhs, sign, Doc::Line, rhs])
            }
            kind::UNARY_OP => {
                let is_not = e.detail == detail::INVERT;
                let (sign, level) = if is_not { ("!", NOT) } else { ("-", NEGATE) };
                // Clearer with parentheses, also where the manual needs none.
                (level, vec![text(sign), child(0, SELECT)])
            }
            kind::SELECT | kind::HAS_ATTR => self.path(e),
            kind::LIST => {
                let elements = e.items.iter().map(|item| self.doc(item.expr, SELECT));
                (SIMPLE, enclosed("[", elements.collect(), "]"))
            }
            kind::ATTR_SET => {
                let opening = if e.detail == detail::REC {
                    "rec {"
                } else {
                    "{"
                };
                (SIMPLE, enclosed(opening, self.bindings(&e.items), "}"))
            }
            kind::STRING_INTERPOLATION => (SIMPLE, self.interpolation("\"", &e.items, "\"")),
            kind::PATH_INTERPOLATION => (SIMPLE, self.interpolation("./", &e.items, "")),
            _ => (OPEN, self.open(e)),
        }
    }

    /// The kinds that end with a body of their own.
    fn open(&self, e: &Expr) -> Vec<Doc> {
        let whole = |item: &Item| self.doc(item.expr, OPEN);
        let (body, before) = e.items.split_last().expect("a body stands last");
        match e.kind {
            kind::LAMBDA => {
                // Parameters one after the other stay on one line.
                let chained = self.expr(body.expr).kind == kind::LAMBDA;
                let between = if chained { text(" ") } else { Doc::Line };
                vec![text(self.pattern(before)), between, whole(body)]
            }
            kind::LET_IN => {
                let bindings = nested(self.bindings(before));
                vec![text("let"), bindings, Doc::Line, text("in "), whole(body)]
            }
            kind::IF_THEN_ELSE => {
                let mut parts = vec![text("if "), whole(&before[0]), text(" then")];
                parts.extend([nested([whole(&before[1])]), Doc::Line, text("else")]);
                parts.extend(self.otherwise(body.expr));
                parts
            }
            _ => {
                let opening = if e.kind == kind::WITH {
                    "with "
                } else {
                    "assert "
                };
                vec![
                    text(opening),
                    whole(&before[0]),
                    text(";"),
                    Doc::Line,
                    whole(body),
                ]
            }
        }
    }

    /// What stands behind `else`: a chain of conditions stays at one margin.
    fn otherwise(&self, e: u32) -> Vec<Doc> {
        let body = self.doc(e, OPEN);
        if self.expr(e).kind == kind::IF_THEN_ELSE {
            return vec![text(" "), body];
        }
        vec![nested([body])]
    }

    /// The values that an image does not keep stand for all of their kind.
    fn literal(&self, e: &Expr) -> String {
        match e.detail {
            detail::FLOAT => "1.0".to_string(),
            detail::INTEGER => "1".to_string(),
            detail::STRING => quoted(&self.text(e.text)),
            detail::PATH => "./.".to_string(),
            _ => "https://example.org".to_string(),
        }
    }

    /// A selection or a test for an attribute.
    fn path(&self, e: &Expr) -> (Level, Vec<Doc>) {
        let is_test = e.kind == kind::HAS_ATTR;
        let (level, most, sign) = if is_test {
            (HAS_ATTR, NEGATE, " ? ")
        } else {
            (SELECT, SIMPLE, ".")
        };
        let of_role = |role| e.items.iter().filter(move |item| item.role == role);
        let keys: Vec<String> = of_role(role::PATH_KEY)
            .map(|item| self.key(item.expr))
            .collect();
        let keys = if keys.is_empty() {
            MISSING.to_string()
        } else {
            keys.join(".")
        };
        let mut parts = vec![self.doc(e.items[0].expr, most), text(sign), text(keys)];
        for default in of_role(role::DEFAULT) {
            parts.extend([text(" or "), self.doc(default.expr, SELECT)]);
        }
        (level, parts)
    }

    fn key(&self, e: u32) -> String {
        let expr = self.expr(e);
        match (expr.kind, expr.detail) {
            (kind::MISSING, _) => MISSING.to_string(),
            (kind::LITERAL, detail::STRING) => attribute(&self.text(expr.text)),
            _ => format!("${{{}}}", self.doc(e, OPEN).flat()),
        }
    }

    fn interpolation(&self, opening: &str, items: &[Item], closing: &str) -> Vec<Doc> {
        let mut parts = vec![text(opening)];
        for item in items {
            parts.extend([text("${"), self.doc(item.expr, OPEN), text("}")]);
        }
        parts.push(text(closing));
        parts
    }

    /// `x:`, `{ a, b ? 1 }:` or `{ a }@x:`.
    fn pattern(&self, items: &[Item]) -> String {
        let fields = items.iter().filter(|item| item.role == role::PATTERN_FIELD);
        let fields: Vec<String> = fields.map(|item| self.field(item)).collect();
        let fields = match &fields[..] {
            [] => "{ }".to_string(),
            fields => format!("{{ {} }}", fields.join(", ")),
        };
        match items {
            [parameter] if parameter.role == role::PARAMETER => {
                format!("{}:", self.name(parameter.name))
            }
            [parameter, ..] if parameter.role == role::PARAMETER => {
                format!("{fields}@{}:", self.name(parameter.name))
            }
            _ => format!("{fields}:"),
        }
    }

    fn field(&self, item: &Item) -> String {
        let name = self.name(item.name);
        if item.expr == NONE {
            return name;
        }
        format!("{name} ? {}", self.doc(item.expr, OPEN).flat())
    }

    fn name(&self, name: u32) -> String {
        let name = self.tree.names.get(name as usize);
        name.map_or(MISSING.to_string(), |name| attribute(&self.text(name.text)))
    }

    /// The bindings in their order, those of one inherit together.
    fn bindings(&self, items: &[Item]) -> Vec<Doc> {
        let mut docs = Vec::new();
        let mut bases: Vec<u32> = Vec::new();
        let mut rest = items.iter().peekable();
        while let Some(item) = rest.next() {
            let doc = match item.role {
                role::STATIC => self.binding(self.name(item.name), item),
                role::INHERIT => self.inherit(item, &mut rest),
                role::INHERIT_FROM => {
                    let base = self.base(item);
                    bases.push(base);
                    self.inherit_from(base, item, &mut rest)
                }
                role::DYNAMIC_KEY => {
                    let value = rest.next().expect("a value behind its key");
                    self.binding(self.key(item.expr), value)
                }
                // A base of which nothing is taken has no other place.
                _ if bases.contains(&item.expr) => continue,
                _ => Doc::Group(vec![
                    text("inherit ("),
                    self.doc(item.expr, OPEN),
                    text(");"),
                ]),
            };
            docs.push(doc);
        }
        docs
    }

    fn binding(&self, name: String, value: &Item) -> Doc {
        let value = self.doc(value.expr, OPEN);
        Doc::Group(vec![text(name), text(" = "), value, text(";")])
    }

    fn inherit<'a>(&self, item: &Item, rest: &mut Peekable<impl Iterator<Item = &'a Item>>) -> Doc {
        let mut names = vec![self.inherited(item)];
        while let Some(item) = rest.next_if(|item| item.role == role::INHERIT) {
            names.push(self.inherited(item));
        }
        text(format!("inherit {};", names.join(" ")))
    }

    /// The name of an Inherit, which is also the text of its Reference.
    fn inherited(&self, item: &Item) -> String {
        let name = self.name(item.name);
        let reference = self.text(self.expr(item.expr).text);
        assert_eq!(name, reference, "no source inherits one name by another");
        name
    }

    fn inherit_from<'a>(
        &self,
        base: u32,
        item: &Item,
        rest: &mut Peekable<impl Iterator<Item = &'a Item>>,
    ) -> Doc {
        let mut parts = vec![text("inherit ("), self.doc(base, OPEN), text(")")];
        let mut put = |item: &Item| parts.push(text(format!(" {}", self.name(item.name))));
        put(item);
        let goes_on = |item: &&Item| item.role == role::INHERIT_FROM && self.base(item) == base;
        while let Some(item) = rest.next_if(goes_on) {
            put(item);
        }
        parts.push(text(";"));
        Doc::Group(parts)
    }

    /// What an InheritFrom selects its name from.
    fn base(&self, item: &Item) -> u32 {
        let selection = self.expr(item.expr);
        let keys = &selection.items[1..];
        let is_own = selection.kind == kind::SELECT
            && matches!(keys, [key] if self.key(key.expr) == self.name(item.name));
        assert!(is_own, "a source selects the name from the base");
        selection.items[0].expr
    }
}

fn enclosed(opening: &str, parts: Vec<Doc>, closing: &str) -> Vec<Doc> {
    vec![text(opening), nested(parts), Doc::Line, text(closing)]
}

/// An attribute's name as it is, or in quotes where it would be read as something else.
fn attribute(name: &str) -> String {
    let starts = |c: char| c.is_ascii_alphabetic() || c == '_';
    let goes_on = |c: char| c.is_ascii_alphanumeric() || "_'-".contains(c);
    if name.starts_with(starts) && name.chars().all(goes_on) && !KEYWORDS.contains(&name) {
        return name.to_string();
    }
    quoted(name)
}

fn quoted(text: &str) -> String {
    let text = text.replace('\\', "\\\\").replace('"', "\\\"");
    let text = text.replace("${", "\\${").replace('\n', "\\n");
    let text = text.replace('\r', "\\r").replace('\t', "\\t");
    format!("\"{text}\"")
}

#[cfg(test)]
mod tests;

//! A tree read back from its image, so that who was sent bytes finds what to ask.
//!
//! ```
//! use lang_ast::view::{ExprKind, Role};
//! use lang_ast::tree::BinOpKind;
//! use lang_ast::{Error, Image};
//!
//! # fn main() -> Result<(), Error> {
//! # let bytes: &[u8] = include_bytes!("../../../examples/printed.image");
//! // x: if x == null then let y = x; in y else x
//! let image = Image::check(bytes)?;
//! let (resolution, indices) = (image.name_resolution(1000)?, image.module_indices()?);
//!
//! // What stands behind `if` and `assert`, and what each tells.
//! let mut told = Vec::new();
//! for condition in image.exprs().filter_map(|expr| expr.condition()) {
//!     let info = image.analyze_condition(&resolution, &indices, condition, 1000)?;
//!     told.extend(info.then_branch.iter().map(|it| it.display(&image).to_string()));
//! }
//! assert_eq!(told, [r#""x" is null"#]);
//!
//! // The entry is a Lambda with a parameter of its own and a body.
//! let entry = image.expr(image.entry_expr()).filter(|expr| expr.kind() == ExprKind::Lambda);
//! let roles: Vec<Role> = entry.iter().flat_map(|expr| expr.items()).map(|item| item.role).collect();
//! assert_eq!(roles, [Role::Parameter, Role::Child]);
//! let equal = |kind| kind == ExprKind::BinOp(BinOpKind::Equal);
//! assert_eq!(image.exprs().filter(|expr| equal(expr.kind())).count(), 1);
//!
//! // A name by its text, and what binds it.
//! let y = image.names_by_text("y").next();
//! assert_eq!(y.and_then(|y| indices.binding_expr(y)).map(|expr| expr.number()), Some(3));
//! # Ok(())
//! # }
//! ```

use crate::Image;
pub use crate::format::Role;
use crate::format::{ExprWord, ItemWord, Kind, NONE, NameWord, Sections, of_number};
use crate::id::{ExprId, NameId, TextId, TreeId};
use crate::tree::{BinOpKind, Literal, NameKind, UnaryOpKind};

/// What an expression is, without its parts: the kinds of `lang_ast`'s `Expr`, with what they hold besides expressions
/// and names.
#[derive(Clone, Copy, Debug, PartialEq, Eq)]
pub enum ExprKind<'i> {
    /// What could not be parsed.
    Missing,
    /// `fun arg`
    Apply,
    /// `if cond then then_body else else_body`
    IfThenElse,
    /// A literal, with its text where it is a string.
    Literal(Literal<'i>),
    /// `param: body`, `{ pat }: body` or both
    Lambda,
    /// `let bindings in body`
    LetIn,
    /// `[ .. ]`
    List,
    /// `lhs op rhs`
    BinOp(BinOpKind),
    /// `{ .. }`
    AttrSet {
        /// Whether it is `rec`.
        is_rec: bool,
    },
    /// `op expr`
    UnaryOp(UnaryOpKind),
    /// A name where it is used, with its text.
    Reference(&'i [u8]),
    /// `set.attrpath or default_expr`
    Select,
    /// `set ? attrpath`
    HasAttr,
    /// `with env; body`
    With,
    /// `assert cond; body`
    Assert,
    /// `"..${e}.."`
    StringInterpolation,
    /// `./..${e}..`
    PathInterpolation,
}

/// A part of an expression: what it is there, with its name or its expression or both.
#[derive(Clone, Copy, Debug, PartialEq, Eq, Hash)]
pub struct Item {
    /// What it is to the expression.
    pub role: Role,
    /// The name that it binds: of a binding and a parameter, perhaps of a field.
    pub name: Option<NameId>,
    /// The expression: all have one but a parameter and a field without a default.
    pub expr: Option<ExprId>,
}

impl Item {
    fn of(tree: TreeId, word: ItemWord) -> Self {
        Item {
            role: word.role(),
            name: word.name_number().map(|name| NameId::new(tree, name)),
            expr: word.expr_number().map(|expr| ExprId::new(tree, expr)),
        }
    }
}

/// A name that something binds, with its text and by what it is bound.
#[derive(Clone, Copy, Debug, PartialEq, Eq, Hash)]
pub struct Name<'i> {
    /// Its text, which may be any bytes.
    pub text: &'i [u8],
    /// What binds it.
    pub kind: NameKind,
}

impl<'i> Name<'i> {
    /// An accepted image has the text.
    fn of(sections: &Sections<'i>, word: NameWord) -> Self {
        Name {
            text: sections.text(word.text().into()).unwrap_or_default(),
            kind: of_number(NameKind::ALL, NameKind::LetIn, word.kind().into()),
        }
    }
}

/// An expression of an image.
#[derive(Clone, Copy, Debug)]
pub struct ExprView<'i> {
    id: ExprId,
    word: ExprWord,
    sections: Sections<'i>,
}

impl<'i> ExprView<'i> {
    /// Its id.
    #[must_use]
    pub fn id(&self) -> ExprId {
        self.id
    }

    /// What it is.
    #[must_use]
    pub fn kind(&self) -> ExprKind<'i> {
        let detail = self.word.detail();
        match self.word.kind() {
            Kind::Missing => ExprKind::Missing,
            Kind::Apply => ExprKind::Apply,
            Kind::IfThenElse => ExprKind::IfThenElse,
            Kind::Literal => ExprKind::Literal(self.literal(detail)),
            Kind::Lambda => ExprKind::Lambda,
            Kind::LetIn => ExprKind::LetIn,
            Kind::List => ExprKind::List,
            Kind::BinOp => {
                ExprKind::BinOp(of_number(BinOpKind::ALL, BinOpKind::Add, detail.into()))
            }
            Kind::AttrSet => ExprKind::AttrSet {
                is_rec: detail == 1,
            },
            Kind::UnaryOp => {
                let op = of_number(UnaryOpKind::ALL, UnaryOpKind::Invert, detail.into());
                ExprKind::UnaryOp(op)
            }
            Kind::Reference => ExprKind::Reference(self.text()),
            Kind::Select => ExprKind::Select,
            Kind::HasAttr => ExprKind::HasAttr,
            Kind::With => ExprKind::With,
            Kind::Assert => ExprKind::Assert,
            Kind::StringInterpolation => ExprKind::StringInterpolation,
            Kind::PathInterpolation => ExprKind::PathInterpolation,
        }
    }

    fn literal(&self, detail: u8) -> Literal<'i> {
        let all = [
            Literal::Float,
            Literal::Integer,
            Literal::String(self.text()),
            Literal::Path,
            Literal::Uri,
        ];
        of_number(all, Literal::Float, detail.into())
    }

    /// An accepted image has the text of a Reference and of a String literal.
    fn text(&self) -> &'i [u8] {
        let text = self.sections.text(self.word.text().into());
        text.unwrap_or_default()
    }

    /// Its parts, in their order.
    #[must_use]
    pub fn items(&self) -> impl ExactSizeIterator<Item = Item> + use<'i> {
        let tree = self.id.tree;
        let words = self.sections.items_of(self.word);
        words.map(move |word| Item::of(tree, word))
    }

    /// The expressions of its parts that have this role, in their order.
    pub fn exprs_of(&self, role: Role) -> impl Iterator<Item = ExprId> + use<'i> {
        let items = self.items().filter(move |item| item.role == role);
        items.filter_map(|item| item.expr)
    }

    /// What stands behind `if` or `assert`, where it is one of these: a condition to ask.
    #[must_use]
    pub fn condition(&self) -> Option<ExprId> {
        match self.kind() {
            ExprKind::IfThenElse | ExprKind::Assert => self.exprs_of(Role::Child).next(),
            _ => None,
        }
    }
}

/// Reading the tree that the image is of. An id of another tree is of nothing here.
impl Image<'_> {
    /// The expression that the tree starts at.
    #[must_use]
    pub fn entry_expr(&self) -> ExprId {
        ExprId::new(self.tree, number(self.sections().entry))
    }

    /// How many expressions there are: their numbers are all below.
    #[must_use]
    pub fn expr_count(&self) -> usize {
        self.sections().expr_count()
    }

    /// How many names there are.
    #[must_use]
    pub fn name_count(&self) -> usize {
        self.sections().name_count()
    }

    /// How many texts there are. Equal texts may stand twice in an image that this crate has not written.
    #[must_use]
    pub fn text_count(&self) -> usize {
        self.sections().text_count()
    }

    /// How many parts all expressions have together.
    #[must_use]
    pub fn item_count(&self) -> usize {
        self.sections().item_count()
    }

    /// The expression of a number.
    #[must_use]
    pub fn expr_id(&self, number: u16) -> Option<ExprId> {
        let known = usize::from(number) < self.expr_count();
        known.then(|| ExprId::new(self.tree, number))
    }

    /// The name of a number.
    #[must_use]
    pub fn name_id(&self, number: u16) -> Option<NameId> {
        let known = usize::from(number) < self.name_count();
        known.then(|| NameId::new(self.tree, number))
    }

    /// An expression, to be read.
    #[must_use]
    pub fn expr(&self, expr: ExprId) -> Option<ExprView<'_>> {
        let sections = self.sections();
        let word = sections.expr(expr.place_in(self.tree)?)?;
        Some(ExprView {
            id: expr,
            word,
            sections,
        })
    }

    /// All expressions, children before what they are part of.
    #[must_use]
    pub fn exprs(&self) -> impl ExactSizeIterator<Item = ExprView<'_>> {
        let (tree, sections) = (self.tree, self.sections());
        numbered(sections.exprs()).map(move |(number, word)| ExprView {
            id: ExprId::new(tree, number),
            word,
            sections,
        })
    }

    /// A name, to be read.
    #[must_use]
    pub fn name(&self, name: NameId) -> Option<Name<'_>> {
        let sections = self.sections();
        let word = sections.name(name.place_in(self.tree)?)?;
        Some(Name::of(&sections, word))
    }

    /// All names, by their numbers.
    #[must_use]
    pub fn names(&self) -> impl ExactSizeIterator<Item = (NameId, Name<'_>)> {
        let (tree, sections) = (self.tree, self.sections());
        let names = numbered(sections.names());
        names.map(move |(number, word)| (NameId::new(tree, number), Name::of(&sections, word)))
    }

    /// The names that have this text, by their numbers: one for each that binds it.
    pub fn names_by_text(&self, text: impl AsRef<[u8]>) -> impl Iterator<Item = NameId> {
        let alike = move |name: &Name<'_>| name.text == text.as_ref();
        let names = self.names().filter(move |(_, name)| alike(name));
        names.map(|(id, _)| id)
    }

    /// All texts, by their numbers.
    #[must_use]
    pub fn texts(&self) -> impl ExactSizeIterator<Item = (TextId, &[u8])> {
        let (tree, sections) = (self.tree, self.sections());
        let texts = numbered(sections.texts());
        texts.map(move |(number, text)| (TextId::new(tree, number), text))
    }

    /// The bytes of a text.
    #[must_use]
    pub fn text(&self, text: TextId) -> Option<&[u8]> {
        self.sections().text(text.place_in(self.tree)?)
    }

    /// They are there, since refusal 1 has been ruled out.
    pub(crate) fn sections(&self) -> Sections<'_> {
        Sections::of(&self.bytes).unwrap_or_default()
    }
}

/// The number of a place: none has more than 14 bits.
fn number(place: usize) -> u16 {
    u16::try_from(place).unwrap_or(NONE)
}

/// The entries of a table with their numbers.
fn numbered<T>(
    entries: impl ExactSizeIterator<Item = T>,
) -> impl ExactSizeIterator<Item = (u16, T)> {
    let places = entries.enumerate();
    places.map(|(place, entry)| (number(place), entry))
}

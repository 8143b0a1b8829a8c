//! A tree in Rust, and its image: expressions are pushed children first, as a lowering meets them.

use std::collections::HashMap;
use std::fmt;

use crate::format::{
    ExprWord, ItemWord, Kind, LONGEST_TEXT, MOST_NUMBERED, MOST_RUN, NONE, NameWord, Role,
    TextWord, Words,
};
use crate::id::TreeId;
pub use crate::id::{ExprId, NameId, TextId};
use crate::{Error, Image};

/// The keys of a selection, each an expression: a String literal where the key is known.
pub type Attrpath<'a> = &'a [ExprId];

/// The fields of a parameter's pattern, each with its name and its default. A tree does not keep an ellipsis.
pub type Pat<'a> = &'a [(Option<NameId>, Option<ExprId>)];

/// An expression, as it is pushed. Kinds and fields are those of `lang_ast`'s `Expr`.
#[derive(Clone, Copy, Debug, PartialEq, Eq)]
pub enum Expr<'a> {
    /// What could not be parsed.
    Missing,
    /// `fun arg`
    Apply {
        /// What is called.
        fun: ExprId,
        /// What it is called with.
        arg: ExprId,
    },
    /// `if cond then then_body else else_body`
    IfThenElse {
        /// The condition.
        cond: ExprId,
        /// What holds where it is true.
        then_body: ExprId,
        /// What holds where it is false.
        else_body: ExprId,
    },
    /// A literal.
    Literal(Literal<'a>),
    /// `param: body`, `{ pat }: body` or both
    Lambda {
        /// The parameter's own name.
        param: Option<NameId>,
        /// The fields of its pattern.
        pat: Pat<'a>,
        /// The function's body.
        body: ExprId,
    },
    /// `let bindings in body`
    LetIn {
        /// What stands between `let` and `in`.
        bindings: Bindings<'a>,
        /// What stands behind `in`.
        body: ExprId,
    },
    /// `[ .. ]`
    List(&'a [ExprId]),
    /// `lhs op rhs`
    BinOp {
        /// The left side.
        lhs: ExprId,
        /// The right side.
        rhs: ExprId,
        /// The operator.
        op: BinOpKind,
    },
    /// `{ .. }`
    AttrSet {
        /// Whether it is `rec`.
        is_rec: bool,
        /// What stands in it.
        bindings: Bindings<'a>,
    },
    /// `op expr`
    UnaryOp {
        /// The operator.
        op: UnaryOpKind,
        /// What it is applied to.
        expr: ExprId,
    },
    /// A name where it is used; `null`, `true` and `false` too. See [`Expr::reference`].
    Reference(&'a [u8]),
    /// `set.attrpath or default_expr`
    Select {
        /// What is selected from.
        set: ExprId,
        /// The keys.
        attrpath: Attrpath<'a>,
        /// What stands behind `or`.
        default_expr: Option<ExprId>,
    },
    /// `set ? attrpath`
    HasAttr {
        /// What is asked.
        set: ExprId,
        /// The keys.
        attrpath: Attrpath<'a>,
    },
    /// `with env; body`
    With {
        /// The set whose names are to be had.
        env: ExprId,
        /// Where they are.
        body: ExprId,
    },
    /// `assert cond; body`
    Assert {
        /// The condition.
        cond: ExprId,
        /// What stands behind it.
        body: ExprId,
    },
    /// `"..${e}.."`: what stands between the braces, without the literal parts
    StringInterpolation(&'a [ExprId]),
    /// `./..${e}..`, likewise
    PathInterpolation(&'a [ExprId]),
}

impl<'a> Expr<'a> {
    /// The reference of a text, which may be any bytes.
    pub fn reference(text: &'a (impl AsRef<[u8]> + ?Sized)) -> Self {
        Expr::Reference(text.as_ref())
    }

    /// The String literal of a text, which may be any bytes.
    pub fn string(text: &'a (impl AsRef<[u8]> + ?Sized)) -> Self {
        Expr::Literal(Literal::String(text.as_ref()))
    }
}

/// A literal. Only strings keep what they are: no call asks for the others' values.
#[derive(Clone, Copy, Debug, PartialEq, Eq)]
pub enum Literal<'a> {
    /// `1.0`
    Float,
    /// `1`
    Integer,
    /// `"a"`, also the key `a` of a path
    String(&'a [u8]),
    /// `./a`
    Path,
    /// `https://a`
    Uri,
}

/// Binary operators.
#[derive(Clone, Copy, Debug, PartialEq, Eq, Hash)]
#[repr(u8)]
pub enum BinOpKind {
    /// `+`
    Add,
    /// `-`
    Sub,
    /// `*`
    Mul,
    /// `/`
    Div,
    /// `<`
    Less,
    /// `<=`
    LessOrEq,
    /// `>`
    More,
    /// `>=`
    MoreOrEq,
    /// `!=`
    NotEqual,
    /// `==`
    Equal,
    /// `&&`
    And,
    /// `->`
    Implication,
    /// `||`
    Or,
    /// `++`
    ListConcat,
    /// `//`
    AttrUpdate,
}

/// Unary operators.
#[derive(Clone, Copy, Debug, PartialEq, Eq, Hash)]
#[repr(u8)]
pub enum UnaryOpKind {
    /// `!`
    Invert,
    /// `-`
    Negate,
}

/// What binds a name. In a set that is not `rec`, names define nothing.
#[derive(Clone, Copy, Debug, PartialEq, Eq, Hash)]
#[repr(u8)]
pub enum NameKind {
    /// A let.
    LetIn,
    /// A set that is not `rec`.
    PlainAttrset,
    /// A `rec` set.
    RecAttrset,
    /// A parameter.
    Param,
    /// A field of a pattern.
    PatField,
}

/// The bindings of a let or a set.
#[derive(Clone, Copy, Debug, Default, PartialEq, Eq)]
pub struct Bindings<'a> {
    /// Names with what they are bound to.
    pub statics: &'a [(NameId, BindingValue)],
    /// `e` of each `inherit (e) ..`. The selections of [`BindingValue::InheritFrom`] are from this very expression: names
    /// are looked up for it and not for them, so that a `builtins` of their own would stay unresolved.
    pub inherit_froms: &'a [ExprId],
    /// `${key} = value;`
    pub dynamics: &'a [(ExprId, ExprId)],
}

/// What a name is bound to.
#[derive(Clone, Copy, Debug, PartialEq, Eq, Hash)]
pub enum BindingValue {
    /// `name = e;`
    Expr(ExprId),
    /// `inherit name;`, with the Reference of that name
    Inherit(ExprId),
    /// `inherit (e) name;`, with the selection of that name from `e`
    InheritFrom(ExprId),
}

/// Why a tree did not take what it was given. It is then as it was before.
#[derive(Clone, Copy, Debug, PartialEq, Eq, Hash)]
#[non_exhaustive]
pub enum TreeError {
    /// An id of another tree, or one that this tree has not given out.
    UnknownId,
    /// An Inherit of something else than a Reference.
    InheritOfNoReference,
    /// More than 16,383 expressions.
    TooManyExprs,
    /// More than 16,383 names.
    TooManyNames,
    /// More than 16,383 distinct texts.
    TooManyTexts,
    /// More than 1,048,575 items: parts of expressions, counted over the tree.
    TooManyItems,
    /// More than 1,048,575 bytes in all distinct texts.
    TooManyTextBytes,
    /// A text of more than 4,095 bytes.
    TextTooLong,
}

impl fmt::Display for TreeError {
    fn fmt(&self, to: &mut fmt::Formatter<'_>) -> fmt::Result {
        to.write_str(match self {
            TreeError::UnknownId => "an id that is not of this tree",
            TreeError::InheritOfNoReference => "an inherit of something else than a reference",
            TreeError::TooManyExprs => "more than 16383 expressions",
            TreeError::TooManyNames => "more than 16383 names",
            TreeError::TooManyTexts => "more than 16383 texts",
            TreeError::TooManyItems => "more than 1048575 items",
            TreeError::TooManyTextBytes => "more than 1048575 bytes of texts",
            TreeError::TextTooLong => "a text of more than 4095 bytes",
        })
    }
}

impl std::error::Error for TreeError {}

impl BinOpKind {
    /// The operator of each detail.
    pub(crate) const ALL: [BinOpKind; 15] = [
        BinOpKind::Add,
        BinOpKind::Sub,
        BinOpKind::Mul,
        BinOpKind::Div,
        BinOpKind::Less,
        BinOpKind::LessOrEq,
        BinOpKind::More,
        BinOpKind::MoreOrEq,
        BinOpKind::NotEqual,
        BinOpKind::Equal,
        BinOpKind::And,
        BinOpKind::Implication,
        BinOpKind::Or,
        BinOpKind::ListConcat,
        BinOpKind::AttrUpdate,
    ];
}

impl UnaryOpKind {
    /// The operator of each detail.
    pub(crate) const ALL: [UnaryOpKind; 2] = [UnaryOpKind::Invert, UnaryOpKind::Negate];
}

impl NameKind {
    /// The kind of each number.
    pub(crate) const ALL: [NameKind; 5] = [
        NameKind::LetIn,
        NameKind::PlainAttrset,
        NameKind::RecAttrset,
        NameKind::Param,
        NameKind::PatField,
    ];

    /// Whether a name of this kind can be referred to: all can, but those of a set that is not `rec`.
    #[must_use]
    pub fn is_definition(self) -> bool {
        self != NameKind::PlainAttrset
    }
}

/// A tree that grows: names and expressions are pushed, an expression after all that it is made of.
///
/// ```
/// use lang_ast::tree::{BinOpKind, Expr, NameKind, Tree};
///
/// # fn main() -> Result<(), lang_ast::Error> {
/// // x: x == null
/// let mut tree = Tree::new();
/// let name = tree.name("x", NameKind::Param)?;
/// let lhs = tree.push(Expr::reference("x"))?;
/// let rhs = tree.push(Expr::reference("null"))?;
/// let op = BinOpKind::Equal;
/// let body = tree.push(Expr::BinOp { lhs, rhs, op })?;
/// let param = Some(name);
/// let entry = tree.push(Expr::Lambda { param, pat: &[], body })?;
/// let image = tree.encode(entry)?;
/// assert_eq!(image.as_bytes().len(), 77);
/// # Ok(())
/// # }
/// ```
#[derive(Debug)]
pub struct Tree {
    id: TreeId,
    words: Words,
    /// The number of each text: equal texts are one.
    texts: HashMap<Box<[u8]>, u16>,
}

impl Default for Tree {
    fn default() -> Self {
        Tree::new()
    }
}

/// The number of the next in a table that 14 bits count.
fn next(length: usize, full: TreeError) -> Result<u16, TreeError> {
    let number = u16::try_from(length).map_err(|_| full)?;
    if length < MOST_NUMBERED {
        Ok(number)
    } else {
        Err(full)
    }
}

impl Tree {
    /// A tree of nothing.
    #[must_use]
    pub fn new() -> Self {
        Tree {
            id: TreeId::fresh(),
            words: Words::default(),
            texts: HashMap::new(),
        }
    }

    /// A text, the same for equal bytes. Names and expressions take their texts by themselves.
    ///
    /// # Errors
    ///
    /// [`TreeError`]: the text is too long, or there are too many texts or bytes of them.
    pub fn text(&mut self, text: impl AsRef<[u8]>) -> Result<TextId, TreeError> {
        let number = self.text_number(text.as_ref())?;
        Ok(TextId::new(self.id, number))
    }

    fn text_number(&mut self, text: &[u8]) -> Result<u16, TreeError> {
        if let Some(&number) = self.texts.get(text) {
            return Ok(number);
        }
        if text.len() > LONGEST_TEXT {
            return Err(TreeError::TextTooLong);
        }
        let number = next(self.words.texts.len(), TreeError::TooManyTexts)?;
        let first = self.words.bytes.len();
        if text.len() > MOST_RUN - first {
            return Err(TreeError::TooManyTextBytes);
        }
        self.words.bytes.extend_from_slice(text);
        self.words.texts.push(TextWord::new(first, text.len()));
        self.texts.insert(text.into(), number);
        Ok(number)
    }

    /// A name that something will bind: each binding, parameter and field has one of its own.
    ///
    /// # Errors
    ///
    /// [`TreeError`]: there are too many names, or their text is not taken.
    pub fn name(&mut self, text: impl AsRef<[u8]>, kind: NameKind) -> Result<NameId, TreeError> {
        let number = next(self.words.names.len(), TreeError::TooManyNames)?;
        let text = self.text_number(text.as_ref())?;
        self.words.names.push(NameWord::new(text, kind as u8));
        Ok(NameId::new(self.id, number))
    }

    /// The expression, for others to be made of.
    ///
    /// # Errors
    ///
    /// [`TreeError`]: a part is not of this tree, an Inherit names something else than a Reference, a text is not taken, or
    /// there are too many expressions or parts. The tree then stays as it was.
    pub fn push(&mut self, expr: Expr<'_>) -> Result<ExprId, TreeError> {
        let first = self.words.items.len();
        let pushed = self.push_word(&expr, first);
        if pushed.is_err() {
            self.words.items.truncate(first);
        }
        Ok(ExprId::new(self.id, pushed?))
    }

    fn push_word(&mut self, expr: &Expr<'_>, first: usize) -> Result<u16, TreeError> {
        let number = next(self.words.exprs.len(), TreeError::TooManyExprs)?;
        self.items(expr)?;
        let (kind, detail, text) = fields(expr);
        let text = text.map_or(Ok(NONE), |text| self.text_number(text))?;
        let count = self.words.items.len() - first;
        let word = ExprWord::new(kind, detail, text, first, count);
        self.words.exprs.push(word);
        Ok(number)
    }

    /// The image of the tree that starts at an expression. It is checked as one that came from elsewhere.
    ///
    /// # Errors
    ///
    /// [`TreeError::UnknownId`] where the entry is not of this tree; [`Error::Version`] where the linked archive is another's.
    pub fn encode(&self, entry: ExprId) -> Result<Image<'static>, Error> {
        self.expr_number(entry)?;
        let image = self.words.encode(entry.number);
        Image::checked(image.into(), self.id)
    }

    fn expr_number(&self, expr: ExprId) -> Result<u16, TreeError> {
        let place = expr.place_in(self.id).ok_or(TreeError::UnknownId)?;
        let known = place < self.words.exprs.len();
        known.then_some(expr.number).ok_or(TreeError::UnknownId)
    }

    fn name_number(&self, name: NameId) -> Result<u16, TreeError> {
        let place = name.place_in(self.id).ok_or(TreeError::UnknownId)?;
        let known = place < self.words.names.len();
        known.then_some(name.number).ok_or(TreeError::UnknownId)
    }

    fn items(&mut self, expr: &Expr<'_>) -> Result<(), TreeError> {
        match *expr {
            Expr::Missing | Expr::Literal(_) | Expr::Reference(_) => Ok(()),
            Expr::Apply { fun: a, arg: b }
            | Expr::BinOp { lhs: a, rhs: b, .. }
            | Expr::With { env: a, body: b }
            | Expr::Assert { cond: a, body: b } => self.children(&[a, b]),
            Expr::IfThenElse {
                cond,
                then_body,
                else_body,
            } => self.children(&[cond, then_body, else_body]),
            Expr::Lambda { param, pat, body } => self.lambda(param, pat, body),
            Expr::LetIn { bindings, body } => {
                self.bindings(bindings)?;
                self.children(&[body])
            }
            Expr::AttrSet { bindings, .. } => self.bindings(bindings),
            Expr::UnaryOp { expr, .. } => self.children(&[expr]),
            Expr::Select {
                set,
                attrpath,
                default_expr,
            } => {
                self.path(set, attrpath)?;
                self.each(Role::Default, default_expr.as_slice())
            }
            Expr::HasAttr { set, attrpath } => self.path(set, attrpath),
            Expr::List(parts)
            | Expr::StringInterpolation(parts)
            | Expr::PathInterpolation(parts) => self.children(parts),
        }
    }

    fn item(
        &mut self,
        role: Role,
        name: Option<NameId>,
        expr: Option<ExprId>,
    ) -> Result<(), TreeError> {
        let name = name.map_or(Ok(NONE), |name| self.name_number(name))?;
        let expr = expr.map_or(Ok(NONE), |expr| self.expr_number(expr))?;
        if self.words.items.len() >= MOST_RUN {
            return Err(TreeError::TooManyItems);
        }
        self.words.items.push(ItemWord::new(role, name, expr));
        Ok(())
    }

    fn each(&mut self, role: Role, exprs: &[ExprId]) -> Result<(), TreeError> {
        let mut exprs = exprs.iter();
        exprs.try_for_each(|&expr| self.item(role, None, Some(expr)))
    }

    fn children(&mut self, exprs: &[ExprId]) -> Result<(), TreeError> {
        self.each(Role::Child, exprs)
    }

    fn path(&mut self, set: ExprId, attrpath: Attrpath<'_>) -> Result<(), TreeError> {
        self.children(&[set])?;
        self.each(Role::PathKey, attrpath)
    }

    fn lambda(
        &mut self,
        param: Option<NameId>,
        pat: Pat<'_>,
        body: ExprId,
    ) -> Result<(), TreeError> {
        if param.is_some() {
            self.item(Role::Parameter, param, None)?;
        }
        for &(name, default_expr) in pat {
            self.item(Role::PatternField, name, default_expr)?;
        }
        self.children(&[body])
    }

    fn bindings(&mut self, bindings: Bindings<'_>) -> Result<(), TreeError> {
        for &(name, value) in bindings.statics {
            let (role, expr) = match value {
                BindingValue::Expr(expr) => (Role::Static, expr),
                BindingValue::Inherit(expr) => (Role::Inherit, self.reference(expr)?),
                BindingValue::InheritFrom(expr) => (Role::InheritFrom, expr),
            };
            self.item(role, Some(name), Some(expr))?;
        }
        self.each(Role::InheritBase, bindings.inherit_froms)?;
        for &(key, value) in bindings.dynamics {
            self.item(Role::DynamicKey, None, Some(key))?;
            self.item(Role::DynamicValue, None, Some(value))?;
        }
        Ok(())
    }

    /// The same expression, where it is a Reference.
    fn reference(&self, expr: ExprId) -> Result<ExprId, TreeError> {
        let place = usize::from(self.expr_number(expr)?);
        let word = self.words.exprs.get(place);
        let is_reference = word.is_some_and(|word| word.is(Kind::Reference));
        is_reference
            .then_some(expr)
            .ok_or(TreeError::InheritOfNoReference)
    }
}

/// The kind, the detail and the text of an expression.
fn fields<'a>(expr: &Expr<'a>) -> (Kind, u8, Option<&'a [u8]>) {
    match *expr {
        Expr::Missing => (Kind::Missing, 0, None),
        Expr::Apply { .. } => (Kind::Apply, 0, None),
        Expr::IfThenElse { .. } => (Kind::IfThenElse, 0, None),
        Expr::Literal(literal) => {
            let (detail, text) = literal_fields(literal);
            (Kind::Literal, detail, text)
        }
        Expr::Lambda { .. } => (Kind::Lambda, 0, None),
        Expr::LetIn { .. } => (Kind::LetIn, 0, None),
        Expr::List(_) => (Kind::List, 0, None),
        Expr::BinOp { op, .. } => (Kind::BinOp, op as u8, None),
        Expr::AttrSet { is_rec, .. } => (Kind::AttrSet, is_rec.into(), None),
        Expr::UnaryOp { op, .. } => (Kind::UnaryOp, op as u8, None),
        Expr::Reference(text) => (Kind::Reference, 0, Some(text)),
        Expr::Select { .. } => (Kind::Select, 0, None),
        Expr::HasAttr { .. } => (Kind::HasAttr, 0, None),
        Expr::With { .. } => (Kind::With, 0, None),
        Expr::Assert { .. } => (Kind::Assert, 0, None),
        Expr::StringInterpolation(_) => (Kind::StringInterpolation, 0, None),
        Expr::PathInterpolation(_) => (Kind::PathInterpolation, 0, None),
    }
}

fn literal_fields(literal: Literal<'_>) -> (u8, Option<&[u8]>) {
    match literal {
        Literal::Float => (0, None),
        Literal::Integer => (1, None),
        Literal::String(text) => (2, Some(text)),
        Literal::Path => (3, None),
        Literal::Uri => (4, None),
    }
}

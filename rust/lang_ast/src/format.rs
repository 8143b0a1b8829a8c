//! The tree image (`docs/FORMAT.md`): its records as words, written and read.

use std::ops::Range;

/// In a field of 14 bits outside the header: no text, no name, no expression.
pub(crate) const NONE: u16 = 16383;
/// The most expressions, names or texts: what 14 bits count.
pub(crate) const MOST_NUMBERED: usize = 16383;
/// The most items or text bytes: what 20 bits count.
pub(crate) const MOST_RUN: usize = (1 << 20) - 1;
/// The longest text: what 12 bits count.
pub(crate) const LONGEST_TEXT: usize = 4095;

const HEADER_BYTES: usize = 12;

/// What stands for a number of a field; an accepted image has no number without one, so the first is never read for it.
pub(crate) fn of_number<T: Copy, const N: usize>(all: [T; N], first: T, number: u32) -> T {
    all.get(number as usize).copied().unwrap_or(first)
}

/// Kinds of expressions, in the order of `Expr`.
#[derive(Clone, Copy, Debug, PartialEq, Eq)]
#[repr(u8)]
pub(crate) enum Kind {
    Missing,
    Apply,
    IfThenElse,
    Literal,
    Lambda,
    LetIn,
    List,
    BinOp,
    AttrSet,
    UnaryOp,
    Reference,
    Select,
    HasAttr,
    With,
    Assert,
    StringInterpolation,
    PathInterpolation,
}

impl Kind {
    const ALL: [Kind; 17] = [
        Kind::Missing,
        Kind::Apply,
        Kind::IfThenElse,
        Kind::Literal,
        Kind::Lambda,
        Kind::LetIn,
        Kind::List,
        Kind::BinOp,
        Kind::AttrSet,
        Kind::UnaryOp,
        Kind::Reference,
        Kind::Select,
        Kind::HasAttr,
        Kind::With,
        Kind::Assert,
        Kind::StringInterpolation,
        Kind::PathInterpolation,
    ];
}

/// What an item is to the expression that it belongs to.
#[derive(Clone, Copy, Debug, PartialEq, Eq, Hash)]
#[repr(u8)]
pub enum Role {
    /// A part of an expression of this kind, in the order in which `Expr` lists its fields; a body too.
    Child,
    /// A key of a Select or a `HasAttr`.
    PathKey,
    /// What stands behind `or`.
    Default,
    /// A field of a pattern, perhaps with a name, perhaps with a default.
    PatternField,
    /// `name = e;`
    Static,
    /// `inherit name;`, with the Reference of that name.
    Inherit,
    /// `inherit (e) name;`, with the selection of that name from `e`.
    InheritFrom,
    /// `e` of an `inherit (e) ..`.
    InheritBase,
    /// The key of `${key} = value;`.
    DynamicKey,
    /// Its value, which stands behind it.
    DynamicValue,
    /// The parameter's own name.
    Parameter,
}

impl Role {
    const ALL: [Role; 11] = [
        Role::Child,
        Role::PathKey,
        Role::Default,
        Role::PatternField,
        Role::Static,
        Role::Inherit,
        Role::InheritFrom,
        Role::InheritBase,
        Role::DynamicKey,
        Role::DynamicValue,
        Role::Parameter,
    ];
}

/// An expression: kind 5, detail 5, text 14, first item 20, item count 20.
#[derive(Clone, Copy, Debug)]
pub(crate) struct ExprWord(u64);

impl ExprWord {
    /// The first item and the item count are below 2^20.
    pub(crate) fn new(kind: Kind, detail: u8, text: u16, first: usize, count: usize) -> Self {
        let head = u64::from(kind as u8) << 59 | u64::from(detail) << 54 | u64::from(text) << 40;
        ExprWord(head | (first as u64) << 20 | count as u64)
    }

    pub(crate) fn is(self, kind: Kind) -> bool {
        self.0 >> 59 == kind as u64
    }

    pub(crate) fn kind(self) -> Kind {
        of_number(Kind::ALL, Kind::Missing, (self.0 >> 59) as u32)
    }

    pub(crate) fn detail(self) -> u8 {
        (self.0 >> 54 & 0x1f) as u8
    }

    pub(crate) fn text(self) -> u16 {
        (self.0 >> 40 & 0x3fff) as u16
    }

    /// Where its items stand among all.
    pub(crate) fn items(self) -> Range<usize> {
        let first = (self.0 >> 20 & 0xf_ffff) as usize;
        first..first + self.item_count()
    }

    pub(crate) fn item_count(self) -> usize {
        (self.0 & 0xf_ffff) as usize
    }
}

/// An item: role 4, name 14, expression 14.
#[derive(Clone, Copy, Debug)]
pub(crate) struct ItemWord(u32);

impl ItemWord {
    pub(crate) fn new(role: Role, name: u16, expr: u16) -> Self {
        ItemWord(u32::from(role as u8) << 28 | u32::from(name) << 14 | u32::from(expr))
    }

    pub(crate) fn role(self) -> Role {
        of_number(Role::ALL, Role::Child, self.0 >> 28)
    }

    /// The name's number, or none.
    pub(crate) fn name_number(self) -> Option<u16> {
        number((self.0 >> 14 & 0x3fff) as u16)
    }

    /// The expression's number, or none.
    pub(crate) fn expr_number(self) -> Option<u16> {
        number((self.0 & 0x3fff) as u16)
    }

    /// The expression's place; past every expression where there is none.
    pub(crate) fn expr(self) -> usize {
        (self.0 & 0x3fff) as usize
    }
}

/// A field of 14 bits that may have none.
fn number(field: u16) -> Option<u16> {
    (field != NONE).then_some(field)
}

/// A name: text 14, kind 3, zero 15.
#[derive(Clone, Copy, Debug)]
pub(crate) struct NameWord(u32);

impl NameWord {
    pub(crate) fn new(text: u16, kind: u8) -> Self {
        NameWord(u32::from(text) << 18 | u32::from(kind) << 15)
    }

    pub(crate) fn text(self) -> u16 {
        (self.0 >> 18) as u16
    }

    pub(crate) fn kind(self) -> u8 {
        (self.0 >> 15 & 7) as u8
    }
}

/// A text: first byte 20, length 12.
#[derive(Clone, Copy, Debug)]
pub(crate) struct TextWord(u32);

impl TextWord {
    /// The first byte is below 2^20, the length at most the longest.
    #[expect(clippy::cast_possible_truncation, reason = "both have their bits")]
    pub(crate) fn new(first: usize, length: usize) -> Self {
        TextWord((first as u32) << 12 | length as u32)
    }

    /// Where its bytes stand among the text bytes.
    pub(crate) fn range(self) -> Range<usize> {
        let (first, length) = ((self.0 >> 12) as usize, (self.0 & 0xfff) as usize);
        first..first + length
    }
}

/// The tables of an image as words, to be written.
#[derive(Debug, Default)]
pub(crate) struct Words {
    pub(crate) exprs: Vec<ExprWord>,
    pub(crate) names: Vec<NameWord>,
    pub(crate) texts: Vec<TextWord>,
    pub(crate) items: Vec<ItemWord>,
    pub(crate) bytes: Vec<u8>,
}

impl Words {
    /// The image of these tables, each within its most.
    pub(crate) fn encode(&self, entry: u16) -> Vec<u8> {
        let words = 2 * self.exprs.len() + self.names.len() + self.texts.len() + self.items.len();
        let mut image = Vec::with_capacity(HEADER_BYTES + 4 * words + self.bytes.len());
        image.extend_from_slice(&self.header(entry));
        image.extend(self.exprs.iter().flat_map(|word| word.0.to_be_bytes()));
        image.extend(self.names.iter().flat_map(|word| word.0.to_be_bytes()));
        image.extend(self.texts.iter().flat_map(|word| word.0.to_be_bytes()));
        image.extend(self.items.iter().flat_map(|word| word.0.to_be_bytes()));
        image.extend_from_slice(&self.bytes);
        image
    }

    /// Expressions 14, names 14, texts 14, items 20, text bytes 20, entry 14.
    fn header(&self, entry: u16) -> [u8; HEADER_BYTES] {
        let counts = (self.exprs.len() as u128) << 82
            | (self.names.len() as u128) << 68
            | (self.texts.len() as u128) << 54
            | (self.items.len() as u128) << 34
            | (self.bytes.len() as u128) << 14;
        let [_, _, _, _, header @ ..] = (counts | u128::from(entry)).to_be_bytes();
        header
    }
}

/// The tables of an image that has its header's length, as they stand there.
#[derive(Clone, Copy, Debug, Default)]
pub(crate) struct Sections<'a> {
    pub(crate) entry: usize,
    exprs: &'a [[u8; 8]],
    names: &'a [[u8; 4]],
    texts: &'a [[u8; 4]],
    items: &'a [[u8; 4]],
    bytes: &'a [u8],
}

impl<'a> Sections<'a> {
    pub(crate) fn of(image: &'a [u8]) -> Option<Self> {
        let (header, rest) = image.split_first_chunk::<HEADER_BYTES>()?;
        let bits = header.iter().fold(0, |bits, &b| bits << 8 | u128::from(b));
        let count = |shift: u32, width: u32| (bits >> shift) as usize & ((1 << width) - 1);
        let (exprs, rest) = rest.split_at_checked(8 * count(82, 14))?;
        let (names, rest) = rest.split_at_checked(4 * count(68, 14))?;
        let (texts, rest) = rest.split_at_checked(4 * count(54, 14))?;
        let (items, bytes) = rest.split_at_checked(4 * count(34, 20))?;
        (bytes.len() == count(14, 20)).then_some(Sections {
            entry: count(0, 14),
            exprs: exprs.as_chunks().0,
            names: names.as_chunks().0,
            texts: texts.as_chunks().0,
            items: items.as_chunks().0,
            bytes,
        })
    }

    pub(crate) fn expr_count(&self) -> usize {
        self.exprs.len()
    }

    pub(crate) fn name_count(&self) -> usize {
        self.names.len()
    }

    pub(crate) fn text_count(&self) -> usize {
        self.texts.len()
    }

    pub(crate) fn item_count(&self) -> usize {
        self.items.len()
    }

    pub(crate) fn exprs(&self) -> impl ExactSizeIterator<Item = ExprWord> + use<'a> {
        let words = self.exprs.iter();
        words.map(|&word| ExprWord(u64::from_be_bytes(word)))
    }

    pub(crate) fn expr(&self, place: usize) -> Option<ExprWord> {
        let &word = self.exprs.get(place)?;
        Some(ExprWord(u64::from_be_bytes(word)))
    }

    /// The items of all expressions, in the order of their owners.
    pub(crate) fn items(&self) -> impl ExactSizeIterator<Item = ItemWord> + use<'a> {
        item_words(self.items)
    }

    pub(crate) fn items_of(
        &self,
        expr: ExprWord,
    ) -> impl ExactSizeIterator<Item = ItemWord> + use<'a> {
        item_words(self.items.get(expr.items()).unwrap_or_default())
    }

    pub(crate) fn names(&self) -> impl ExactSizeIterator<Item = NameWord> + use<'a> {
        let words = self.names.iter();
        words.map(|&word| NameWord(u32::from_be_bytes(word)))
    }

    pub(crate) fn name(&self, place: usize) -> Option<NameWord> {
        let &word = self.names.get(place)?;
        Some(NameWord(u32::from_be_bytes(word)))
    }

    /// The bytes of a text.
    pub(crate) fn text(&self, place: usize) -> Option<&'a [u8]> {
        text_of(self.bytes, *self.texts.get(place)?)
    }

    /// The bytes of each text: an accepted image has them.
    pub(crate) fn texts(&self) -> impl ExactSizeIterator<Item = &'a [u8]> + use<'a> {
        let (words, bytes) = (self.texts.iter(), self.bytes);
        words.map(|&word| text_of(bytes, word).unwrap_or_default())
    }
}

fn text_of(bytes: &[u8], word: [u8; 4]) -> Option<&[u8]> {
    bytes.get(TextWord(u32::from_be_bytes(word)).range())
}

fn item_words(words: &[[u8; 4]]) -> impl ExactSizeIterator<Item = ItemWord> {
    words.iter().map(|&word| ItemWord(u32::from_be_bytes(word)))
}

#[cfg(test)]
mod tests {
    use super::*;

    fn widest() -> Words {
        Words {
            exprs: vec![ExprWord::new(
                Kind::PathInterpolation,
                14,
                NONE,
                MOST_RUN,
                MOST_RUN,
            )],
            names: vec![NameWord::new(NONE, 4)],
            texts: vec![TextWord::new(0, 2), TextWord::new(MOST_RUN, LONGEST_TEXT)],
            items: vec![ItemWord::new(Role::Parameter, NONE, 5)],
            bytes: vec![0, 255],
        }
    }

    #[test]
    fn fields_stand_most_significant_first() {
        let header = 1u128 << 82 | 1 << 68 | 2 << 54 | 1 << 34 | 2 << 14 | 6;
        let mut expected = header.to_be_bytes()[4..].to_vec();
        let expr = 16u64 << 59 | 14 << 54 | 16383 << 40 | 0xf_ffff << 20 | 0xf_ffff;
        expected.extend(expr.to_be_bytes());
        let words = [
            16383u32 << 18 | 4 << 15,
            2,
            0xf_ffff << 12 | 4095,
            10 << 28 | 16383 << 14 | 5,
        ];
        expected.extend(words.iter().flat_map(|word| word.to_be_bytes()));
        expected.extend([0, 255]);
        assert_eq!(widest().encode(6), expected);
    }

    #[test]
    fn what_is_written_is_read() {
        let image = widest().encode(6);
        let sections = Sections::of(&image).expect("its header's length");
        let counts = (sections.expr_count(), sections.name_count());
        assert_eq!((sections.entry, counts), (6, (1, 1)));
        let expr = sections.exprs().next().expect("one expression");
        assert!(expr.is(Kind::PathInterpolation) && !expr.is(Kind::Missing));
        assert_eq!((expr.detail(), expr.item_count()), (14, MOST_RUN));
        assert_eq!((expr.text(), expr.items().start), (NONE, MOST_RUN));
        let item = sections.items().next().expect("one item");
        assert_eq!(item.role(), Role::Parameter);
        assert_eq!((item.name_number(), item.expr()), (None, 5));
        assert_eq!((item.name_number(), item.expr_number()), (None, Some(5)));
        let name = sections.name(0).expect("one name");
        assert_eq!((name.text(), name.kind()), (NONE, 4));
        assert_eq!(sections.text(0), Some(&[0, 255][..]));
        assert_eq!((sections.text(1), sections.text(2)), (None, None));
    }

    #[test]
    fn kinds_and_roles_have_their_numbers() {
        for kind in Kind::ALL {
            assert_eq!(ExprWord::new(kind, 0, NONE, 0, 0).kind(), kind);
        }
        for role in Role::ALL {
            assert_eq!(ItemWord::new(role, 0, 0).role(), role);
        }
        let numbers = Kind::ALL.map(|kind| kind as usize).into_iter();
        assert!(numbers.eq(0..17));
        assert!(Role::ALL.map(|role| role as usize).into_iter().eq(0..11));
    }

    #[test]
    fn another_length_than_the_headers_is_none() {
        let mut image = widest().encode(6);
        image.push(0);
        assert!(Sections::of(&image).is_none());
        for length in 0..image.len() - 1 {
            assert!(Sections::of(&image[..length]).is_none(), "{length}");
        }
    }
}

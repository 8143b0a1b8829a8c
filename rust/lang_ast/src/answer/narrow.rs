//! What conditions tell of names.

use std::borrow::Cow;
use std::fmt;

use super::{Counted, records};
use crate::Image;
use crate::id::{NameId, TextId, TreeId};

/// The sorts of values that a condition can tell of by their type.
#[derive(Clone, Copy, Debug, PartialEq, Eq, Hash)]
pub enum PrimitiveTy {
    /// `null`
    Null,
    /// `true` or `false`
    Bool,
    /// An integer.
    Int,
    /// A float.
    Float,
    /// A string.
    String,
    /// A path.
    Path,
}

/// What a condition tells of a name in one branch.
#[derive(Clone, Copy, Debug, PartialEq, Eq, Hash)]
#[non_exhaustive]
pub enum NarrowPredicate {
    /// It is of this type.
    IsType(PrimitiveTy),
    /// It is of another type.
    IsNotType(PrimitiveTy),
    /// It is a set that has this key.
    HasField(TextId),
    /// It is no set that has this key.
    NotHasField(TextId),
    /// It is a set.
    IsAttrSet,
    /// It is a list.
    IsList,
    /// It is a function.
    IsFunction,
    /// It is an integer or a float: what being equal to a number literal tells, since `1 == 1.0` is true. `isInt` and
    /// `isFloat` tell the type.
    IsNumber,
}

impl PrimitiveTy {
    fn word(self) -> &'static str {
        match self {
            PrimitiveTy::Null => "null",
            PrimitiveTy::Bool => "bool",
            PrimitiveTy::Int => "int",
            PrimitiveTy::Float => "float",
            PrimitiveTy::String => "string",
            PrimitiveTy::Path => "path",
        }
    }
}

impl NarrowPredicate {
    /// It in words, with the texts of its image: `is null`, `has field "f"`.
    #[must_use]
    pub fn display(self, image: &Image<'_>) -> impl fmt::Display {
        InWords { of: self, image }
    }
}

/// An answer to be printed with the texts of its image.
pub(super) struct InWords<'i, 'a, T> {
    pub(super) of: T,
    pub(super) image: &'i Image<'a>,
}

impl fmt::Display for InWords<'_, '_, NarrowPredicate> {
    fn fmt(&self, to: &mut fmt::Formatter<'_>) -> fmt::Result {
        let key = |text| Quoted(self.image.text(text));
        match self.of {
            NarrowPredicate::IsType(ty) => write!(to, "is {}", ty.word()),
            NarrowPredicate::IsNotType(ty) => write!(to, "is not {}", ty.word()),
            NarrowPredicate::HasField(text) => write!(to, "has field {}", key(text)),
            NarrowPredicate::NotHasField(text) => write!(to, "lacks field {}", key(text)),
            NarrowPredicate::IsAttrSet => to.write_str("is set"),
            NarrowPredicate::IsList => to.write_str("is list"),
            NarrowPredicate::IsFunction => to.write_str("is function"),
            NarrowPredicate::IsNumber => to.write_str("is number"),
        }
    }
}

impl fmt::Display for InWords<'_, '_, NarrowBinding> {
    fn fmt(&self, to: &mut fmt::Formatter<'_>) -> fmt::Result {
        let NarrowBinding { name, predicate } = self.of;
        let predicate = predicate.display(self.image);
        write!(to, "{} {predicate}", Quoted::name(self.image, name))
    }
}

/// A text in quotes; `?` for one of another tree.
pub(super) struct Quoted<'i>(Option<&'i [u8]>);

impl<'i> Quoted<'i> {
    pub(super) fn name(image: &'i Image<'_>, name: NameId) -> Self {
        Quoted(image.name(name).map(|name| name.text))
    }
}

impl fmt::Display for Quoted<'_> {
    fn fmt(&self, to: &mut fmt::Formatter<'_>) -> fmt::Result {
        let Some(text) = self.0 else {
            return to.write_str("?");
        };
        to.write_str("\"")?;
        for &byte in text {
            match byte {
                b'"' | b'\\' => write!(to, "\\{}", char::from(byte))?,
                32..=126 => write!(to, "{}", char::from(byte))?,
                _ => write!(to, "\\{byte:02x}")?,
            }
        }
        to.write_str("\"")
    }
}

/// A name, and what holds of it.
#[derive(Clone, Copy, Debug, PartialEq, Eq, Hash)]
#[non_exhaustive]
pub struct NarrowBinding {
    /// The name.
    pub name: NameId,
    /// What holds of it.
    pub predicate: NarrowPredicate,
}

impl NarrowBinding {
    /// It in words, with the texts of its image: `"x" has field "f"`. Texts are quoted; a quote and a backslash have a
    /// backslash before them, and bytes that do not print are a backslash and two hexadecimal digits.
    #[must_use]
    pub fn display(self, image: &Image<'_>) -> impl fmt::Display {
        InWords { of: self, image }
    }

    /// Name 14, sort 4, value 14.
    pub(super) fn of_record(tree: TreeId, record: [u8; 4]) -> Option<Self> {
        let record = u32::from_be_bytes(record);
        let name = NameId::new(tree, (record >> 18) as u16);
        let predicate = predicate(tree, record >> 14 & 0xf, (record & 0x3fff) as u16)?;
        Some(NarrowBinding { name, predicate })
    }
}

/// The calls promise that a record has one of these sorts, and a type where it needs one.
fn predicate(tree: TreeId, sort: u32, value: u16) -> Option<NarrowPredicate> {
    Some(match sort {
        0 => NarrowPredicate::IsType(primitive_ty(value)?),
        1 => NarrowPredicate::IsNotType(primitive_ty(value)?),
        2 => NarrowPredicate::HasField(TextId::new(tree, value)),
        3 => NarrowPredicate::NotHasField(TextId::new(tree, value)),
        4 => NarrowPredicate::IsAttrSet,
        5 => NarrowPredicate::IsList,
        6 => NarrowPredicate::IsFunction,
        7 => NarrowPredicate::IsNumber,
        _ => return None,
    })
}

fn primitive_ty(value: u16) -> Option<PrimitiveTy> {
    Some(match value {
        0 => PrimitiveTy::Null,
        1 => PrimitiveTy::Bool,
        2 => PrimitiveTy::Int,
        3 => PrimitiveTy::Float,
        4 => PrimitiveTy::String,
        5 => PrimitiveTy::Path,
        _ => return None,
    })
}

/// What a condition tells of names in one branch, in the order in which it says it; repeats stay.
#[derive(Clone, Debug, PartialEq, Eq)]
pub struct NarrowBindings<'b> {
    pub(crate) tree: TreeId,
    pub(crate) records: Cow<'b, [u8]>,
}

impl NarrowBindings<'_> {
    /// What is told, from the first to the last.
    #[must_use]
    pub fn iter(&self) -> impl ExactSizeIterator<Item = NarrowBinding> {
        let tree = self.tree;
        let told = move |record| NarrowBinding::of_record(tree, record);
        Counted::of(records(&self.records).filter_map(told))
    }

    /// How many there are.
    #[must_use]
    pub fn len(&self) -> usize {
        self.records.len() / 4
    }

    /// Whether nothing is told.
    #[must_use]
    pub fn is_empty(&self) -> bool {
        self.records.is_empty()
    }
}

/// What a condition tells of names where it is true and where it is false.
#[derive(Clone, Debug, PartialEq, Eq)]
#[non_exhaustive]
pub struct NarrowInfo<'b> {
    /// What holds where it is true.
    pub then_branch: NarrowBindings<'b>,
    /// What holds where it is false.
    pub else_branch: NarrowBindings<'b>,
    /// The steps that the run took.
    pub steps: u32,
}

#[cfg(test)]
mod tests {
    use super::*;

    #[test]
    fn each_sort_is_read() {
        let tree = TreeId::fresh();
        let record = |sort: u32, value: u32| (5 << 18 | sort << 14 | value).to_be_bytes();
        let read = |sort, value| NarrowBinding::of_record(tree, record(sort, value));
        let predicates = [
            NarrowPredicate::IsType(PrimitiveTy::Path),
            NarrowPredicate::IsNotType(PrimitiveTy::Path),
            NarrowPredicate::HasField(TextId::new(tree, 5)),
            NarrowPredicate::NotHasField(TextId::new(tree, 5)),
            NarrowPredicate::IsAttrSet,
            NarrowPredicate::IsList,
            NarrowPredicate::IsFunction,
            NarrowPredicate::IsNumber,
        ];
        let name = NameId::new(tree, 5);
        for (sort, predicate) in (0..).zip(predicates) {
            assert_eq!(read(sort, 5), Some(NarrowBinding { name, predicate }));
        }
        assert_eq!((read(8, 0), read(0, 6), read(1, 6)), (None, None, None));
    }

    #[test]
    fn types_have_their_numbers() {
        let types = [
            PrimitiveTy::Null,
            PrimitiveTy::Bool,
            PrimitiveTy::Int,
            PrimitiveTy::Float,
            PrimitiveTy::String,
            PrimitiveTy::Path,
        ];
        for (number, ty) in (0..).zip(types) {
            assert_eq!(primitive_ty(number), Some(ty));
        }
    }

    #[test]
    fn texts_are_quoted_byte_by_byte() {
        let quoted = |text: &[u8]| Quoted(Some(text)).to_string();
        assert_eq!(quoted(b"x y"), r#""x y""#);
        assert_eq!(quoted(b""), r#""""#);
        assert_eq!(quoted(b"a\"b\\c"), r#""a\"b\\c""#);
        assert_eq!(quoted(b"\0\n\x7f\xff~"), r#""\00\0a\7f\ff~""#);
        assert_eq!(Quoted(None).to_string(), "?");
    }
}

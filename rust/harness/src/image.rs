//! The tree image: its numbers, its fields as they are written, and the tree they stand for.
//!
//! `Fields` holds whatever is written, right or wrong; `Tree` holds what an accepted image means.

/// In a 14-bit field outside the header: no text, no name, no expression.
pub const NONE: u32 = 16383;
/// The largest count that 14 bits hold (expressions, names, texts).
pub const MOST_NUMBERED: usize = 16383;
/// The largest count that 20 bits hold (items, text bytes).
pub const MOST_RUN: usize = (1 << 20) - 1;
/// The longest text that 12 bits hold.
pub const LONGEST_TEXT: usize = 4095;
pub const HEADER_BYTES: usize = 12;

/// Kinds of expressions, in the order of `Expr`.
pub mod kind {
    pub const MISSING: u32 = 0;
    pub const APPLY: u32 = 1;
    pub const IF_THEN_ELSE: u32 = 2;
    pub const LITERAL: u32 = 3;
    pub const LAMBDA: u32 = 4;
    pub const LET_IN: u32 = 5;
    pub const LIST: u32 = 6;
    pub const BIN_OP: u32 = 7;
    pub const ATTR_SET: u32 = 8;
    pub const UNARY_OP: u32 = 9;
    pub const REFERENCE: u32 = 10;
    pub const SELECT: u32 = 11;
    pub const HAS_ATTR: u32 = 12;
    pub const WITH: u32 = 13;
    pub const ASSERT: u32 = 14;
    pub const STRING_INTERPOLATION: u32 = 15;
    pub const PATH_INTERPOLATION: u32 = 16;
    pub const COUNT: u32 = 17;
}

/// What the detail of an expression says, by kind.
pub mod detail {
    pub const FLOAT: u32 = 0;
    pub const INTEGER: u32 = 1;
    pub const STRING: u32 = 2;
    pub const PATH: u32 = 3;
    pub const URI: u32 = 4;

    pub const LESS: u32 = 4;
    pub const NOT_EQUAL: u32 = 8;
    pub const EQUAL: u32 = 9;
    pub const AND: u32 = 10;
    pub const IMPLICATION: u32 = 11;
    pub const OR: u32 = 12;
    pub const ATTR_UPDATE: u32 = 14;

    pub const PLAIN: u32 = 0;
    pub const REC: u32 = 1;

    pub const INVERT: u32 = 0;
    pub const NEGATE: u32 = 1;
}

/// Roles of items.
pub mod role {
    pub const CHILD: u32 = 0;
    pub const PATH_KEY: u32 = 1;
    pub const DEFAULT: u32 = 2;
    pub const PATTERN_FIELD: u32 = 3;
    pub const STATIC: u32 = 4;
    pub const INHERIT: u32 = 5;
    pub const INHERIT_FROM: u32 = 6;
    pub const INHERIT_BASE: u32 = 7;
    pub const DYNAMIC_KEY: u32 = 8;
    pub const DYNAMIC_VALUE: u32 = 9;
    pub const PARAMETER: u32 = 10;
}

/// Kinds of names, in the order of `NameKind`.
pub mod name_kind {
    pub const LET_IN: u32 = 0;
    pub const PLAIN_ATTRSET: u32 = 1;
    pub const REC_ATTRSET: u32 = 2;
    pub const PARAM: u32 = 3;
    pub const PAT_FIELD: u32 = 4;
    pub const COUNT: u32 = 5;
}

const HEADER_WIDTHS: [u32; 6] = [14, 14, 14, 20, 20, 14];
const EXPR_WIDTHS: [u32; 5] = [5, 5, 14, 20, 20];
const NAME_WIDTHS: [u32; 3] = [14, 3, 15];
const TEXT_WIDTHS: [u32; 2] = [20, 12];
const ITEM_WIDTHS: [u32; 3] = [4, 14, 14];

#[derive(Clone, Copy, Debug, Default, PartialEq, Eq)]
pub struct Header {
    pub exprs: u32,
    pub names: u32,
    pub texts: u32,
    pub items: u32,
    pub bytes: u32,
    pub entry: u32,
}

#[derive(Clone, Copy, Debug, PartialEq, Eq)]
pub struct ExprFields {
    pub kind: u32,
    pub detail: u32,
    pub text: u32,
    pub first: u32,
    pub count: u32,
}

#[derive(Clone, Copy, Debug, PartialEq, Eq)]
pub struct NameFields {
    pub text: u32,
    pub kind: u32,
    pub spare: u32,
}

#[derive(Clone, Copy, Debug, PartialEq, Eq)]
pub struct TextFields {
    pub first: u32,
    pub length: u32,
}

#[derive(Clone, Copy, Debug, PartialEq, Eq)]
pub struct Item {
    pub role: u32,
    pub name: u32,
    pub expr: u32,
}

impl Item {
    /// An item that names an expression only.
    pub fn of(role: u32, expr: u32) -> Self {
        let name = NONE;
        Item { role, name, expr }
    }

    pub fn child(expr: u32) -> Self {
        Self::of(role::CHILD, expr)
    }
}

/// An image field by field. The header's counts stand apart from the tables, so that they can lie.
#[derive(Clone, Debug, Default, PartialEq, Eq)]
pub struct Fields {
    pub header: Header,
    pub exprs: Vec<ExprFields>,
    pub names: Vec<NameFields>,
    pub texts: Vec<TextFields>,
    pub items: Vec<Item>,
    pub bytes: Vec<u8>,
}

/// Appends fields of the given widths, most significant first; bits past a width are dropped.
fn pack<const N: usize>(out: &mut Vec<u8>, values: [u32; N], widths: [u32; N]) {
    let bits = values
        .iter()
        .zip(widths)
        .fold(0u128, |bits, (&value, width)| {
            bits << width | u128::from(value) & ((1 << width) - 1)
        });
    let length = widths.iter().sum::<u32>() as usize / 8;
    out.extend_from_slice(&bits.to_be_bytes()[16 - length..]);
}

/// Reads fields of the given widths back from exactly their bytes.
fn unpack<const N: usize>(bytes: &[u8], widths: [u32; N]) -> [u32; N] {
    let mut bits = bytes
        .iter()
        .fold(0u128, |bits, &byte| bits << 8 | u128::from(byte));
    let mut values = [0; N];
    for (value, width) in values.iter_mut().zip(widths).rev() {
        *value = (bits & ((1 << width) - 1)) as u32;
        bits >>= width;
    }
    values
}

/// Cuts `count` records of `length` bytes off the front.
fn records<'a>(rest: &mut &'a [u8], count: u32, length: usize) -> std::slice::ChunksExact<'a, u8> {
    let (table, behind) = rest.split_at(count as usize * length);
    *rest = behind;
    table.chunks_exact(length)
}

impl Header {
    fn decode(bytes: &[u8]) -> Self {
        let [exprs, names, texts, items, bytes, entry] = unpack(bytes, HEADER_WIDTHS);
        Header {
            exprs,
            names,
            texts,
            items,
            bytes,
            entry,
        }
    }

    /// The length that an image with this header has.
    pub fn image_length(&self) -> usize {
        let words = 2 * self.exprs + self.names + self.texts + self.items;
        HEADER_BYTES + 4 * words as usize + self.bytes as usize
    }
}

impl Fields {
    /// The image with exactly these fields, whether any rule holds or not.
    pub fn encode(&self) -> Vec<u8> {
        let h = &self.header;
        let header = [h.exprs, h.names, h.texts, h.items, h.bytes, h.entry];
        let mut out = Vec::with_capacity(h.image_length());
        pack(&mut out, header, HEADER_WIDTHS);
        for e in &self.exprs {
            let fields = [e.kind, e.detail, e.text, e.first, e.count];
            pack(&mut out, fields, EXPR_WIDTHS);
        }
        for n in &self.names {
            pack(&mut out, [n.text, n.kind, n.spare], NAME_WIDTHS);
        }
        for t in &self.texts {
            pack(&mut out, [t.first, t.length], TEXT_WIDTHS);
        }
        for i in &self.items {
            out.extend_from_slice(&i.encode());
        }
        out.extend_from_slice(&self.bytes);
        out
    }

    /// The fields of an image that has its header's length; no other rule is asked.
    pub fn decode(image: &[u8]) -> Option<Self> {
        let header = Header::decode(image.get(..HEADER_BYTES)?);
        if image.len() != header.image_length() {
            return None;
        }
        let mut rest = &image[HEADER_BYTES..];
        Some(Fields {
            header,
            exprs: records(&mut rest, header.exprs, 8)
                .map(ExprFields::decode)
                .collect(),
            names: records(&mut rest, header.names, 4)
                .map(NameFields::decode)
                .collect(),
            texts: records(&mut rest, header.texts, 4)
                .map(TextFields::decode)
                .collect(),
            items: records(&mut rest, header.items, 4)
                .map(Item::decode)
                .collect(),
            bytes: rest.to_vec(),
        })
    }

    /// Makes the header's counts those of the tables again.
    pub fn recount(&mut self) {
        self.header.exprs = self.exprs.len() as u32;
        self.header.names = self.names.len() as u32;
        self.header.texts = self.texts.len() as u32;
        self.header.items = self.items.len() as u32;
        self.header.bytes = self.bytes.len() as u32;
    }
}

impl ExprFields {
    fn decode(bytes: &[u8]) -> Self {
        let [kind, detail, text, first, count] = unpack(bytes, EXPR_WIDTHS);
        ExprFields {
            kind,
            detail,
            text,
            first,
            count,
        }
    }
}

impl NameFields {
    fn decode(bytes: &[u8]) -> Self {
        let [text, kind, spare] = unpack(bytes, NAME_WIDTHS);
        NameFields { text, kind, spare }
    }
}

impl TextFields {
    fn decode(bytes: &[u8]) -> Self {
        let [first, length] = unpack(bytes, TEXT_WIDTHS);
        TextFields { first, length }
    }
}

impl Item {
    fn decode(bytes: &[u8]) -> Self {
        let [role, name, expr] = unpack(bytes, ITEM_WIDTHS);
        Item { role, name, expr }
    }

    /// The item's four bytes, to be put into an image in place.
    pub fn encode(&self) -> [u8; 4] {
        let word = self.role << 28 | (self.name & 0x3fff) << 14 | self.expr & 0x3fff;
        word.to_be_bytes()
    }
}

#[derive(Clone, Debug, PartialEq, Eq)]
pub struct Expr {
    pub kind: u32,
    pub detail: u32,
    pub text: u32,
    pub items: Vec<Item>,
}

impl Expr {
    /// An expression without detail and text.
    pub fn new(kind: u32, items: Vec<Item>) -> Self {
        Self::with_detail(kind, 0, items)
    }

    pub fn with_detail(kind: u32, detail: u32, items: Vec<Item>) -> Self {
        Expr {
            kind,
            detail,
            text: NONE,
            items,
        }
    }

    pub fn reference(text: u32) -> Self {
        Expr {
            kind: kind::REFERENCE,
            detail: 0,
            text,
            items: Vec::new(),
        }
    }

    pub fn string(text: u32) -> Self {
        Expr {
            kind: kind::LITERAL,
            detail: detail::STRING,
            text,
            items: Vec::new(),
        }
    }
}

#[derive(Clone, Copy, Debug, PartialEq, Eq)]
pub struct Name {
    pub text: u32,
    pub kind: u32,
}

/// What an accepted image means.
#[derive(Clone, Debug, Default, PartialEq, Eq)]
pub struct Tree {
    pub exprs: Vec<Expr>,
    pub names: Vec<Name>,
    pub texts: Vec<Vec<u8>>,
    pub entry: u32,
}

impl Tree {
    /// The tree's fields, with the runs of items and of text bytes end to end.
    pub fn fields(&self) -> Fields {
        let mut fields = Fields::default();
        for e in &self.exprs {
            fields.exprs.push(ExprFields {
                kind: e.kind,
                detail: e.detail,
                text: e.text,
                first: fields.items.len() as u32,
                count: e.items.len() as u32,
            });
            fields.items.extend_from_slice(&e.items);
        }
        for n in &self.names {
            let (text, kind, spare) = (n.text, n.kind, 0);
            fields.names.push(NameFields { text, kind, spare });
        }
        for t in &self.texts {
            let first = fields.bytes.len() as u32;
            let length = t.len() as u32;
            fields.texts.push(TextFields { first, length });
            fields.bytes.extend_from_slice(t);
        }
        fields.recount();
        fields.header.entry = self.entry;
        fields
    }

    pub fn encode(&self) -> Vec<u8> {
        self.fields().encode()
    }

    /// The tree of an accepted image.
    pub fn decode(image: &[u8]) -> Self {
        let fields = Fields::decode(image).expect("an accepted image has its header's length");
        let run = |first: u32, count: u32| first as usize..(first + count) as usize;
        let expr = |e: &ExprFields| Expr {
            kind: e.kind,
            detail: e.detail,
            text: e.text,
            items: fields.items[run(e.first, e.count)].to_vec(),
        };
        let name = |n: &NameFields| Name {
            text: n.text,
            kind: n.kind,
        };
        let text = |t: &TextFields| fields.bytes[run(t.first, t.length)].to_vec();
        Tree {
            exprs: fields.exprs.iter().map(expr).collect(),
            names: fields.names.iter().map(name).collect(),
            texts: fields.texts.iter().map(text).collect(),
            entry: fields.header.entry,
        }
    }

    /// For each expression its visits through items of all roles, counted up to `u64::MAX`: a bound
    /// on the work of a pass that starts there, since expressions may be shared.
    pub fn visits(&self) -> Vec<u64> {
        let mut visits: Vec<u64> = Vec::with_capacity(self.exprs.len());
        for e in &self.exprs {
            let below = e.items.iter().filter(|item| item.expr != NONE);
            let sum = below.fold(1u64, |sum, item| {
                sum.saturating_add(visits[item.expr as usize])
            });
            visits.push(sum);
        }
        visits
    }
}

#[cfg(test)]
mod tests {
    use super::*;

    #[test]
    fn header_fields_stand_where_they_belong() {
        let header = Header {
            exprs: 1,
            names: 2,
            texts: 3,
            items: 4,
            bytes: 5,
            entry: 6,
        };
        let fields = Fields {
            header,
            ..Fields::default()
        };
        let bits = 1u128 << 82 | 2 << 68 | 3 << 54 | 4 << 34 | 5 << 14 | 6;
        assert_eq!(fields.encode(), bits.to_be_bytes()[4..]);
        assert_eq!(fields.header.image_length(), 12 + 8 + 8 + 12 + 16 + 5);
    }

    #[test]
    fn records_pack_most_significant_first() {
        let fields = Fields {
            exprs: vec![ExprFields {
                kind: 16,
                detail: 1,
                text: NONE,
                first: 2,
                count: 3,
            }],
            names: vec![NameFields {
                text: 1,
                kind: 4,
                spare: 1,
            }],
            texts: vec![TextFields {
                first: 1,
                length: 4095,
            }],
            items: vec![Item {
                role: 10,
                name: 1,
                expr: NONE,
            }],
            ..Fields::default()
        };
        let expr = 16u64 << 59 | 1 << 54 | 16383 << 40 | 2 << 20 | 3;
        let words = [
            1u32 << 18 | 4 << 15 | 1,
            1 << 12 | 4095,
            10 << 28 | 1 << 14 | 16383,
        ];
        let mut expected = vec![0; 12];
        expected.extend(expr.to_be_bytes());
        expected.extend(words.iter().flat_map(|word| word.to_be_bytes()));
        assert_eq!(fields.encode(), expected);
    }

    #[test]
    fn every_field_survives_at_its_widest() {
        let most = (1 << 20) - 1;
        let fields = Fields {
            header: Header {
                exprs: 1,
                names: 1,
                texts: 1,
                items: 1,
                bytes: 2,
                entry: NONE,
            },
            exprs: vec![ExprFields {
                kind: 31,
                detail: 31,
                text: NONE,
                first: most,
                count: most,
            }],
            names: vec![NameFields {
                text: NONE,
                kind: 7,
                spare: 0x7fff,
            }],
            texts: vec![TextFields {
                first: most,
                length: 4095,
            }],
            items: vec![Item {
                role: 15,
                name: NONE,
                expr: NONE,
            }],
            bytes: vec![0, 255],
        };
        assert_eq!(Fields::decode(&fields.encode()), Some(fields));
    }

    #[test]
    fn fields_of_a_wrong_length_are_none() {
        let image = crate::generate::small::missing().encode();
        assert_eq!(image.len(), 20);
        assert!(Fields::decode(&image).is_some());
        assert_eq!(Fields::decode(&image[..19]), None);
        assert_eq!(Fields::decode(&image[..11]), None);
    }

    #[test]
    fn a_tree_comes_back() {
        let tree = Tree {
            exprs: vec![
                Expr::reference(1),
                Expr::string(0),
                Expr::new(kind::LIST, vec![Item::child(0), Item::child(1)]),
            ],
            names: vec![Name { text: 1, kind: 3 }],
            texts: vec![vec![], b"ab".to_vec(), vec![255; LONGEST_TEXT]],
            entry: 2,
        };
        assert_eq!(Tree::decode(&tree.encode()), tree);
    }

    #[test]
    fn visits_count_a_shared_expression_each_time() {
        let pair = |e| Expr::new(kind::LIST, vec![Item::child(e), Item::child(e)]);
        let tree = Tree {
            exprs: vec![Expr::new(kind::MISSING, vec![]), pair(0), pair(1)],
            entry: 2,
            ..Tree::default()
        };
        assert_eq!(tree.visits(), [1, 3, 7]);
    }
}

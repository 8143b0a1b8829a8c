//! The calls written a second time, from their description alone: here `check`.
//!
//! It is what the port is compared with, and the baseline of the speed comparison.

pub mod arrow;
mod conditions;
mod dependencies;
mod indices;
pub mod needs;
mod resolution;
mod texts;

pub use conditions::{analyze_condition, condition_counts, condition_steps, condition_told};
pub use dependencies::{dependencies_told, dependency_need, dependency_steps, name_dependencies};
pub use indices::module_indices;
pub use resolution::{name_resolution, resolution_need, resolution_steps};
pub use texts::same_text;

use crate::image::{NONE, detail, kind, role};

const ACCEPTED: u32 = 0;
/// How many answers there are: 0, and the refusals 1 to 11.
pub const ANSWERS: usize = 12;

/// Whether a refusal is one of the image itself.
pub fn is_of_image(refusal: u32) -> bool {
    matches!(refusal, 1..=6 | 10 | 11)
}

/// Whether nothing is written after a refusal; after 8 and 9 all that is lent is zero.
pub fn writes_nothing(refusal: u32) -> bool {
    is_of_image(refusal) || refusal == 7
}

/// The tables of an image that has its header's length.
struct Image<'a> {
    entry: u32,
    exprs: &'a [[u8; 8]],
    names: &'a [[u8; 4]],
    texts: &'a [[u8; 4]],
    items: &'a [[u8; 4]],
    bytes: &'a [u8],
}

/// The number of the first refusal whose condition the image meets, or 0.
pub fn check(image: &[u8]) -> u32 {
    let Some(image) = Image::split(image) else {
        return 1;
    };
    if !image.entry_holds() {
        2
    } else if !image.texts_hold() {
        3
    } else if !image.names_hold() {
        4
    } else if !image.exprs_hold() {
        5
    } else {
        image.item_refusal().unwrap_or(ACCEPTED)
    }
}

/// Cuts `count` records off the front.
fn table<'a, const N: usize>(rest: &mut &'a [u8], count: u64) -> Option<&'a [[u8; N]]> {
    let (table, behind) = rest.split_at_checked(count as usize * N)?;
    *rest = behind;
    Some(table.as_chunks().0)
}

impl<'a> Image<'a> {
    fn split(image: &'a [u8]) -> Option<Self> {
        let (high, rest) = image.split_first_chunk::<8>()?;
        let (low, mut rest) = rest.split_first_chunk::<4>()?;
        let high = u64::from_be_bytes(*high);
        let low = u32::from_be_bytes(*low);
        let byte_count = ((high & 0x3) as u32) << 18 | low >> 14;
        let image = Image {
            entry: low & 0x3fff,
            exprs: table(&mut rest, high >> 50)?,
            names: table(&mut rest, high >> 36 & 0x3fff)?,
            texts: table(&mut rest, high >> 22 & 0x3fff)?,
            items: table(&mut rest, high >> 2 & 0xf_ffff)?,
            bytes: rest,
        };
        (rest.len() == byte_count as usize).then_some(image)
    }

    fn entry_holds(&self) -> bool {
        (self.entry as usize) < self.exprs.len()
    }

    fn texts_hold(&self) -> bool {
        let mut end = 0;
        for &text in self.texts {
            let word = u32::from_be_bytes(text);
            if word >> 12 != end {
                return false;
            }
            end += word & 0xfff;
        }
        end as usize == self.bytes.len()
    }

    fn names_hold(&self) -> bool {
        self.names.iter().all(|&name| {
            let word = u32::from_be_bytes(name);
            self.is_text(word >> 18) && word >> 15 & 0x7 <= 4 && word & 0x7fff == 0
        })
    }

    fn exprs_hold(&self) -> bool {
        let mut end = 0;
        for &expr in self.exprs {
            let expr = Expr::load(expr);
            if !expr.detail_holds() || !self.text_holds(&expr) || expr.first != end {
                return false;
            }
            end += expr.count;
        }
        end as usize == self.items.len()
    }

    fn text_holds(&self, expr: &Expr) -> bool {
        if expr.has_text() {
            self.is_text(expr.text)
        } else {
            expr.text == NONE
        }
    }

    /// 6 where some item or order breaks it, else 10 where some item does, else 11: all are looked at, and the least number that
    /// one breaks is the answer.
    fn item_refusal(&self) -> Option<u32> {
        let mut least = None;
        let mut rest = self.items;
        for (owner, &expr) in self.exprs.iter().enumerate() {
            let expr = Expr::load(expr);
            let (items, behind) = rest.split_at(expr.count as usize);
            rest = behind;
            if !in_order(expr.kind, items) {
                return Some(6);
            }
            for &item in items {
                match self.fault_of(owner, Item::load(item)) {
                    Some(6) => return Some(6),
                    fault => least = [least, fault].into_iter().flatten().min(),
                }
            }
        }
        least
    }

    fn fault_of(&self, owner: usize, item: Item) -> Option<u32> {
        let Item { role, name, expr } = item;
        let named = (name as usize) < self.names.len();
        let there = expr != NONE;
        let stands = match role {
            role::CHILD
            | role::PATH_KEY
            | role::DEFAULT
            | role::INHERIT_BASE
            | role::DYNAMIC_KEY
            | role::DYNAMIC_VALUE => name == NONE && there,
            role::PATTERN_FIELD => named || name == NONE,
            role::STATIC | role::INHERIT | role::INHERIT_FROM => named && there,
            role::PARAMETER => named && !there,
            _ => false,
        };
        if !stands {
            Some(6)
        } else if there && expr as usize >= owner {
            Some(10)
        } else {
            (role == role::INHERIT && !self.is_reference(expr)).then_some(11)
        }
    }

    fn is_text(&self, text: u32) -> bool {
        (text as usize) < self.texts.len()
    }

    fn is_reference(&self, expr: u32) -> bool {
        self.expr(expr).kind == kind::REFERENCE
    }

    fn accepted(image: &'a [u8]) -> Self {
        Self::split(image).expect("an accepted image has its header's length")
    }

    fn expr(&self, e: u32) -> Expr {
        Expr::load(self.exprs[e as usize])
    }

    fn items(&self, e: u32) -> impl DoubleEndedIterator<Item = Item> {
        let Expr { first, count, .. } = self.expr(e);
        let run = &self.items[first as usize..(first + count) as usize];
        run.iter().map(|&item| Item::load(item))
    }

    fn text(&self, text: u32) -> &'a [u8] {
        let word = u32::from_be_bytes(self.texts[text as usize]) as usize;
        &self.bytes[word >> 12..][..word & 0xfff]
    }
}

struct Expr {
    kind: u32,
    detail: u32,
    text: u32,
    first: u32,
    count: u32,
}

impl Expr {
    fn load(bytes: [u8; 8]) -> Self {
        let bits = u64::from_be_bytes(bytes);
        Expr {
            kind: (bits >> 59) as u32,
            detail: (bits >> 54 & 0x1f) as u32,
            text: (bits >> 40 & 0x3fff) as u32,
            first: (bits >> 20 & 0xf_ffff) as u32,
            count: (bits & 0xf_ffff) as u32,
        }
    }

    /// Whether the kind is one, and the detail one of its kind.
    fn detail_holds(&self) -> bool {
        match self.kind {
            kind::LITERAL => self.detail <= detail::URI,
            kind::BIN_OP => self.detail <= detail::ATTR_UPDATE,
            kind::ATTR_SET | kind::UNARY_OP => self.detail <= 1,
            _ => self.kind < kind::COUNT && self.detail == 0,
        }
    }

    fn has_text(&self) -> bool {
        self.kind == kind::REFERENCE || self.kind == kind::LITERAL && self.detail == detail::STRING
    }
}

struct Item {
    role: u32,
    name: u32,
    expr: u32,
}

impl Item {
    fn load(bytes: [u8; 4]) -> Self {
        let word = u32::from_be_bytes(bytes);
        Item {
            role: word >> 28,
            name: word >> 14 & 0x3fff,
            expr: word & 0x3fff,
        }
    }
}

fn role_of(item: &[u8; 4]) -> u32 {
    u32::from(item[0] >> 4)
}

/// The items behind the leading ones whose roles are among the given ones.
fn skip(items: &[[u8; 4]], roles: std::ops::RangeInclusive<u32>) -> &[[u8; 4]] {
    let first_other = items
        .iter()
        .position(|item| !roles.contains(&role_of(item)));
    &items[first_other.unwrap_or(items.len())..]
}

/// Whether the roles stand as the owner's kind lists its fields.
fn in_order(owner: u32, items: &[[u8; 4]]) -> bool {
    let children = |items| skip(items, role::CHILD..=role::CHILD).is_empty();
    match owner {
        kind::MISSING | kind::LITERAL | kind::REFERENCE => items.is_empty(),
        kind::UNARY_OP => items.len() == 1 && children(items),
        kind::APPLY | kind::BIN_OP | kind::WITH | kind::ASSERT => {
            items.len() == 2 && children(items)
        }
        kind::IF_THEN_ELSE => items.len() == 3 && children(items),
        kind::LIST | kind::STRING_INTERPOLATION | kind::PATH_INTERPOLATION => children(items),
        kind::LAMBDA => is_lambda(items),
        kind::LET_IN => matches!(items, [bindings @ .., body]
            if role_of(body) == role::CHILD && are_bindings(bindings)),
        kind::ATTR_SET => are_bindings(items),
        kind::SELECT => {
            matches!(items, [set, rest @ ..] if role_of(set) == role::CHILD && is_path(rest, true))
        }
        kind::HAS_ATTR => {
            matches!(items, [set, rest @ ..] if role_of(set) == role::CHILD && is_path(rest, false))
        }
        _ => false,
    }
}

/// Perhaps a parameter, any pattern fields, the body.
fn is_lambda(items: &[[u8; 4]]) -> bool {
    let behind = match items {
        [first, rest @ ..] if role_of(first) == role::PARAMETER => rest,
        _ => items,
    };
    matches!(skip(behind, role::PATTERN_FIELD..=role::PATTERN_FIELD), [body]
        if role_of(body) == role::CHILD)
}

/// Any static bindings, any bases, pairs of a dynamic key and its value.
fn are_bindings(items: &[[u8; 4]]) -> bool {
    let behind = skip(items, role::STATIC..=role::INHERIT_FROM);
    let behind = skip(behind, role::INHERIT_BASE..=role::INHERIT_BASE);
    let (pairs, left) = behind.as_chunks::<2>();
    left.is_empty()
        && pairs.iter().all(|[key, value]| {
            role_of(key) == role::DYNAMIC_KEY && role_of(value) == role::DYNAMIC_VALUE
        })
}

/// Any keys and, for a selection, perhaps a default.
fn is_path(items: &[[u8; 4]], may_default: bool) -> bool {
    match skip(items, role::PATH_KEY..=role::PATH_KEY) {
        [] => true,
        [last] => may_default && role_of(last) == role::DEFAULT,
        _ => false,
    }
}

#[cfg(test)]
mod tests;

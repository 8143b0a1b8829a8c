//! Damaged copies of well-formed trees, each aimed at one refusal.

use crate::image::{
    Expr, ExprFields, Fields, Item, MOST_NUMBERED, MOST_RUN, NONE, NameFields, TextFields, Tree,
    detail, kind, role,
};
use crate::random::Random;
use crate::second_reading::check;

/// One way to break an image. `make` gives nothing where the tree has no place for it.
pub struct Damage {
    pub aim: u32,
    pub name: &'static str,
    pub make: fn(&mut Random, &Tree) -> Option<Vec<u8>>,
}

const fn damage(
    aim: u32,
    name: &'static str,
    make: fn(&mut Random, &Tree) -> Option<Vec<u8>>,
) -> Damage {
    Damage { aim, name, make }
}

/// A damaged copy that is refused, and by which number.
pub fn refused(random: &mut Random, tree: &Tree) -> Option<(u32, Vec<u8>)> {
    let image = (random.pick(&DAMAGES).make)(random, tree)?;
    let refusal = check(&image);
    (refusal != 0).then_some((refusal, image))
}

pub const DAMAGES: [Damage; 37] = [
    damage(1, "a byte short", |_, tree| {
        let mut image = tree.encode();
        image.pop();
        Some(image)
    }),
    damage(1, "a byte long", |random, tree| {
        let mut image = tree.encode();
        image.push(random.word() as u8);
        Some(image)
    }),
    damage(1, "cut anywhere", |random, tree| {
        let mut image = tree.encode();
        image.truncate(random.below(image.len()));
        Some(image)
    }),
    damage(1, "a count off by one", |random, tree| {
        count_changed(random, tree, |count| count ^ 1)
    }),
    damage(1, "a count high", |random, tree| {
        count_changed(random, tree, |count| count ^ 0x3fff)
    }),
    damage(1, "all counts high", |_, tree| {
        let mut fields = tree.fields();
        let header = &mut fields.header;
        (header.exprs, header.names, header.texts) = (NONE, NONE, NONE);
        (header.items, header.bytes) = (MOST_RUN as u32, MOST_RUN as u32);
        Some(fields.encode())
    }),
    damage(2, "entry not below", |random, tree| {
        let mut fields = tree.fields();
        let count = tree.exprs.len();
        let entry = [count, MOST_NUMBERED, random.between(count, MOST_NUMBERED)];
        fields.header.entry = *random.pick(&entry) as u32;
        Some(fields.encode())
    }),
    damage(2, "no expression at all", |_, tree| {
        let mut fields = tree.fields();
        fields.exprs.clear();
        fields.recount();
        Some(fields.encode())
    }),
    damage(3, "text start off", |random, tree| {
        moved(random, tree, texts, |text| &mut text.first)
    }),
    damage(3, "text length off", |random, tree| {
        moved(random, tree, texts, |text| &mut text.length)
    }),
    damage(3, "text bytes left over", |random, tree| {
        let mut fields = tree.fields();
        let more = random.between(1, 9);
        fields.bytes.resize(fields.bytes.len() + more, b'x');
        fields.recount();
        Some(fields.encode())
    }),
    damage(3, "texts swapped", |random, tree| {
        let mut fields = tree.fields();
        let (one, other) = two_places(random, fields.texts.len())?;
        fields.texts.swap(one, other);
        Some(fields.encode())
    }),
    damage(4, "name kind too high", |random, tree| {
        let kind = random.between(5, 7) as u32;
        changed(random, tree, names, |name| name.kind = kind)
    }),
    damage(4, "name text not below", |random, tree| {
        let text = not_below(random, tree.texts.len());
        changed(random, tree, names, |name| name.text = text)
    }),
    damage(4, "name spare bit", |random, tree| {
        let spare = 1 << random.below(15);
        changed(random, tree, names, |name| name.spare = spare)
    }),
    damage(5, "kind too high", |random, tree| {
        let kind = random.between(17, 31) as u32;
        changed(random, tree, exprs, |expr| expr.kind = kind)
    }),
    damage(5, "detail too high", |random, tree| {
        let more = random.size(16) as u32;
        changed(random, tree, exprs, |expr| {
            expr.detail = (first_bad_detail(expr.kind) + more).min(31);
        })
    }),
    damage(5, "text present or absent wrongly", |random, tree| {
        let text = not_below(random, tree.texts.len());
        changed(random, tree, exprs, |expr| {
            expr.text = if expr.text == NONE { text / 2 } else { text };
        })
    }),
    damage(5, "first item off", |random, tree| {
        moved(random, tree, exprs, |expr| &mut expr.first)
    }),
    damage(5, "item count off", |random, tree| {
        moved(random, tree, exprs, |expr| &mut expr.count)
    }),
    damage(5, "items left over", |_, tree| {
        let mut fields = tree.fields();
        fields.items.push(Item::child(0));
        fields.recount();
        Some(fields.encode())
    }),
    damage(6, "role too high", |random, tree| {
        let role = random.between(11, 15) as u32;
        changed(random, tree, items, |item| item.role = role)
    }),
    damage(6, "another role", |random, tree| {
        let by = random.between(1, 10) as u32;
        changed(random, tree, items, |item| {
            item.role = (item.role + by) % 11
        })
    }),
    damage(6, "name present or absent wrongly", |random, tree| {
        let name = *random.pick(&[0, tree.names.len() as u32, NONE - 1]);
        changed(random, tree, items, |item| {
            item.name = if item.name == NONE { name } else { NONE };
        })
    }),
    damage(6, "expression present or absent wrongly", |random, tree| {
        changed(random, tree, items, |item| {
            item.expr = if item.expr == NONE { 0 } else { NONE };
        })
    }),
    damage(6, "items swapped", |random, tree| {
        let (owner, _) = some_item(random, tree)?;
        let mut tree = tree.clone();
        let items = &mut tree.exprs[owner].items;
        let (one, other) = two_places(random, items.len())?;
        items.swap(one, other);
        Some(tree.encode())
    }),
    damage(6, "an item dropped", |random, tree| {
        let (owner, place) = some_item(random, tree)?;
        let mut tree = tree.clone();
        tree.exprs[owner].items.remove(place);
        Some(tree.encode())
    }),
    damage(6, "an item more", |random, tree| {
        let owner = random.between(1, tree.exprs.len()) - 1;
        let mut tree = tree.clone();
        let items = &mut tree.exprs[owner].items;
        let role = *random.pick(&[0, 0, 1, 2, 7, 8, 9]);
        items.insert(random.below(items.len() + 1), Item::of(role, 0));
        Some(tree.encode())
    }),
    damage(6, "a dynamic pair broken", |random, tree| {
        let mut tree = tree.clone();
        let mut roles = vec![8, 9, 8, 9];
        roles[random.below(4)] = *random.pick(&[0, 7, 8, 9]);
        roles.truncate(random.between(1, 4));
        let items = roles.into_iter().map(|role| Item::of(role, 0));
        tree.exprs.push(Expr::new(kind::ATTR_SET, items.collect()));
        Some(tree.encode())
    }),
    damage(6, "an order of another kind", |random, tree| {
        let (owner, _) = some_item(random, tree)?;
        let mut tree = tree.clone();
        let expr = &mut tree.exprs[owner];
        expr.kind = random.below(kind::COUNT as usize) as u32;
        (expr.detail, expr.text) = (0, NONE);
        if expr.kind == kind::REFERENCE {
            expr.text = 0;
        }
        Some(tree.encode())
    }),
    damage(6, "6 and 10 in any order", |random, tree| {
        mixed(random, tree, [6, 10, 10])
    }),
    damage(6, "6 and 11 in any order", |random, tree| {
        mixed(random, tree, [11, 6, 11])
    }),
    damage(6, "6, 10 and 11 in any order", |random, tree| {
        mixed(random, tree, [6, 10, 11])
    }),
    damage(10, "expression not below its owner", |random, tree| {
        let (owner, place) = some_item(random, tree)?;
        let mut tree = tree.clone();
        let item = &mut tree.exprs[owner].items[place];
        item.expr = (item.expr != NONE).then(|| number_not_below(random, owner))?;
        Some(tree.encode())
    }),
    damage(10, "10 and 11 in any order", |random, tree| {
        mixed(random, tree, [11, 10, 11])
    }),
    damage(11, "inherit of no reference", |random, tree| {
        mixed(random, tree, [11])
    }),
    damage(
        11,
        "inherit of no reference, three times",
        |random, tree| mixed(random, tree, [11, 11, 11]),
    ),
];

/// The tree and sets behind it, in one or each in its own, of Inherits in any order, of which each breaks one of these rules.
fn mixed<const N: usize>(
    random: &mut Random,
    tree: &Tree,
    mut faults: [u32; N],
) -> Option<Vec<u8>> {
    let mut tree = tree.clone();
    let other = tree.exprs.iter().position(|e| e.kind != kind::REFERENCE)?;
    if tree.names.is_empty() || tree.exprs.len() + N >= MOST_NUMBERED {
        return None;
    }
    (1..N).for_each(|place| faults.swap(place, random.below(place + 1)));
    let in_one_set = random.chance(50);
    for faults in faults.chunks(if in_one_set { N } else { 1 }) {
        let owner = tree.exprs.len();
        let items = faults
            .iter()
            .map(|&fault| inherit_with(random, fault, owner, other as u32));
        let items = items.collect();
        tree.exprs.push(Expr::new(kind::ATTR_SET, items));
    }
    tree.entry = random.below(tree.exprs.len()) as u32;
    Some(tree.encode())
}

/// An Inherit whose first broken rule is 6, 10 or 11, for 6 also a default, which a set has not; `other` is no Reference.
fn inherit_with(random: &mut Random, fault: u32, owner: usize, other: u32) -> Item {
    let (role, name, expr) = match fault {
        6 => *random.pick(&[
            (role::INHERIT, NONE, other),
            (role::INHERIT, 0, NONE),
            (role::DEFAULT, NONE, other),
        ]),
        10 => (role::INHERIT, 0, number_not_below(random, owner)),
        _ => (role::INHERIT, 0, other),
    };
    Item { role, name, expr }
}

/// A number that is there, the owner's or above.
fn number_not_below(random: &mut Random, owner: usize) -> u32 {
    let last = MOST_NUMBERED - 1;
    let anything = random.between(owner, last);
    *random.pick(&[owner, (owner + 1).min(last), last, anything]) as u32
}

fn two_places(random: &mut Random, count: usize) -> Option<(usize, usize)> {
    let one = random.below(count.max(1));
    let other = random.below(count.max(1));
    (one != other).then_some((one, other))
}

fn not_below(random: &mut Random, count: usize) -> u32 {
    let anything = random.between(count, MOST_NUMBERED);
    *random.pick(&[count, MOST_NUMBERED, anything]) as u32
}

fn count_changed(random: &mut Random, tree: &Tree, change: fn(u32) -> u32) -> Option<Vec<u8>> {
    let mut fields = tree.fields();
    let header = &mut fields.header;
    let count = match random.below(5) {
        0 => &mut header.exprs,
        1 => &mut header.names,
        2 => &mut header.texts,
        3 => &mut header.items,
        _ => &mut header.bytes,
    };
    *count = change(*count);
    Some(fields.encode())
}

/// The image after a change of one record of a table.
fn changed<T>(
    random: &mut Random,
    tree: &Tree,
    table: fn(&mut Fields) -> &mut Vec<T>,
    change: impl FnOnce(&mut T),
) -> Option<Vec<u8>> {
    let mut fields = tree.fields();
    let records = table(&mut fields);
    if records.is_empty() {
        return None;
    }
    let place = random.below(records.len());
    change(&mut records[place]);
    Some(fields.encode())
}

/// The image after a field of one record went one up, one down, or far.
fn moved<T>(
    random: &mut Random,
    tree: &Tree,
    table: fn(&mut Fields) -> &mut Vec<T>,
    field: fn(&mut T) -> &mut u32,
) -> Option<Vec<u8>> {
    let far = random.word() as u32;
    let by = *random.pick(&[1, u32::MAX, far]);
    changed(random, tree, table, |record| {
        let field = field(record);
        *field = field.wrapping_add(by);
    })
}

fn exprs(fields: &mut Fields) -> &mut Vec<ExprFields> {
    &mut fields.exprs
}

fn names(fields: &mut Fields) -> &mut Vec<NameFields> {
    &mut fields.names
}

fn texts(fields: &mut Fields) -> &mut Vec<TextFields> {
    &mut fields.texts
}

fn items(fields: &mut Fields) -> &mut Vec<Item> {
    &mut fields.items
}

/// The owner and the place of some item.
fn some_item(random: &mut Random, tree: &Tree) -> Option<(usize, usize)> {
    let from = random.below(tree.exprs.len());
    let has_items = |e: &usize| !tree.exprs[*e].items.is_empty();
    let owner = (from..tree.exprs.len()).chain(0..from).find(has_items)?;
    Some((owner, random.below(tree.exprs[owner].items.len())))
}

/// The detail that is one too high for a kind.
fn first_bad_detail(kind: u32) -> u32 {
    match kind {
        kind::LITERAL => detail::URI + 1,
        kind::BIN_OP => detail::ATTR_UPDATE + 1,
        kind::ATTR_SET | kind::UNARY_OP => 2,
        _ => 1,
    }
}

/// The image with one bit turned.
pub fn flip(random: &mut Random, image: &[u8]) -> Vec<u8> {
    let mut image = image.to_vec();
    let bit = random.below(8 * image.len());
    image[bit / 8] ^= 0x80 >> (bit % 8);
    image
}

/// Random bytes, half of them behind a header whose counts fit them.
pub fn noise(random: &mut Random) -> Vec<u8> {
    let mut bytes: Vec<u8> = (0..random.size(200)).map(|_| random.word() as u8).collect();
    if random.chance(50) {
        let count = |random: &mut Random| random.below(4) as u32;
        let mut fields = Fields::default();
        let header = &mut fields.header;
        (header.exprs, header.names) = (count(random) + 1, count(random));
        (header.texts, header.items) = (count(random), count(random));
        (header.bytes, header.entry) = (count(random), count(random));
        bytes.resize(header.image_length(), 0);
        bytes[..12].copy_from_slice(&fields.encode());
    }
    bytes
}

#[cfg(test)]
mod tests {
    use super::*;
    use crate::generate::{grow::Texts, tree};
    use crate::second_reading::check;

    #[test]
    fn each_damage_meets_its_refusal() {
        for damage in &DAMAGES {
            let mut random = Random::new(u64::from(damage.aim));
            let answers = (0..200).filter_map(|_| {
                let tree = tree(&mut random, Texts::Bytes);
                Some(check(&(damage.make)(&mut random, &tree)?))
            });
            let hits = answers.filter(|&answer| answer == damage.aim).count();
            assert!(hits >= 20, "{}: {hits}", damage.name);
        }
    }

    #[test]
    fn a_flip_turns_one_bit() {
        let flipped = flip(&mut Random::new(3), &[0; 9]);
        assert_eq!(flipped.iter().map(|byte| byte.count_ones()).sum::<u32>(), 1);
    }

    #[test]
    fn noise_gets_past_the_length_rule_at_times() {
        let mut random = Random::new(4);
        let answers: Vec<u32> = (0..500).map(|_| check(&noise(&mut random))).collect();
        assert!(answers.contains(&1));
        assert!(answers.iter().any(|&answer| answer > 2));
    }
}

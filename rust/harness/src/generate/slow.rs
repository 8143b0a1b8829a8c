//! Images that are, or once were, slow for their size: families that grow by a count, each with the reason.

use crate::image::{
    Expr, Item, LONGEST_TEXT, MOST_NUMBERED, MOST_RUN, NONE, Name, Tree, detail, kind, name_kind,
    role,
};

/// The size up to which the time of a resolution is bounded by that of the check.
pub const BOUNDED_BYTES: usize = 65_536;

pub struct Family {
    pub name: &'static str,
    pub why: &'static str,
    make: fn(usize) -> Tree,
}

impl Family {
    pub fn of(name: &str) -> Option<&'static Family> {
        FAMILIES.iter().find(|family| family.name == name)
    }

    pub fn tree(&self, count: usize) -> Tree {
        (self.make)(count)
    }

    /// The tree of the highest count whose image has at most so many bytes and keeps to the format's counts.
    pub fn within(&self, bytes: usize) -> Tree {
        let fits = |count: usize| holds(&self.tree(count), bytes);
        let doubled = std::iter::successors(Some(2), |count| Some(2 * count));
        let too_many = doubled.into_iter().find(|&count| !fits(count));
        let mut too_many = too_many.expect("every family grows");
        let mut count = too_many / 2;
        while count + 1 < too_many {
            let middle = (count + too_many) / 2;
            if fits(middle) {
                count = middle;
            } else {
                too_many = middle;
            }
        }
        self.tree(count)
    }
}

/// Whether the tree keeps to the format's counts, and its image to so many bytes.
pub fn holds(tree: &Tree, bytes: usize) -> bool {
    let numbered = [tree.exprs.len(), tree.names.len(), tree.texts.len()];
    let items: usize = tree.exprs.iter().map(|e| e.items.len()).sum();
    let text_bytes: usize = tree.texts.iter().map(Vec::len).sum();
    numbered.iter().all(|&count| count <= MOST_NUMBERED)
        && items.max(text_bytes) <= MOST_RUN
        && tree.texts.iter().all(|text| text.len() <= LONGEST_TEXT)
        && tree.fields().header.image_length() <= bytes
}

const fn family(name: &'static str, make: fn(usize) -> Tree, why: &'static str) -> Family {
    Family { name, why, make }
}

/// First what is about resolution, then what is about the walk and conditions.
pub const FAMILIES: [Family; 37] = [
    family(
        "one name, last byte",
        |count| one_name(count, last_byte),
        "no field has a default, so none is a step; each reference is compared with each field, up to the last byte",
    ),
    family(
        "one name, first byte",
        |count| one_name(count, first_byte),
        "the same where texts are compared from the back",
    ),
    family(
        "long names, last byte",
        |count| long_names(count, last_byte),
        "a few long texts that share all but the last byte, and thousands of references to them",
    ),
    family(
        "long names, first byte",
        |count| long_names(count, first_byte),
        "the same with the first byte",
    ),
    family(
        "long names, a byte",
        |count| long_names(count, all_but_a_byte),
        "the same with one byte somewhere within",
    ),
    family(
        "wide scope",
        |count| wide(count, |number| format!("name{number}").into()),
        "more names in one scope than hints or buckets keep apart, each referred to",
    ),
    family(
        "wide scope, beginnings",
        |count| wide(count, |number| joined(&[&[b'a'; SHARED], &digits(number)])),
        "the names share long beginnings",
    ),
    family(
        "wide scope, ends",
        |count| wide(count, |number| joined(&[&digits(number), &[b'a'; SHARED]])),
        "the names share long ends",
    ),
    family(
        "wide scope, a byte",
        |count| wide(count, |number| all_but_a_byte(number, SHARED)),
        "the names share all but one byte of themselves",
    ),
    family(
        "wide scope, last 8 bytes",
        |count| wide(count, last_eight),
        "names of one length with the same last 8 bytes: one hash for all, where it is made of these",
    ),
    family(
        "wide scope, sums",
        |count| wide(count, same_sum),
        "names of one length with the same sum of powers of 31: one hash for all, where it is that sum",
    ),
    family(
        "keys, 40 in common",
        |count| wide(count, |number| key(40, number)),
        "names with a long beginning in common that differ in their last 4 bytes: keys of one depot",
    ),
    family(
        "keys, 400 in common",
        |count| wide(count, |number| key(400, number)),
        "the same with 400 bytes in common",
    ),
    family(
        "keys, 4,000 in common",
        |count| wide(count, |number| key(4_000, number)),
        "the same with 4,000 bytes in common",
    ),
    family(
        "keys of one hash, 40 in common",
        |count| wide(count, |number| long_key(40, number)),
        "the same with the same last 8 bytes behind what differs: keys of one hash, which only a comparison tells apart",
    ),
    family(
        "keys of one hash, 400 in common",
        |count| wide(count, |number| long_key(400, number)),
        "the same with 400 bytes in common",
    ),
    family(
        "keys of one hash, 4,000 in common",
        |count| wide(count, |number| long_key(4_000, number)),
        "the same with 4,000 bytes in common",
    ),
    family(
        "keys twice, 40 in common",
        |count| wide_twice(count, |number| key(40, number)),
        "keys whose texts stand twice, for the name and for the reference: each must be found to be the same",
    ),
    family(
        "keys twice, 400 in common",
        |count| wide_twice(count, |number| key(400, number)),
        "the same with 400 bytes in common",
    ),
    family(
        "keys twice, 4,000 in common",
        |count| wide_twice(count, |number| key(4_000, number)),
        "the same with 4,000 bytes in common",
    ),
    family(
        "scopes, outermost",
        deep_outermost,
        "each reference goes up all scopes, and what one found is no help to the next",
    ),
    family(
        "scopes, each its own",
        deep_own,
        "as many names as scopes, and each is asked for from the innermost",
    ),
    family(
        "pattern, 2^60 visits",
        |count| shared(pattern(count), 60),
        "a visit goes through all fields, and none of them is a step: long until the budget is reached",
    ),
    family(
        "set, 2^60 visits",
        |count| shared(inherited_set(count), 60),
        "a visit goes through all that is inherited, and none of it is a step",
    ),
    family(
        "pattern, 2^20 visits",
        |count| shared(pattern(count), 20),
        "the same where the run ends",
    ),
    family(
        "set, 2^20 visits",
        |count| shared(inherited_set(count), 20),
        "the same where the run ends",
    ),
    family(
        "falling names",
        falling_names,
        "too many names of one hash, so that all are sorted, and the order given is the worst for inserting",
    ),
    family(
        "full chains",
        full_chains,
        "as many names of one hash as one bucket holds, and references of that hash to no name",
    ),
    family(
        "long texts, one bucket",
        |count| long_texts(count, LONGEST_TEXT, CHAIN),
        "the same with texts so long that a check, which does not read them, is short beside one comparison",
    ),
    family(
        "long texts, sorted",
        |count| long_texts(count, LONGEST_TEXT, count),
        "the same with too many names for a bucket",
    ),
    family(
        "long texts, many names",
        many_names,
        "the same with thousands of names that have one text, each of which is looked for anew among the sorted",
    ),
    family(
        "guard of 2^17 nodes",
        guarded,
        "each node might tell something to each binding below: room is reckoned for all of it",
    ),
    family(
        "pattern, walked 2^10 times",
        |count| shared(pattern(count), 10),
        "a visit of the walk goes through all fields, and none of them leads to a visit",
    ),
    family(
        "set, walked 2^10 times",
        |count| shared(inherited_set(count), 10),
        "a visit of the walk goes through all that is inherited",
    ),
    family(
        "pattern, walked 2^14 times",
        |count| shared(pattern(count), 14),
        "the same as often as the budget of the program survey allows",
    ),
    family(
        "set, walked 2^14 times",
        |count| shared(inherited_set(count), 14),
        "the same as often as the budget of the program survey allows",
    ),
    family(
        "condition of 2^17 nodes",
        |count| condition(count, 16),
        "a condition that is made of few expressions, each analysed again wherever it stands",
    ),
];

/// How many bytes the names of a wide scope share.
const SHARED: usize = 64;
/// Texts whose numbers are so far apart push each other out of a memo with so many slots.
const MEMO: usize = 128;
/// As many names as are looked through without hints.
const FEW: usize = 12;
/// How many texts of one hash a bucket holds.
const CHAIN: usize = 8;

#[derive(Default)]
struct Writer {
    tree: Tree,
}

impl Writer {
    fn text(&mut self, text: Vec<u8>) -> u32 {
        self.tree.texts.push(text);
        self.tree.texts.len() as u32 - 1
    }

    /// The text, and so many empty ones behind it that the next is in its slot of the memo.
    fn apart(&mut self, text: Vec<u8>) -> u32 {
        let number = self.text(text);
        let empty = std::iter::repeat_n(vec![], MEMO - 1);
        self.tree.texts.extend(empty);
        number
    }

    fn name(&mut self, text: u32, kind: u32) -> u32 {
        self.tree.names.push(Name { text, kind });
        self.tree.names.len() as u32 - 1
    }

    fn expr(&mut self, kind: u32, items: Vec<Item>) -> u32 {
        self.push(Expr::new(kind, items))
    }

    fn push(&mut self, expr: Expr) -> u32 {
        self.tree.exprs.push(expr);
        self.tree.exprs.len() as u32 - 1
    }

    /// A list of references to these texts.
    fn references(&mut self, texts: impl Iterator<Item = u32>) -> u32 {
        let items = texts.map(|text| Item::child(self.push(Expr::reference(text))));
        let items = items.collect();
        self.expr(kind::LIST, items)
    }

    /// A binding of each text to the value.
    fn bindings(&mut self, value: u32, texts: impl Iterator<Item = Vec<u8>>) -> Vec<Item> {
        let items = texts.map(|text| {
            let text = self.text(text);
            let (role, name) = (role::STATIC, self.name(text, name_kind::LET_IN));
            let expr = value;
            Item { role, name, expr }
        });
        items.collect()
    }

    fn integer(&mut self) -> u32 {
        self.push(Expr::with_detail(kind::LITERAL, detail::INTEGER, vec![]))
    }

    /// Functions of these names around the inner expression, the outermost first.
    fn functions(mut self, names: Vec<u32>, mut inner: u32) -> Tree {
        for &name in names.iter().rev() {
            let (role, expr) = (role::PARAMETER, NONE);
            let items = vec![Item { role, name, expr }, Item::child(inner)];
            inner = self.expr(kind::LAMBDA, items);
        }
        self.entered_at(inner)
    }

    fn entered_at(mut self, entry: u32) -> Tree {
        self.tree.entry = entry;
        self.tree
    }
}

fn joined(parts: &[&[u8]]) -> Vec<u8> {
    parts.concat()
}

/// A number in four letters, so that all are of one length.
fn digits(number: usize) -> [u8; 4] {
    [3, 2, 1, 0].map(|place| b'a' + (number / 26_usize.pow(place) % 26) as u8)
}

/// So many bytes of which the last one, the first one or one within is told by the number.
fn last_byte(number: usize, length: usize) -> Vec<u8> {
    let mut text = vec![b'a'; length];
    text[length - 1] += (number % 26) as u8;
    text
}

fn first_byte(number: usize, length: usize) -> Vec<u8> {
    let mut text = vec![b'a'; length];
    text[0] += (number % 26) as u8;
    text
}

fn all_but_a_byte(number: usize, length: usize) -> Vec<u8> {
    let mut text = vec![b'a'; length];
    text[(number + length / 2) % length] += (1 + number / length % 25) as u8;
    text
}

/// So many bytes that all keys begin with, and the key's own four.
fn key(shared: usize, number: usize) -> Vec<u8> {
    joined(&[&vec![b'a'; shared], &digits(number)])
}

/// The same with an end that all have behind them.
fn long_key(shared: usize, number: usize) -> Vec<u8> {
    joined(&[&vec![b'a'; shared], &last_eight(number)])
}

fn last_eight(number: usize) -> Vec<u8> {
    joined(&[&digits(number), b"sameends"])
}

/// "Aa" and "BB" have the same sum of powers of 31, and so has whatever is made of as many of them.
fn same_sum(number: usize) -> Vec<u8> {
    let pairs = (0..14).map(|bit| if number >> bit & 1 == 0 { "Aa" } else { "BB" });
    pairs.collect::<String>().into_bytes()
}

fn field(name: u32) -> Item {
    let (role, expr) = (role::PATTERN_FIELD, NONE);
    Item { role, name, expr }
}

/// A function of three times `count` fields of one name, around references to two texts that are nearly it.
fn one_name(count: usize, text: fn(usize, usize) -> Vec<u8>) -> Tree {
    let length = (2 * count).clamp(1, LONGEST_TEXT);
    let mut writer = Writer::default();
    let name_text = writer.text(text(0, length));
    let name = writer.name(name_text, name_kind::PAT_FIELD);
    let asked = [writer.apart(text(1, length)), writer.text(text(2, length))];
    let list = writer.references((0..count).map(|number| asked[number % 2]));
    let mut items = vec![field(name); 3 * count];
    items.push(Item::child(list));
    let entry = writer.expr(kind::LAMBDA, items);
    writer.entered_at(entry)
}

/// A function of a few fields with long names, and `count` references to them by turns.
fn long_names(count: usize, text: fn(usize, usize) -> Vec<u8>) -> Tree {
    let length = count.clamp(1, LONGEST_TEXT);
    let mut writer = Writer::default();
    let texts = (0..FEW).map(|number| writer.apart(text(number, length)));
    let texts: Vec<u32> = texts.collect();
    let fields = texts
        .iter()
        .map(|&text| field(writer.name(text, name_kind::PAT_FIELD)));
    let mut items: Vec<Item> = fields.collect();
    let list = writer.references((0..count).map(|number| texts[number % FEW]));
    items.push(Item::child(list));
    let entry = writer.expr(kind::LAMBDA, items);
    writer.entered_at(entry)
}

/// A let of `count` names, each referred to once, from the last to the first.
fn wide(count: usize, text: fn(usize) -> Vec<u8>) -> Tree {
    let mut writer = Writer::default();
    let value = writer.integer();
    let mut items = writer.bindings(value, (0..count).map(text));
    let list = writer.references((0..count as u32).rev());
    items.push(Item::child(list));
    let entry = writer.expr(kind::LET_IN, items);
    writer.entered_at(entry)
}

/// The same where each reference has a text of its own.
fn wide_twice(count: usize, text: fn(usize) -> Vec<u8>) -> Tree {
    let mut writer = Writer::default();
    let value = writer.integer();
    let mut items = writer.bindings(value, (0..count).map(text));
    let asked = (0..count).rev().map(|number| writer.text(text(number)));
    let asked: Vec<u32> = asked.collect();
    let list = writer.references(asked.into_iter());
    items.push(Item::child(list));
    let entry = writer.expr(kind::LET_IN, items);
    writer.entered_at(entry)
}

/// `count` functions around each other, and in the innermost as many references to the outermost one's name. Its text
/// stands twice, so that no reference has the text number of the one before.
fn deep_outermost(count: usize) -> Tree {
    let mut writer = Writer::default();
    let asked = [0, 1].map(|_| writer.apart(b"outermost".to_vec()));
    let list = writer.references((0..count).map(|number| asked[number % 2]));
    let text = writer.text(b"x".to_vec());
    let [outermost, inner] = [asked[0], text].map(|text| writer.name(text, name_kind::PARAM));
    let names = std::iter::once(outermost).chain(std::iter::repeat_n(inner, count.max(1) - 1));
    writer.functions(names.collect(), list)
}

/// `count` functions around each other, each of a name of its own, and in the innermost a reference to each.
fn deep_own(count: usize) -> Tree {
    let mut writer = Writer::default();
    let texts = (0..count).map(|number| writer.text(format!("scope{number}").into()));
    let texts: Vec<u32> = texts.collect();
    let list = writer.references(texts.iter().copied());
    let names = texts
        .iter()
        .map(|&text| writer.name(text, name_kind::PARAM));
    let names = names.collect();
    writer.functions(names, list)
}

/// A function of `count` fields without name and default.
fn pattern(count: usize) -> Tree {
    let mut writer = Writer::default();
    let body = writer.integer();
    let mut items = vec![field(NONE); count];
    items.push(Item::child(body));
    let entry = writer.expr(kind::LAMBDA, items);
    writer.entered_at(entry)
}

/// A set that inherits `count` times from somewhere.
fn inherited_set(count: usize) -> Tree {
    let mut writer = Writer::default();
    let text = writer.text(b"x".to_vec());
    let name = writer.name(text, name_kind::PLAIN_ATTRSET);
    let (role, expr) = (role::INHERIT_FROM, writer.integer());
    let items = vec![Item { role, name, expr }; count];
    let entry = writer.expr(kind::ATTR_SET, items);
    writer.entered_at(entry)
}

/// Lists of the same expression twice, so many around each other: each doubles the visits.
fn shared(tree: Tree, levels: usize) -> Tree {
    let mut writer = Writer { tree };
    let mut entry = writer.tree.entry;
    for _ in 0..levels {
        entry = writer.expr(kind::LIST, vec![Item::child(entry); 2]);
    }
    writer.entered_at(entry)
}

/// `count` names of two letters from the last to the first, behind more names of one hash than a bucket holds.
fn falling_names(count: usize) -> Tree {
    let mut writer = Writer::default();
    let two = |number: usize| vec![1 + (number / 127) as u8, 1 + (number % 127) as u8];
    let texts = (0..=CHAIN).map(last_eight);
    for text in texts.chain((0..count).rev().map(two)) {
        let text = writer.text(text);
        writer.name(text, name_kind::PARAM);
    }
    let body = writer.push(Expr::reference(0));
    writer.functions(vec![0], body)
}

/// As many names of one hash as a bucket holds, and `count` references of that hash to other texts.
fn full_chains(count: usize) -> Tree {
    fields_and_references((0..CHAIN + count).map(last_eight), CHAIN)
}

/// `count` texts of one length, alike in all but one byte before the last 8. The first `named` of them are names.
fn long_texts(count: usize, length: usize, named: usize) -> Tree {
    let text = |number: usize| {
        let mut text = vec![b'a'; length];
        text[length - 9] = b'0' + (number % 75) as u8;
        text
    };
    fields_and_references((0..count).map(text), named)
}

/// More long texts of one hash than a bucket holds, all of them names, and `count` more names of the first.
fn many_names(count: usize) -> Tree {
    let length = (9 + count).min(LONGEST_TEXT);
    let mut tree = long_texts(CHAIN + 1, length, CHAIN + 1);
    let first = tree.names[0];
    tree.names.extend(std::iter::repeat_n(first, count));
    tree
}

/// A function whose fields are the first texts, and in it a reference to each text.
fn fields_and_references(texts: impl Iterator<Item = Vec<u8>>, named: usize) -> Tree {
    let mut writer = Writer::default();
    let texts: Vec<u32> = texts.map(|text| writer.text(text)).collect();
    let list = writer.references(texts.iter().copied());
    let fields = texts.iter().take(named);
    let fields = fields.map(|&text| field(writer.name(text, name_kind::PAT_FIELD)));
    let mut items: Vec<Item> = fields.collect();
    items.push(Item::child(list));
    let entry = writer.expr(kind::LAMBDA, items);
    writer.entered_at(entry)
}

/// `1 && 1`, and so on with both sides the same: so many levels. What is around it has `count` items.
fn condition(count: usize, levels: usize) -> Tree {
    let mut writer = Writer::default();
    let mut entry = writer.integer();
    for _ in 0..levels {
        let items = vec![Item::child(entry); 2];
        entry = writer.push(Expr::with_detail(kind::BIN_OP, detail::AND, items));
    }
    let list = writer.expr(kind::LIST, vec![Item::child(0); count]);
    let items = vec![Item::child(entry), Item::child(list)];
    let entry = writer.push(Expr::with_detail(kind::BIN_OP, detail::AND, items));
    writer.entered_at(entry)
}

/// `if` with a condition of that many nodes, around a let of `count` bindings.
fn guarded(count: usize) -> Tree {
    let mut writer = Writer {
        tree: condition(0, 16),
    };
    let condition = writer.tree.entry;
    let text = writer.text(b"x".to_vec());
    let (role, name) = (role::STATIC, writer.name(text, name_kind::LET_IN));
    let expr = 0;
    let mut items = vec![Item { role, name, expr }; count];
    items.push(Item::child(0));
    let body = writer.expr(kind::LET_IN, items);
    let items = [condition, body, 0].map(Item::child).to_vec();
    let entry = writer.expr(kind::IF_THEN_ELSE, items);
    writer.entered_at(entry)
}

#[cfg(test)]
mod tests {
    use super::*;
    use crate::port;
    use crate::second_reading::{
        check, condition_steps, dependency_steps, name_resolution, resolution_need,
        resolution_steps,
    };

    #[test]
    fn every_family_is_accepted_and_fills_its_size() {
        for family in &FAMILIES {
            for (least, bytes) in [(4_000, 8_192), (11_000, 16_384), (60_000, BOUNDED_BYTES)] {
                let image = family.within(bytes).encode();
                assert_eq!(check(&image), 0, "{}", family.name);
                let length = image.len();
                let is_within = (least..=bytes).contains(&length);
                assert!(is_within, "{}: {length}", family.name);
            }
        }
    }

    #[test]
    fn a_family_is_found_by_its_name_and_has_it_alone() {
        for (number, family) in FAMILIES.iter().enumerate() {
            let found = FAMILIES.iter().position(|other| other.name == family.name);
            assert_eq!(found, Some(number));
            assert!(Family::of(family.name).is_some() && !family.why.is_empty());
        }
        assert!(Family::of("nothing").is_none());
    }

    #[test]
    fn port_and_second_reading_agree_on_small_ones() {
        for family in &FAMILIES {
            let tree = family.tree(20);
            let image = tree.encode();
            if resolution_steps(&image) > 1 << 18 {
                continue;
            }
            let need = resolution_need(&image) as usize;
            let resolved = |call: port::NameResolution| {
                let (mut table, mut steps) = (vec![0; 2 * tree.exprs.len()], 0);
                let answer = call(&image, u32::MAX, &mut table, &mut vec![0; need], &mut steps);
                (answer, table, steps)
            };
            assert_eq!(
                resolved(port::name_resolution),
                resolved(name_resolution),
                "{}",
                family.name
            );
        }
    }

    #[test]
    fn texts_are_alike_as_their_family_says() {
        let texts = |make: fn(usize) -> Vec<u8>| {
            let mut texts: Vec<Vec<u8>> = (0..8000).map(make).collect();
            assert!(texts.iter().all(|text| text.len() == texts[0].len()));
            texts.sort();
            texts.dedup();
            assert_eq!(texts.len(), 8000);
            texts
        };
        let ends = texts(last_eight);
        assert!(ends.iter().all(|text| text.ends_with(b"sameends")));
        let keys = texts(|number| key(400, number));
        assert!(keys.iter().all(|text| text.starts_with(&[b'a'; 400])));
        let keys = texts(|number| long_key(400, number));
        let alike = |text: &Vec<u8>| text.starts_with(&[b'a'; 400]) && text.ends_with(b"sameends");
        assert!(keys.iter().all(alike));
        let sum = |text: &Vec<u8>| {
            let bytes = text.iter().map(|&byte| u32::from(byte));
            bytes.fold(7u32, |sum, byte| sum.wrapping_mul(31).wrapping_add(byte))
        };
        let sums = texts(same_sum);
        assert!(sums.iter().all(|text| sum(text) == sum(&sums[0])));
        let apart = |first: &[u8], second: &[u8]| {
            let bytes = first.iter().zip(second);
            bytes.filter(|(first, second)| first != second).count()
        };
        for number in 1..1000 {
            let [first, other] = [0, number].map(|number| all_but_a_byte(number, SHARED));
            assert!((1..=2).contains(&apart(&first, &other)));
        }
    }

    #[test]
    fn keys_that_stand_twice_are_resolved_as_those_that_stand_once() {
        let resolved = |name: &str| {
            let tree = Family::of(name).expect("a family").tree(9);
            let image = tree.encode();
            let (mut table, need) = (vec![0; 2 * tree.exprs.len()], resolution_need(&image));
            let mut working = vec![0; need as usize];
            let answer = name_resolution(&image, u32::MAX, &mut table, &mut working, &mut 0);
            (answer, table, tree.texts.len())
        };
        let [once, twice] = ["keys, 40 in common", "keys twice, 40 in common"].map(resolved);
        assert_eq!((once.0, &once.1), (twice.0, &twice.1));
        assert_eq!((once.2, twice.2), (9, 18));
    }

    #[test]
    fn steps_are_as_many_as_the_names_say() {
        let of = |name: &str, count: usize| Family::of(name).unwrap().tree(count).encode();
        assert!(resolution_steps(&of("pattern, 2^60 visits", 5)) > 1 << 60);
        let million = resolution_steps(&of("set, 2^20 visits", 5));
        assert!((1 << 20..1 << 23).contains(&million));
        let guard = of("guard of 2^17 nodes", 5);
        let steps = dependency_steps(&guard, &port::own_tables(&guard));
        assert!((1 << 17..1 << 19).contains(&steps));
        let condition = condition_steps(&of("condition of 2^17 nodes", 5));
        assert!((1 << 17..1 << 19).contains(condition.iter().max().unwrap()));
    }
}

//! `exhaust`: every image of some small families, port beside second reading.

use super::comparison::Comparison;
use super::report::Report;
use crate::generate::small::{OWNER, REFERENCE, above_leaves, missing, right_item};
use crate::image::{
    Expr, ExprFields, Fields, Header, Item, MOST_RUN, NONE, NameFields, TextFields, kind, role,
};
use crate::notation::survey_case;
use crate::port;

type Family = fn(&mut Comparison);

const FAMILIES: [(&str, Family); 11] = [
    ("every string of up to two bytes", short_strings),
    ("every repeated byte up to 64 bytes", repeated_bytes),
    ("every small header", small_headers),
    ("every two texts with small runs", two_texts),
    ("every name's kind and spare bits", one_name),
    ("every expression's kind and detail", one_expr),
    ("every one or two items", one_or_two_items),
    ("every order of up to five items", item_orders),
    ("every mix of item faults in three sets", item_faults),
    ("every one or two flips of the printed case", flips),
    ("every cut of the printed case", cuts),
];

pub fn run() -> Report {
    let mut comparison = Comparison::new(port::check);
    for (name, family) in FAMILIES {
        let before = comparison.compared;
        family(&mut comparison);
        println!("{name}: {} compared", comparison.compared - before);
    }
    println!("{} images compared in all", comparison.compared);
    let rows = vec![comparison.row("every image of eleven small families", None)];
    let is_right = comparison.report();
    if is_right {
        println!("no difference");
    }
    Report::new(is_right, rows)
}

fn short_strings(comparison: &mut Comparison) {
    comparison.compare(&[]);
    for one in 0..=255 {
        comparison.compare(&[one]);
        (0..=255).for_each(|two| comparison.compare(&[one, two]));
    }
}

fn repeated_bytes(comparison: &mut Comparison) {
    for byte in 0..=255 {
        (0..=64).for_each(|length| comparison.compare(&vec![byte; length]));
    }
}

/// Each number in all its places, the places counted like digits.
fn digits<const N: usize>(base: u32, mut number: u32) -> [u32; N] {
    [(); N].map(|()| {
        let digit = number % base;
        number /= base;
        digit
    })
}

/// Counts 0 to 2 in each place, with a body of zeros that fits, is short or is long by one.
fn small_headers(comparison: &mut Comparison) {
    for number in 0..3u32.pow(5) * 4 {
        let [exprs, names, texts, items, bytes] = digits(3, number % 243);
        let header = Header {
            exprs,
            names,
            texts,
            items,
            bytes,
            entry: [0, 1, 2, NONE][number as usize / 243],
        };
        let fields = Fields {
            header,
            ..Fields::default()
        };
        for length in [0, 1, 2].map(|more| header.image_length() + more - 1) {
            let mut image = fields.encode();
            image.resize(length, 0);
            comparison.compare(&image);
        }
    }
}

fn two_texts(comparison: &mut Comparison) {
    for number in 0..4u32.pow(4) * 7 {
        let [one, two, three, four] = digits(4, number % 256);
        let mut fields = missing().fields();
        fields.texts = [(one, two), (three, four)]
            .map(|(first, length)| TextFields { first, length })
            .to_vec();
        fields.bytes = vec![b'x'; number as usize / 256];
        fields.recount();
        comparison.compare(&fields.encode());
    }
}

fn one_name(comparison: &mut Comparison) {
    let mut fields = missing().fields();
    fields.texts = vec![TextFields {
        first: 0,
        length: 0,
    }];
    for text in [0, 1, NONE] {
        for kind in 0..8 {
            for spare in 0..1 << 15 {
                fields.names = vec![NameFields { text, kind, spare }];
                fields.recount();
                comparison.compare(&fields.encode());
            }
        }
    }
}

fn one_expr(comparison: &mut Comparison) {
    for number in 0..1024 * 5 * 3 * 4 * 2 {
        let (rest, texts) = (number / 2, number % 2);
        let (rest, count) = (rest / 4, [0, 1, 2, MOST_RUN as u32][rest % 4]);
        let (rest, first) = (rest / 3, [0, 1, MOST_RUN as u32][rest % 3]);
        let (rest, text) = (rest / 5, [0, 1, 2, NONE - 1, NONE][rest % 5]);
        let mut fields = Fields {
            exprs: vec![ExprFields {
                kind: rest as u32 / 32,
                detail: rest as u32 % 32,
                text,
                first,
                count,
            }],
            ..Fields::default()
        };
        fields.texts = vec![
            TextFields {
                first: 0,
                length: 0
            };
            texts
        ];
        fields.recount();
        comparison.compare(&fields.encode());
    }
}

/// Puts items over the last ones of an image without text bytes.
fn set_items(image: &mut [u8], items: &[Item]) {
    let start = image.len() - 4 * items.len();
    for (place, item) in image[start..].chunks_exact_mut(4).zip(items) {
        place.copy_from_slice(&item.encode());
    }
}

/// An image whose owner has so many items, to be filled in.
fn with_items(kind: u32, count: usize) -> Vec<u8> {
    above_leaves(kind, vec![Item::child(0); count]).encode()
}

fn one_or_two_items(comparison: &mut Comparison) {
    let item = |number: usize| Item {
        role: (number / 18) as u32,
        name: [0, 1, NONE][number / 6 % 3],
        expr: [0, REFERENCE, 2, OWNER, OWNER + 1, NONE][number % 6],
    };
    let items: Vec<Item> = (0..16 * 18).map(item).collect();
    for kind in 0..kind::COUNT {
        let mut single = with_items(kind, 1);
        let mut double = with_items(kind, 2);
        for &one in &items {
            set_items(&mut single, &[one]);
            comparison.compare(&single);
            for &two in &items {
                set_items(&mut double, &[one, two]);
                comparison.compare(&double);
            }
        }
    }
}

/// Roles 0 to 11 in every order, the items right but for where they stand.
fn item_orders(comparison: &mut Comparison) {
    const ROLES: u32 = 12;
    for kind in 0..kind::COUNT {
        for count in 0..=5 {
            let mut image = with_items(kind, count);
            for number in 0..ROLES.pow(count as u32) {
                let items = digits::<5>(ROLES, number).map(right_item);
                set_items(&mut image, &items[..count]);
                comparison.compare(&image);
            }
        }
    }
}

/// Three sets, each with two items of which each is right or breaks 6, 10 or 11.
fn item_faults(comparison: &mut Comparison) {
    const SETS: u32 = 3;
    for number in 0..4u32.pow(2 * SETS) {
        let faults: [u32; 6] = digits(4, number);
        let mut tree = above_leaves(kind::LIST, vec![]);
        tree.exprs.pop();
        for pair in faults.as_chunks::<2>().0 {
            let owner = tree.exprs.len() as u32;
            let items = pair.map(|fault| inherit_with(fault, owner));
            tree.exprs.push(Expr::new(kind::ATTR_SET, items.to_vec()));
        }
        comparison.compare(&tree.encode());
    }
}

/// An Inherit of the Reference, of nothing, of its owner, or of what is no Reference.
fn inherit_with(fault: u32, owner: u32) -> Item {
    Item {
        expr: [REFERENCE, NONE, owner, 0][fault as usize],
        ..right_item(role::INHERIT)
    }
}

fn flips(comparison: &mut Comparison) {
    let mut image = survey_case().encode();
    let bits = 8 * image.len();
    for one in 0..bits {
        turn(&mut image, one);
        comparison.compare(&image);
        for two in one + 1..bits {
            turn(&mut image, two);
            comparison.compare(&image);
            turn(&mut image, two);
        }
        turn(&mut image, one);
    }
}

fn turn(image: &mut [u8], bit: usize) {
    image[bit / 8] ^= 0x80 >> (bit % 8);
}

fn cuts(comparison: &mut Comparison) {
    let image = survey_case().encode();
    (0..=image.len()).for_each(|length| comparison.compare(&image[..length]));
    for more in 0..=255 {
        comparison.compare(&[&image[..], &[more]].concat());
    }
}

#[cfg(test)]
mod tests {
    use super::*;
    use crate::image::Tree;
    use crate::second_reading;

    #[test]
    fn small_families_hit_what_they_are_about() {
        let outcomes = |family: Family| {
            let mut comparison = Comparison::new(second_reading::check);
            family(&mut comparison);
            comparison
                .hits()
                .map(|(_, hits)| hits)
                .collect::<Vec<u64>>()
        };
        assert_eq!(outcomes(short_strings)[1], 1 + 256 + 65_536);
        assert!(outcomes(small_headers)[2] > 0);
        assert!(outcomes(two_texts)[3] > 0 && outcomes(two_texts)[0] > 0);
        assert_eq!(outcomes(cuts), [1, 146 + 256, 0, 0, 0, 0, 0, 0, 0]);
        // Of 4 to the 6th: one is right; 6 wherever one breaks it; 10 where none breaks 6; 11 where none breaks 6 or 10.
        let [six, ten, eleven] = [4096 - 729, 729 - 64, 64 - 1];
        assert_eq!(outcomes(item_faults), [1, 0, 0, 0, 0, 0, six, ten, eleven]);
    }

    #[test]
    fn items_stand_at_the_end_of_an_image_without_text_bytes() {
        let mut image = with_items(kind::APPLY, 2);
        set_items(&mut image, &[Item::child(0), Item::child(1)]);
        assert_eq!(second_reading::check(&image), 0);
        let items = Tree::decode(&image).exprs[3].items.clone();
        assert_eq!(items, [Item::child(0), Item::child(1)]);
    }
}

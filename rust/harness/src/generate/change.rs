//! Changes of a tree that may make it slower: more of its items, texts that are nearly the same, expressions that are
//! shared or stand within more scopes. Most keep the format's rules; whoever asks for one checks the image.

use crate::image::{Expr, Item, LONGEST_TEXT, NONE, Name, Tree, kind, name_kind, role};
use crate::random::Random;

/// Most runs that are put in or taken out are short, some are as long as this.
const MOST_AT_ONCE: usize = 4096;

/// A change that is made to a tree; nothing where it finds no place.
type Change = fn(&mut Random, &mut Tree) -> Option<()>;

const CHANGES: [Change; 14] = [
    repeat_items,
    repeat_items,
    drop_items,
    repeat_references,
    other_name,
    other_expr,
    other_text,
    change_text,
    resize_text,
    new_text,
    more_names,
    reverse_names,
    share,
    wrap,
];

/// A changed copy: a few changes at once, or another tree beside this one.
pub fn changed(random: &mut Random, tree: &Tree, other: &Tree) -> Tree {
    let mut tree = tree.clone();
    if random.chance(5) {
        return beside(tree, other);
    }
    for _ in 0..random.between(1, 4) {
        let change = *random.pick(&CHANGES);
        // One that finds no place leaves the tree as it is.
        let _ = change(random, &mut tree);
    }
    tree
}

/// Some expression that a rule holds for, looked for from a place taken at random.
fn some_expr(random: &mut Random, tree: &Tree, rule: impl Fn(&Expr) -> bool) -> Option<usize> {
    let count = tree.exprs.len();
    let start = random.below(count);
    let places = (start..count).chain(0..start);
    places.into_iter().find(|&e| rule(&tree.exprs[e]))
}

fn some_text(random: &mut Random, tree: &Tree) -> Option<usize> {
    let count = tree.texts.len();
    (count > 0).then(|| random.below(count))
}

/// Roles of which an expression may have any number.
fn is_repeated(kind: u32, item: &Item) -> bool {
    match item.role {
        role::CHILD => [
            kind::LIST,
            kind::STRING_INTERPOLATION,
            kind::PATH_INTERPOLATION,
        ]
        .contains(&kind),
        role::DEFAULT | role::DYNAMIC_KEY | role::DYNAMIC_VALUE | role::PARAMETER => false,
        _ => true,
    }
}

/// An expression and the length of its items at the front, or behind a first one, that may be repeated.
fn repeated(random: &mut Random, tree: &Tree) -> Option<(usize, std::ops::Range<usize>)> {
    let has_some = |e: &Expr| e.items.iter().any(|item| is_repeated(e.kind, item));
    let e = some_expr(random, tree, has_some)?;
    let Expr { kind, items, .. } = &tree.exprs[e];
    let first = items.iter().position(|item| is_repeated(*kind, item))?;
    let run = items[first..]
        .iter()
        .take_while(|item| is_repeated(*kind, item));
    let start = first + random.below(run.count());
    let alike = items[start..]
        .iter()
        .take_while(|item| item.role == items[start].role);
    let length = 1 + random.size(alike.count() - 1);
    Some((e, start..start + length))
}

fn repeat_items(random: &mut Random, tree: &mut Tree) -> Option<()> {
    let (e, run) = repeated(random, tree)?;
    let items = tree.exprs[e].items[run.clone()].to_vec();
    let times = 1 + random.size(MOST_AT_ONCE / items.len());
    tree.exprs[e]
        .items
        .splice(run.end..run.end, items.repeat(times));
    Some(())
}

fn drop_items(random: &mut Random, tree: &mut Tree) -> Option<()> {
    let (e, run) = repeated(random, tree)?;
    tree.exprs[e].items.drain(run);
    Some(())
}

/// New references, put into a list beside one that is there.
fn repeat_references(random: &mut Random, tree: &mut Tree) -> Option<()> {
    let list = some_expr(random, tree, |e| e.kind == kind::LIST)?;
    let texts = tree.texts.len();
    let text = some_text(random, tree)?;
    let step = random.below(texts);
    let count = 1 + random.size(MOST_AT_ONCE);
    let reference = |number: usize| Expr::reference(((text + number * step) % texts) as u32);
    insert(tree, list, (0..count).map(reference).collect());
    let items = (list..list + count).map(|e| Item::child(e as u32));
    tree.exprs[list + count].items.extend(items);
    Some(())
}

/// Puts expressions before the one of that number; those behind are numbered anew.
fn insert(tree: &mut Tree, place: usize, new: Vec<Expr>) {
    let count = new.len() as u32;
    let moved = |number: &mut u32| {
        if *number != NONE && *number as usize >= place {
            *number += count;
        }
    };
    let items = tree.exprs.iter_mut().flat_map(|e| &mut e.items);
    items.for_each(|item| moved(&mut item.expr));
    moved(&mut tree.entry);
    tree.exprs.splice(place..place, new);
}

/// A run of items in which each item has a name, gets other names: one for all, or one after the other.
fn other_name(random: &mut Random, tree: &mut Tree) -> Option<()> {
    let names = tree.names.len();
    let (e, run) = repeated(random, tree)?;
    let (first, step) = (random.below(names.max(1)), random.below(2));
    let items = tree.exprs[e].items[run].iter_mut();
    for (number, item) in items.filter(|item| item.name != NONE).enumerate() {
        item.name = ((first + number * step) % names) as u32;
    }
    Some(())
}

/// A run of items leads to another expression below.
fn other_expr(random: &mut Random, tree: &mut Tree) -> Option<()> {
    let (e, run) = repeated(random, tree)?;
    let expr = random.below(e.max(1)) as u32;
    let items = tree.exprs[e].items[run].iter_mut();
    let free = items.filter(|item| item.expr != NONE && item.role != role::INHERIT);
    free.for_each(|item| item.expr = expr);
    Some(())
}

/// References, or names, from one on get another text.
fn other_text(random: &mut Random, tree: &mut Tree) -> Option<()> {
    let text = some_text(random, tree)? as u32;
    let count = 1 + random.size(MOST_AT_ONCE);
    if random.chance(50) && !tree.names.is_empty() {
        let start = random.below(tree.names.len());
        let names = tree.names[start..].iter_mut().take(count);
        names.for_each(|name| name.text = text);
        return Some(());
    }
    let start = some_expr(random, tree, |e| e.kind == kind::REFERENCE)?;
    let references = tree.exprs[start..].iter_mut();
    let references = references.filter(|e| e.kind == kind::REFERENCE);
    references.take(count).for_each(|e| e.text = text);
    Some(())
}

/// The first, the last or some byte of a text becomes another letter.
fn change_text(random: &mut Random, tree: &mut Tree) -> Option<()> {
    let number = some_text(random, tree)?;
    let length = tree.texts[number].len();
    let last = length.checked_sub(1)?;
    let any = random.below(length);
    let place = *random.pick(&[0, last, last / 2, any]);
    tree.texts[number][place] = random.between(b'a'.into(), b'z'.into()) as u8;
    Some(())
}

/// A text, or every text, becomes longer or shorter, at the front or at the end.
fn resize_text(random: &mut Random, tree: &mut Tree) -> Option<()> {
    let number = some_text(random, tree)?;
    let count = 1 + random.size(LONGEST_TEXT);
    let (at_front, is_longer) = (random.chance(50), random.chance(60));
    let texts = match random.chance(20) {
        true => 0..tree.texts.len(),
        false => number..number + 1,
    };
    for text in &mut tree.texts[texts] {
        match is_longer {
            true => lengthen(text, count.min(LONGEST_TEXT - text.len()), at_front),
            false => shorten(text, count.min(text.len()), at_front),
        }
    }
    Some(())
}

fn lengthen(text: &mut Vec<u8>, count: usize, at_front: bool) {
    let place = if at_front { 0 } else { text.len() };
    text.splice(place..place, vec![b'a'; count]);
}

fn shorten(text: &mut Vec<u8>, count: usize, at_front: bool) {
    let place = if at_front { 0 } else { text.len() - count };
    text.drain(place..place + count);
}

/// Texts like one that is there but for a byte, each of a new name.
fn new_text(random: &mut Random, tree: &mut Tree) -> Option<()> {
    let model = some_text(random, tree)?;
    let length = tree.texts[model].len();
    let place = *random.pick(&[
        0,
        length / 2,
        length.saturating_sub(9),
        length.saturating_sub(1),
    ]);
    let kind = random.below(name_kind::COUNT as usize) as u32;
    for number in 0..1 + random.size(256) {
        let mut text = tree.texts[model].clone();
        let byte = text.get_mut(place)?;
        *byte = b'0' + (number % 75) as u8;
        let place = tree.texts.len() as u32;
        tree.texts.push(text);
        tree.names.push(Name { text: place, kind });
    }
    Some(())
}

/// New names of texts that are there, one after the other.
fn more_names(random: &mut Random, tree: &mut Tree) -> Option<()> {
    let first = some_text(random, tree)?;
    let kind = random.below(name_kind::COUNT as usize) as u32;
    let count = 1 + random.size(MOST_AT_ONCE);
    let text = |number: usize| ((first + number) % tree.texts.len()) as u32;
    let names = (0..count).map(|number| Name {
        text: text(number),
        kind,
    });
    tree.names.extend(names.collect::<Vec<Name>>());
    Some(())
}

/// A run of names in the other order, with what is bound to them.
fn reverse_names(random: &mut Random, tree: &mut Tree) -> Option<()> {
    let start = random.below(tree.names.len().max(1));
    tree.names.get_mut(start..)?.reverse();
    Some(())
}

/// An item that leads to an expression of its own choice, not only to a Reference.
fn some_item(random: &mut Random, tree: &Tree) -> Option<(usize, usize)> {
    let is_free = |item: &Item| item.expr != NONE && item.role != role::INHERIT;
    let e = some_expr(random, tree, |e| e.items.iter().any(is_free))?;
    let items = tree.exprs[e].items.iter();
    let free = items.enumerate().filter(|(_, item)| is_free(item));
    let places: Vec<usize> = free.map(|(place, _)| place).collect();
    Some((e, *random.pick(&places)))
}

/// An expression stands twice in a list, and so on for some levels, where it stood once.
fn share(random: &mut Random, tree: &mut Tree) -> Option<()> {
    let (owner, place) = some_item(random, tree)?;
    let levels = 1 + random.size(40);
    let inner = tree.exprs[owner].items[place].expr;
    let mut below = inner;
    let lists = (owner..owner + levels).map(|e| {
        let list = Expr::new(kind::LIST, vec![Item::child(below); 2]);
        below = e as u32;
        list
    });
    let lists = lists.collect();
    insert(tree, owner, lists);
    tree.exprs[owner + levels].items[place].expr = below;
    Some(())
}

/// An expression stands within so many functions or withs where it stood alone.
fn wrap(random: &mut Random, tree: &mut Tree) -> Option<()> {
    let (owner, place) = some_item(random, tree)?;
    let levels = 1 + random.size(512);
    let names = tree.names.len();
    let is_with = names == 0 || random.chance(30);
    let (first, step) = (random.below(names.max(1)), random.below(2));
    let mut below = tree.exprs[owner].items[place].expr;
    let around = (0..levels).map(|level| {
        let name = ((first + level * step) % names.max(1)) as u32;
        let (role, expr) = (role::PARAMETER, NONE);
        let (kind, other) = match is_with {
            true => (kind::WITH, Item::child(0)),
            false => (kind::LAMBDA, Item { role, name, expr }),
        };
        let expr = Expr::new(kind, vec![other, Item::child(below)]);
        below = (owner + level) as u32;
        expr
    });
    let around = around.collect();
    insert(tree, owner, around);
    tree.exprs[owner + levels].items[place].expr = below;
    Some(())
}

/// Both trees, in a list.
fn beside(mut tree: Tree, other: &Tree) -> Tree {
    let [exprs, names, texts] = [tree.exprs.len(), tree.names.len(), tree.texts.len()];
    let moved = |number: u32, by: usize| {
        if number == NONE {
            NONE
        } else {
            number + by as u32
        }
    };
    let item = |item: &Item| Item {
        role: item.role,
        name: moved(item.name, names),
        expr: moved(item.expr, exprs),
    };
    tree.exprs.extend(other.exprs.iter().map(|e| Expr {
        text: moved(e.text, texts),
        items: e.items.iter().map(item).collect(),
        ..*e
    }));
    tree.names.extend(other.names.iter().map(|name| Name {
        text: moved(name.text, texts),
        ..*name
    }));
    tree.texts.extend(other.texts.iter().cloned());
    let both = [tree.entry, moved(other.entry, exprs)].map(Item::child);
    tree.entry = tree.exprs.len() as u32;
    tree.exprs.push(Expr::new(kind::LIST, both.to_vec()));
    tree
}

#[cfg(test)]
mod tests {
    use super::*;
    use crate::generate::slow::{BOUNDED_BYTES, FAMILIES, holds};
    use crate::generate::{grow::Texts, tree};
    use crate::notation::survey_case;
    use crate::second_reading::check;

    #[test]
    fn each_change_finds_a_place_and_most_are_accepted() {
        for (number, change) in CHANGES.iter().enumerate() {
            let mut random = Random::new(number as u64);
            let (mut made, mut accepted) = (0, 0);
            for _ in 0..300 {
                let mut tree = tree(&mut random, Texts::Utf8);
                let before = tree.clone();
                if change(&mut random, &mut tree).is_none() || tree == before {
                    continue;
                }
                made += 1;
                let is_right = holds(&tree, usize::MAX) && check(&tree.encode()) == 0;
                accepted += usize::from(is_right);
            }
            assert!(made > 50, "change {number}: {made}");
            assert!(
                accepted * 10 > made * 8,
                "change {number}: {accepted} of {made}"
            );
        }
    }

    #[test]
    fn expressions_put_in_move_the_others() {
        let mut tree = survey_case();
        let before = tree.clone();
        insert(&mut tree, 2, vec![Expr::new(kind::MISSING, vec![]); 3]);
        assert_eq!((tree.entry, check(&tree.encode())), (before.entry + 3, 0));
        let sum = [&before, &tree].map(|tree| tree.exprs[tree.entry as usize].items[1].expr);
        assert_eq!(sum[0] + 3, sum[1]);
    }

    #[test]
    fn trees_beside_each_other_are_accepted() {
        let [first, second] = ["wide scope", "scopes, outermost"].map(|name| {
            let family = FAMILIES.iter().find(|family| family.name == name);
            family.expect("a family").tree(30)
        });
        let tree = beside(first, &second);
        assert_eq!(check(&tree.encode()), 0);
    }

    #[test]
    fn a_seed_gives_the_same_changes() {
        let run = |seed: u64| {
            let mut random = Random::new(seed);
            let start = survey_case();
            (0..50).fold(start.clone(), |tree, _| {
                let next = changed(&mut random, &tree, &start);
                if holds(&next, BOUNDED_BYTES) {
                    next
                } else {
                    tree
                }
            })
        };
        assert!(run(1) == run(1));
        assert!(run(1) != run(2));
    }
}

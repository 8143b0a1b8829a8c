//! Faults for the tests of the comparisons: what is decided of selections of one set, one path and one use is turned round.

use crate::builtin_set;
use crate::generate::words::{CONDITIONALS, PREDICATES};
use crate::image::{Expr, Tree};
use crate::second_reading::check;
use crate::selections::{ALIAS, CONDITIONAL, HAS_ATTR, MEANT, Reader, SET_OF_SET, is_among};
use crate::tables::Given;

/// The tree of an image, where a call reads on to the tables.
fn accepted(image: &[u8], given: &Given) -> Option<Tree> {
    let tree = (check(image) == 0).then(|| Tree::decode(image))?;
    let lengths = [tree.exprs.len(), tree.names.len()].map(|count| 2 * count);
    (lengths == [given.resolutions.len(), given.bindings.len()]).then_some(tree)
}

/// Selections of this set, path and use.
fn chosen<'a>(reader: &'a Reader, [set, path, used]: [usize; 3]) -> impl Iterator<Item = &'a Expr> {
    let words = match used {
        HAS_ATTR => &["hasAttr"][..],
        CONDITIONAL => &CONDITIONALS,
        _ => &PREDICATES,
    };
    let is_chosen = move |e: &u32| {
        let selected = reader.selected(*e);
        selected.is_some_and(|it| (it.set, it.path) == (set, path) && is_among(words, it.key))
            && (used != ALIAS || reader.is_bound(*e))
    };
    let exprs = 0..reader.tree.exprs.len() as u32;
    exprs
        .filter(is_chosen)
        .map(|e| &reader.tree.exprs[e as usize])
}

/// The image as it is read with a fault of last keys: one that counts is taken for a text that means nothing, and the set
/// of one that does not for such a text, so that it counts.
pub fn image(image: &[u8], given: &Given, fault: [usize; 3]) -> Vec<u8> {
    let Some(tree) = accepted(image, given) else {
        return image.to_vec();
    };
    let Some(idle) = tree.texts.iter().position(|text| text == b"x") else {
        return image.to_vec();
    };
    let mut read = tree.clone();
    let counts = fault[0] == MEANT || fault[1] == SET_OF_SET;
    for selection in chosen(&Reader::new(&tree, given), fault) {
        let items = &selection.items;
        let place = if counts { items.len() - 1 } else { 0 };
        read.exprs[items[place].expr as usize].text = idle as u32;
    }
    read.encode()
}

/// The tables as they are read with a fault of the callee lookup: the builtin set is taken for nothing, and what is not it
/// for the builtin set.
pub fn tables(image: &[u8], given: &Given, fault: [usize; 3]) -> Given {
    let mut read = given.clone();
    let Some(tree) = accepted(image, given) else {
        return read;
    };
    let entry = if fault[0] == MEANT {
        0
    } else {
        builtin_set::entry()
    };
    let (entries, _) = read.resolutions.as_chunks_mut();
    for selection in chosen(&Reader::new(&tree, given), fault) {
        entries[selection.items[0].expr as usize] = entry.to_be_bytes();
    }
    read
}

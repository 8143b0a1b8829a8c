//! Tables given to conditions and to the walk: well-formed ones that no call of ours would write, and broken ones.

use std::collections::HashMap;

use super::words::{GLOBALS, PREDICATES};
use crate::builtin_set;
use crate::image::{NONE, Tree, kind, role};
use crate::random::Random;
use crate::tables::{BUILTIN, DEFINITION, Given, WITH, resolution, table};

/// Tables of any well-formed entries, in which references often lead on to expressions spelt as they are.
pub fn tables(random: &mut Random, tree: &Tree) -> Given {
    let mut writer = Writer::new(random, tree);
    let mut bindings: Vec<u32> = tree.names.iter().map(|_| writer.binding()).collect();
    writer.lead(&bindings);
    let exprs = 0..tree.exprs.len() as u32;
    let mut resolutions: Vec<u16> = exprs.map(|e| writer.resolution(e)).collect();
    if writer.random.chance(50) {
        writer.chain(&mut bindings, &mut resolutions);
    }
    writer.resolve_sets(&mut resolutions);
    Given {
        resolutions: table(resolutions.into_iter()),
        bindings: table(bindings.into_iter().map(|e| e as u16)),
    }
}

/// More names than an alias is traced through.
const LONGEST_CHAIN: usize = 6;
/// In so many of a hundred tables each `builtins` is the builtin set, so that the original can be asked; in so many of the
/// others each is anything, and else what any reference is.
const MEANT_SETS: usize = 60;
const ANY_SETS: usize = 80;

struct Writer<'a> {
    random: &'a mut Random,
    tree: &'a Tree,
    withs: Vec<u32>,
    /// References and selections, those spelt as a builtin that a condition calls where there are some.
    callees: Vec<u32>,
    /// By spelling the names whose bound expression is spelt so.
    leading: HashMap<&'a [u8], Vec<u32>>,
}

impl<'a> Writer<'a> {
    fn new(random: &'a mut Random, tree: &'a Tree) -> Self {
        Writer {
            random,
            tree,
            withs: of_kinds(tree, &[kind::WITH]),
            callees: callees(tree),
            leading: HashMap::new(),
        }
    }

    fn binding(&mut self) -> u32 {
        match self.random.below(10) {
            0 => NONE,
            1..=2 => self.random.below(self.tree.exprs.len()) as u32,
            _ => some(self.random, &self.callees).unwrap_or(NONE),
        }
    }

    fn lead(&mut self, bindings: &[u32]) {
        for (&e, name) in bindings.iter().zip(0..) {
            if let Some(text) = spelling(self.tree, e) {
                self.leading.entry(text).or_default().push(name);
            }
        }
    }

    fn resolution(&mut self, e: u32) -> u16 {
        if self.tree.exprs[e as usize].kind != kind::REFERENCE {
            return 0;
        }
        let entry = match self.random.below(10) {
            0 => None,
            1 => Some(resolution(BUILTIN, self.builtin(e))),
            2 => some(self.random, &self.withs).map(|with| resolution(WITH, with)),
            _ => self.definition(e).map(|name| resolution(DEFINITION, name)),
        };
        entry.unwrap_or(0)
    }

    /// Lets references of one text lead from one to the next, the last to a selection of that key if there is one.
    fn chain(&mut self, bindings: &mut [u32], resolutions: &mut [u16]) {
        let text = some(self.random, &self.callees).and_then(|e| spelling(self.tree, e));
        let alike = |&e: &u32| text.is_some() && spelling(self.tree, e) == text;
        let callees = self.callees.iter().copied().filter(alike);
        let is_reference = |&e: &u32| self.tree.exprs[e as usize].kind == kind::REFERENCE;
        let (mut references, selections): (Vec<u32>, Vec<u32>) = callees.partition(is_reference);
        let mut names: Vec<u32> = (0..bindings.len() as u32).collect();
        shuffle(self.random, &mut references);
        shuffle(self.random, &mut names);
        names.truncate(self.random.below(LONGEST_CHAIN + 1));
        for (place, (&e, &name)) in references.iter().zip(&names).enumerate() {
            resolutions[e as usize] = resolution(DEFINITION, name);
            let next = references
                .get(place + 1)
                .filter(|_| place + 1 < names.len());
            let last = some(self.random, &selections);
            bindings[name as usize] = next.copied().or(last).unwrap_or(NONE);
        }
    }

    /// What the references spelt `builtins` resolve to.
    fn resolve_sets(&mut self, resolutions: &mut [u16]) {
        let is_meant = self.random.chance(MEANT_SETS);
        if !is_meant && !self.random.chance(ANY_SETS) {
            return;
        }
        for e in builtin_set::references(self.tree) {
            resolutions[e] = match is_meant {
                true => builtin_set::entry(),
                false => self.any_set(),
            };
        }
    }

    /// A name, the builtin set, another place, a With or nothing; the image's own tables have the first two often.
    fn any_set(&mut self) -> u16 {
        let place = self.random.below(GLOBALS.len()) as u32;
        let entry = match self.random.below(8) {
            0 => any_name(self.random, self.tree).map(|name| resolution(DEFINITION, name)),
            1 => Some(builtin_set::entry()),
            2..=3 => Some(resolution(BUILTIN, place)),
            4..=5 => some(self.random, &self.withs).map(|with| resolution(WITH, with)),
            _ => None,
        };
        entry.unwrap_or(0)
    }

    /// The builtin of the reference's text, or any.
    fn builtin(&mut self, e: u32) -> u32 {
        let text = spelling(self.tree, e);
        let place = GLOBALS
            .iter()
            .position(|name| Some(name.as_bytes()) == text);
        let place = place.filter(|_| self.random.chance(70));
        place.unwrap_or_else(|| self.random.below(GLOBALS.len())) as u32
    }

    /// A name that leads to an expression of the reference's text, or any.
    fn definition(&mut self, e: u32) -> Option<u32> {
        let alike = spelling(self.tree, e).and_then(|text| self.leading.get(text));
        match alike.filter(|_| self.random.chance(85)) {
            Some(alike) => some(self.random, alike),
            None => any_name(self.random, self.tree),
        }
    }
}

fn shuffle(random: &mut Random, values: &mut [u32]) {
    for place in 1..values.len() {
        values.swap(place, random.below(place + 1));
    }
}

fn callees(tree: &Tree) -> Vec<u32> {
    let all = of_kinds(tree, &[kind::REFERENCE, kind::SELECT]);
    let called = PREDICATES.iter().chain(&["hasAttr"]);
    let is_called = |text: &[u8]| called.clone().any(|word| word.as_bytes() == text);
    let spelt = all.iter().copied();
    let spelt = spelt.filter(|&e| spelling(tree, e).is_some_and(is_called));
    let spelt: Vec<u32> = spelt.collect();
    if spelt.is_empty() { all } else { spelt }
}

fn some(random: &mut Random, among: &[u32]) -> Option<u32> {
    (!among.is_empty()).then(|| *random.pick(among))
}

fn any_name(random: &mut Random, tree: &Tree) -> Option<u32> {
    let count = non_zero(tree.names.len())?;
    Some(random.below(count) as u32)
}

fn of_kinds(tree: &Tree, kinds: &[u32]) -> Vec<u32> {
    let exprs = tree.exprs.iter().zip(0..);
    let exprs = exprs.filter(|(e, _)| kinds.contains(&e.kind));
    exprs.map(|(_, number)| number).collect()
}

/// The text of a Reference, or the last key of a selection.
fn spelling(tree: &Tree, e: u32) -> Option<&[u8]> {
    let expr = tree.exprs.get(e as usize)?;
    let text = match expr.kind {
        kind::REFERENCE => expr.text,
        kind::SELECT => {
            let mut keys = expr.items.iter().rev();
            let key = keys.find(|item| item.role == role::PATH_KEY)?;
            tree.exprs[key.expr as usize].text
        }
        _ => return None,
    };
    tree.texts.get(text as usize).map(Vec::as_slice)
}

/// One way to break what a call is given besides the image. It gives nothing where there is no place for it.
pub struct Break {
    pub name: &'static str,
    make: fn(&mut Random, &Tree, &mut Given, &mut u32) -> Option<()>,
}

impl Break {
    /// The tables and the condition after the break.
    pub fn make(
        &self,
        random: &mut Random,
        tree: &Tree,
        given: &Given,
        condition: u32,
    ) -> Option<(Given, u32)> {
        let (mut given, mut condition) = (given.clone(), condition);
        (self.make)(random, tree, &mut given, &mut condition)?;
        Some((given, condition))
    }
}

const fn broken(
    name: &'static str,
    make: fn(&mut Random, &Tree, &mut Given, &mut u32) -> Option<()>,
) -> Break {
    Break { name, make }
}

pub const BREAKS: [Break; 14] = [
    broken("condition just above", |_, tree, _, condition| {
        *condition = tree.exprs.len() as u32;
        Some(())
    }),
    broken(
        "condition right in its low bits",
        |random, _, _, condition| {
            *condition |= 1 << random.between(14, 31);
            Some(())
        },
    ),
    broken("resolutions cut", |random, _, given, _| {
        cut(random, &mut given.resolutions)
    }),
    broken("resolutions longer", |random, _, given, _| {
        lengthen(random, &mut given.resolutions)
    }),
    broken("bindings cut", |random, _, given, _| {
        cut(random, &mut given.bindings)
    }),
    broken("bindings longer", |random, _, given, _| {
        lengthen(random, &mut given.bindings)
    }),
    broken("no tag but a value", |random, tree, given, _| {
        let place = random.below(tree.exprs.len());
        let value = random.between(1, 0x3fff);
        put(&mut given.resolutions, place, value as u16)
    }),
    broken("definition not below", |random, tree, given, _| {
        let name = just_above(random, tree.names.len())?;
        put_reference(random, tree, given, resolution(DEFINITION, name))
    }),
    broken("builtin not below", |random, tree, given, _| {
        let place = just_above(random, GLOBALS.len())?;
        put_reference(random, tree, given, resolution(BUILTIN, place))
    }),
    broken("with of another kind", |random, tree, given, _| {
        let others: Vec<u32> = (0..kind::COUNT)
            .filter(|&kind| kind != kind::WITH)
            .collect();
        let other = some(random, &of_kinds(tree, &others))?;
        put_reference(random, tree, given, resolution(WITH, other))
    }),
    broken("with not below", |random, tree, given, _| {
        let with = just_above(random, tree.exprs.len())?;
        put_reference(random, tree, given, resolution(WITH, with))
    }),
    broken("no reference but an entry", |random, tree, given, _| {
        let others = (0..kind::COUNT).filter(|&kind| kind != kind::REFERENCE);
        let others = of_kinds(tree, &others.collect::<Vec<u32>>());
        let other = some(random, &others)?;
        let entry = right_entry(random, tree)?;
        put(&mut given.resolutions, other as usize, entry)
    }),
    broken("binding's spare bits", |random, _, given, _| {
        let entries = given.bindings.len() / 2;
        let place = random.below(non_zero(entries)?);
        given.bindings[2 * place] |= *random.pick(&[0x40, 0x80, 0xc0]);
        Some(())
    }),
    broken("binding not below", |random, tree, given, _| {
        let place = random.below(non_zero(tree.names.len())?);
        let expr = just_above(random, tree.exprs.len())?;
        (expr != NONE).then_some(())?;
        put(&mut given.bindings, place, expr as u16)
    }),
];

/// Those that leave the condition as it is: the first two break that alone.
pub fn table_breaks() -> &'static [Break] {
    &BREAKS[2..]
}

fn non_zero(count: usize) -> Option<usize> {
    (count > 0).then_some(count)
}

/// An entry that a Reference could have.
fn right_entry(random: &mut Random, tree: &Tree) -> Option<u16> {
    match random.below(3) {
        0 => any_name(random, tree).map(|name| resolution(DEFINITION, name)),
        1 => Some(resolution(BUILTIN, random.below(GLOBALS.len()) as u32)),
        _ => some(random, &of_kinds(tree, &[kind::WITH])).map(|with| resolution(WITH, with)),
    }
}

/// A value of 14 bits that is not below the count: the count itself, the highest, or any.
fn just_above(random: &mut Random, count: usize) -> Option<u32> {
    let highest = NONE as usize;
    (count <= highest).then(|| {
        let any = random.between(count, highest);
        *random.pick(&[count, any, highest]) as u32
    })
}

fn cut(random: &mut Random, table: &mut Vec<u8>) -> Option<()> {
    let length = non_zero(table.len())?;
    let cuts = [1, 2.min(length), length, random.between(1, length)];
    table.truncate(length - random.pick(&cuts));
    Some(())
}

fn lengthen(random: &mut Random, table: &mut Vec<u8>) -> Option<()> {
    let more = random.between(1, 4);
    table.resize(table.len() + more, 0);
    Some(())
}

fn put(table: &mut [u8], place: usize, entry: u16) -> Option<()> {
    let (entries, _) = table.as_chunks_mut();
    entries[place] = entry.to_be_bytes();
    Some(())
}

fn put_reference(random: &mut Random, tree: &Tree, given: &mut Given, entry: u16) -> Option<()> {
    let place = some(random, &of_kinds(tree, &[kind::REFERENCE]))?;
    put(&mut given.resolutions, place as usize, entry)
}

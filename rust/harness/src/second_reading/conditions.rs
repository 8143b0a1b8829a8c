//! `analyze_condition` a second time.
//!
//! Nothing recurses. Steps and records are summed from the smallest expression up, so refusals are known before
//! anything is written; then each list is written from left to right.

use super::{ACCEPTED, Image, arrow, check};
use crate::answers::Condition;
use crate::generate::words::GLOBALS;
use crate::image::{NONE, detail, kind, role};
use crate::port::refusal::{BROKEN_GIVEN, OVER_BUDGET, TOO_SHORT};
use crate::port::{Analysis, Question};
use crate::records::{Record, bytes, record, sort, ty};
use crate::tables::{BUILTIN, DEFINITION, Given, WITH, entries};

/// The way a condition comes out; the lists stand in this order.
pub(super) const TRUE: usize = 0;
pub(super) const FALSE: usize = 1;

/// Bytes of a record.
const RECORD: u64 = 4;
/// How many expressions an alias may lead through, the called one included.
const ALIAS_DEPTHS: usize = 4;

/// The text of the builtin set, and its place among the global names.
const SET_TEXT: &[u8] = b"builtins";
const SET_PLACE: u32 = 2;

/// What a condition that is not made of others tells of a name, for each way it comes out.
type Told = [Option<Record>; 2];
const NOTHING: Told = [None; 2];

/// The sort and the value by which each predicate is recorded where it is true.
const PREDICATES: [(&str, u32, u32); 9] = [
    ("isNull", sort::IS_TYPE, ty::NULL),
    ("isBool", sort::IS_TYPE, ty::BOOL),
    ("isInt", sort::IS_TYPE, ty::INT),
    ("isFloat", sort::IS_TYPE, ty::FLOAT),
    ("isString", sort::IS_TYPE, ty::STRING),
    ("isPath", sort::IS_TYPE, ty::PATH),
    ("isAttrs", sort::IS_ATTR_SET, 0),
    ("isList", sort::IS_LIST, 0),
    ("isFunction", sort::IS_FUNCTION, 0),
];

/// The answer's number, with both lists and the numbers left as the call leaves them.
pub fn analyze_condition(
    question: Question,
    then_list: &mut [u8],
    else_list: &mut [u8],
    analysis: &mut Analysis,
) -> u32 {
    let refusal = check(question.image);
    if refusal != ACCEPTED {
        return refusal;
    }
    let asked = Asked::new(question.image, question.resolutions, question.bindings);
    if !asked.has_expr(question.condition) || !asked.tables_hold() {
        return BROKEN_GIVEN;
    }
    let costs = asked.costs(question.condition);
    let cost = costs[question.condition as usize];
    let refusal = cost.refusal(question.budget, [then_list.len(), else_list.len()]);
    if refusal != ACCEPTED {
        then_list.fill(0);
        else_list.fill(0);
        *analysis = Analysis::default();
        return refusal;
    }
    *analysis = cost.analysis();
    for (list, way) in [(then_list, TRUE), (else_list, FALSE)] {
        let records = bytes(&asked.records(&costs, question.condition, way));
        list[..records.len()].copy_from_slice(&records);
    }
    ACCEPTED
}

/// What a condition of an accepted image tells with tables that hold, of a run whose steps can be counted.
pub fn condition_told(image: &[u8], given: &Given, condition: u32) -> Condition {
    let asked = Asked::new(image, &given.resolutions, &given.bindings);
    let costs = asked.costs(condition);
    Condition {
        then_list: asked.records(&costs, condition, TRUE),
        else_list: asked.records(&costs, condition, FALSE),
        steps: costs[condition as usize].steps,
    }
}

/// For each expression of an accepted image its steps as a condition, counted up to `u64::MAX`.
pub fn condition_steps(image: &[u8]) -> Vec<u64> {
    let image = Image::accepted(image);
    let mut steps = Vec::with_capacity(image.exprs.len());
    for e in 0..image.exprs.len() as u32 {
        let parts = image.made_of(e).parts().into_iter().flatten();
        let below = parts.map(|part| steps[part as usize]);
        steps.push(below.fold(1, u64::saturating_add));
    }
    steps
}

/// For each expression how many records its lists have as a condition, with tables that hold, counted up to `u64::MAX`.
pub fn condition_counts(image: &[u8], given: &Given) -> Vec<[u64; 2]> {
    let asked = Asked::new(image, &given.resolutions, &given.bindings);
    let last = asked.image.exprs.len() as u32 - 1;
    let costs = asked.costs(last).into_iter();
    costs.map(|cost| cost.records).collect()
}

/// How a condition is made of others.
#[derive(Clone, Copy)]
enum Made {
    Not(u32),
    And(u32, u32),
    Or(u32, u32),
    Arrow([u32; 2]),
    Alone,
}

impl Made {
    /// What is analysed too.
    fn parts(self) -> [Option<u32>; 2] {
        match self {
            Made::Not(part) => [Some(part), None],
            Made::And(left, right) | Made::Or(left, right) => [Some(left), Some(right)],
            Made::Arrow(sides) => arrow::reading().parts(sides),
            Made::Alone => [None; 2],
        }
    }

    /// The parts, each with the way it comes out, that are known where the condition comes out this way.
    fn known(self, way: usize) -> [Option<(u32, usize)>; 2] {
        match (self, way) {
            (Made::Not(part), _) => [Some((part, 1 - way)), None],
            (Made::And(left, right), TRUE) | (Made::Or(left, right), FALSE) => {
                [Some((left, way)), Some((right, way))]
            }
            (Made::Arrow(sides), _) => arrow::reading().known(sides, way),
            _ => [None; 2],
        }
    }
}

/// What the analysis of a condition comes to, all that it leads to included.
#[derive(Clone, Copy)]
pub(super) struct Cost {
    pub steps: u64,
    pub records: [u64; 2],
}

impl Cost {
    fn refusal(&self, budget: u32, rooms: [usize; 2]) -> u32 {
        let is_short = |way: usize| (rooms[way] as u64) < self.records[way].saturating_mul(RECORD);
        if self.steps > budget.into() {
            OVER_BUDGET
        } else if is_short(TRUE) || is_short(FALSE) {
            TOO_SHORT
        } else {
            ACCEPTED
        }
    }

    /// The numbers of a run that is not refused.
    fn analysis(&self) -> Analysis {
        Analysis {
            steps: self.steps as u32,
            then_count: self.records[TRUE] as u32,
            else_count: self.records[FALSE] as u32,
        }
    }
}

impl Image<'_> {
    /// The expression of an item by its place.
    pub(super) fn part(&self, e: u32, place: usize) -> u32 {
        let item = self.items(e).nth(place);
        item.expect("an accepted expression has its parts").expr
    }

    fn made_of(&self, e: u32) -> Made {
        let expr = self.expr(e);
        match (expr.kind, expr.detail) {
            (kind::UNARY_OP, detail::INVERT) => Made::Not(self.part(e, 0)),
            (kind::BIN_OP, detail::AND) => Made::And(self.part(e, 0), self.part(e, 1)),
            (kind::BIN_OP, detail::OR) => Made::Or(self.part(e, 0), self.part(e, 1)),
            (kind::BIN_OP, detail::IMPLICATION) => {
                Made::Arrow([0, 1].map(|place| self.part(e, place)))
            }
            _ => Made::Alone,
        }
    }
}

/// An accepted image with the tables that are given to it.
pub(super) struct Asked<'a> {
    pub image: Image<'a>,
    resolutions: &'a [u8],
    bindings: &'a [u8],
}

impl<'a> Asked<'a> {
    pub fn new(image: &'a [u8], resolutions: &'a [u8], bindings: &'a [u8]) -> Self {
        Asked {
            image: Image::accepted(image),
            resolutions,
            bindings,
        }
    }

    pub fn tables_hold(&self) -> bool {
        let (exprs, names) = (self.image.exprs.len(), self.image.names.len());
        let mut resolutions = entries(self.resolutions).zip(0..);
        let mut bindings = entries(self.bindings).map(u32::from);
        self.resolutions.len() == 2 * exprs
            && self.bindings.len() == 2 * names
            && resolutions.all(|(entry, e)| self.resolution_holds(e, entry))
            && bindings.all(|entry| entry == NONE || self.has_expr(entry))
    }

    fn has_expr(&self, number: u32) -> bool {
        (number as usize) < self.image.exprs.len()
    }

    fn resolution_holds(&self, e: u32, entry: u16) -> bool {
        let value = entry & 0x3fff;
        entry == 0
            || self.image.is_reference(e)
                && match entry >> 14 {
                    DEFINITION => usize::from(value) < self.image.names.len(),
                    BUILTIN => usize::from(value) < GLOBALS.len(),
                    WITH => {
                        let value = value.into();
                        self.has_expr(value) && self.image.expr(value).kind == kind::WITH
                    }
                    _ => false,
                }
    }

    /// What each expression up to the condition comes to.
    pub fn costs(&self, condition: u32) -> Vec<Cost> {
        let mut costs = Vec::with_capacity(condition as usize + 1);
        for e in 0..=condition {
            costs.push(self.cost(e, &costs));
        }
        costs
    }

    fn cost(&self, e: u32, costs: &[Cost]) -> Cost {
        let made = self.image.made_of(e);
        if let Made::Alone = made {
            let records = self.told(e).map(|told| told.is_some().into());
            return Cost { steps: 1, records };
        }
        let parts = made.parts().into_iter().flatten();
        let steps = parts.map(|part| costs[part as usize].steps);
        let records = [TRUE, FALSE].map(|way| {
            let known = made.known(way).into_iter().flatten();
            let records = known.map(|(part, way)| costs[part as usize].records[way]);
            records.fold(0, u64::saturating_add)
        });
        Cost {
            steps: steps.fold(1, u64::saturating_add),
            records,
        }
    }

    /// The list of a condition that comes out this way; what has no records is not looked into.
    pub fn records(&self, costs: &[Cost], condition: u32, way: usize) -> Vec<Record> {
        let mut records = Vec::new();
        let mut left = vec![(condition, way)];
        while let Some((e, way)) = left.pop() {
            if costs[e as usize].records[way] == 0 {
                continue;
            }
            match self.image.made_of(e) {
                Made::Alone => records.extend(self.told(e)[way]),
                made => left.extend(made.known(way).into_iter().rev().flatten()),
            }
        }
        records
    }

    fn told(&self, e: u32) -> Told {
        let expr = self.image.expr(e);
        let part = |place| self.image.part(e, place);
        match (expr.kind, expr.detail) {
            (kind::BIN_OP, detail::EQUAL) => self.comparison(part(0), part(1)),
            (kind::BIN_OP, detail::NOT_EQUAL) => {
                let [equal, unequal] = self.comparison(part(0), part(1));
                [unequal, equal]
            }
            (kind::HAS_ATTR, _) => self.field_test(e),
            (kind::APPLY, _) => self.call(part(0), part(1)),
            _ => NOTHING,
        }
    }

    /// What two sides tell of a name on one of them, the other being a literal.
    fn comparison(&self, left: u32, right: u32) -> Told {
        let one_way = |name, literal| self.equality(self.local_name(name)?, literal);
        let told = one_way(left, right).or_else(|| one_way(right, left));
        told.unwrap_or(NOTHING)
    }

    /// What a name's being equal to a literal tells. Only null has no other value of its type, so only that is known not to
    /// be where they are unequal; an integer and a float can be equal, so of a number no type is known.
    fn equality(&self, name: u32, literal: u32) -> Option<Told> {
        if self.is_number(literal) {
            return Some([Some(record(name, sort::IS_NUMBER, 0)), None]);
        }
        Some(match self.literal_type(literal)? {
            ty::NULL => of_type(name, ty::NULL),
            ty => [Some(record(name, sort::IS_TYPE, ty)), None],
        })
    }

    /// `name ? key`, with one key that is a string.
    fn field_test(&self, e: u32) -> Told {
        let keys: Vec<u32> = self.image.items(e).skip(1).map(|item| item.expr).collect();
        let key = match keys[..] {
            [key] => self.string(key),
            _ => None,
        };
        match (self.local_name(self.image.part(e, 0)), key) {
            (Some(name), Some(key)) => of_field(name, key),
            _ => NOTHING,
        }
    }

    fn call(&self, fun: u32, arg: u32) -> Told {
        let Some(name) = self.local_name(arg) else {
            return NOTHING;
        };
        if let Some(told) = self.callee(fun).and_then(|text| of_predicate(name, text)) {
            return told;
        }
        if let Some(key) = self.has_attr_key(fun) {
            return of_field(name, key);
        }
        let last = self.last_key(fun);
        last.and_then(|text| of_predicate(name, text))
            .unwrap_or(NOTHING)
    }

    /// The key's text of `hasAttr "key"`.
    fn has_attr_key(&self, fun: u32) -> Option<u32> {
        if self.image.expr(fun).kind != kind::APPLY {
            return None;
        }
        let [called, key] = [0, 1].map(|place| self.image.part(fun, place));
        if self.callee(called)? == b"hasAttr" {
            self.string(key)
        } else {
            None
        }
    }

    /// The builtin that an expression leads to: a key of the builtin set, a builtin by its text, or a name whose bound
    /// expression leads to it. All references on the way are spelt as the builtin.
    fn callee(&self, start: u32) -> Option<&'a [u8]> {
        let mut e = start;
        let mut spelt = None;
        for _ in 0..ALIAS_DEPTHS {
            let text = self.builtins_key(e).or_else(|| self.reference(e))?;
            if *spelt.get_or_insert(text) != text {
                return None;
            }
            let Some(name) = self.local_name(e) else {
                let is_builtin = self.builtins_key(e).is_some() || self.is_builtin(e, text);
                return is_builtin.then_some(text);
            };
            e = self.binding(name)?;
        }
        None
    }

    /// Whether a Reference of this text resolves to the builtin of this text.
    fn is_builtin(&self, e: u32, text: &[u8]) -> bool {
        let (tag, value) = self.resolution(e);
        tag == BUILTIN && GLOBALS[value as usize].as_bytes() == text
    }

    fn is_spelt_as_set(&self, e: u32) -> bool {
        self.reference(e) == Some(SET_TEXT)
    }

    /// Whether an expression is the builtin set: document 02, order 2, asks what `builtins` resolves to, not its text alone.
    fn is_builtin_set(&self, e: u32) -> bool {
        self.is_spelt_as_set(e) && self.resolution(e) == (BUILTIN, SET_PLACE)
    }

    /// The key of a selection of one key from the builtin set.
    fn builtins_key(&self, e: u32) -> Option<&'a [u8]> {
        let keys = self.keys(e)?;
        match keys[..] {
            [key] if self.is_builtin_set(self.image.part(e, 0)) => self.string_text(key),
            _ => None,
        }
    }

    /// The last key of a selection; one from another set that is spelt `builtins` has none.
    pub fn last_key(&self, e: u32) -> Option<&'a [u8]> {
        let keys = self.keys(e)?;
        let set = self.image.part(e, 0);
        if self.is_spelt_as_set(set) && !self.is_builtin_set(set) {
            return None;
        }
        self.string_text(*keys.last()?)
    }

    /// The keys of a selection without default.
    fn keys(&self, e: u32) -> Option<Vec<u32>> {
        let is_selection = self.image.expr(e).kind == kind::SELECT;
        let has_default = || self.image.items(e).any(|item| item.role == role::DEFAULT);
        (is_selection && !has_default())
            .then(|| self.image.items(e).skip(1).map(|item| item.expr).collect())
    }

    fn string_text(&self, e: u32) -> Option<&'a [u8]> {
        self.string(e).map(|text| self.image.text(text))
    }

    /// The number of a string's text.
    fn string(&self, e: u32) -> Option<u32> {
        let expr = self.image.expr(e);
        (expr.kind == kind::LITERAL && expr.detail == detail::STRING).then_some(expr.text)
    }

    pub fn reference(&self, e: u32) -> Option<&'a [u8]> {
        let expr = self.image.expr(e);
        (expr.kind == kind::REFERENCE).then(|| self.image.text(expr.text))
    }

    fn resolution(&self, e: u32) -> (u16, u32) {
        let entry = entry(self.resolutions, e);
        (entry >> 14, u32::from(entry & 0x3fff))
    }

    pub fn local_name(&self, e: u32) -> Option<u32> {
        let (tag, value) = self.resolution(e);
        (tag == DEFINITION).then_some(value)
    }

    fn binding(&self, name: u32) -> Option<u32> {
        let e = u32::from(entry(self.bindings, name));
        (e != NONE).then_some(e)
    }

    fn is_number(&self, e: u32) -> bool {
        let expr = self.image.expr(e);
        expr.kind == kind::LITERAL && [detail::INTEGER, detail::FLOAT].contains(&expr.detail)
    }

    /// The type of a literal that is no number, or of a keyword that nothing defines.
    fn literal_type(&self, e: u32) -> Option<u32> {
        let expr = self.image.expr(e);
        match (expr.kind, expr.detail) {
            (kind::LITERAL, detail::STRING) => Some(ty::STRING),
            (kind::LITERAL, detail::PATH) => Some(ty::PATH),
            _ => self.keyword_type(e),
        }
    }

    fn keyword_type(&self, e: u32) -> Option<u32> {
        let text = self.reference(e)?;
        if self.resolution(e) != (0, 0) && !self.is_builtin(e, text) {
            return None;
        }
        match text {
            b"null" => Some(ty::NULL),
            b"true" | b"false" => Some(ty::BOOL),
            _ => None,
        }
    }
}

fn entry(table: &[u8], place: u32) -> u16 {
    let (entries, _) = table.as_chunks();
    u16::from_be_bytes(entries[place as usize])
}

fn of_type(name: u32, ty: u32) -> Told {
    [sort::IS_TYPE, sort::IS_NOT_TYPE].map(|sort| Some(record(name, sort, ty)))
}

fn of_field(name: u32, key: u32) -> Told {
    [sort::HAS_FIELD, sort::NOT_HAS_FIELD].map(|sort| Some(record(name, sort, key)))
}

/// What the predicate of this text tells of its argument.
fn of_predicate(name: u32, text: &[u8]) -> Option<Told> {
    let predicate = PREDICATES
        .iter()
        .find(|(word, ..)| word.as_bytes() == text)?;
    Some(match *predicate {
        (_, sort::IS_TYPE, ty) => of_type(name, ty),
        (_, sort, value) => [Some(record(name, sort, value)), None],
    })
}

#[cfg(test)]
mod tests;

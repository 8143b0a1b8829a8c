//! What the list that the repository keeps meets. It is read as it is, so this holds where the original is not at hand too.

use std::collections::{BTreeMap, BTreeSet};

use super::{Case, LENT, call, read_list};
use crate::arrows;
use crate::generate::words::{CONDITIONALS, GLOBALS, PREDICATES};
use crate::image::{NONE, Tree, detail, kind, name_kind, role};
use crate::port::refusal::{OVER_BUDGET, TOO_SHORT};
use crate::records::{sort, sort_of};
use crate::second_reading::is_of_image;
use crate::selections::{PATHS, Reader, SETS, Selected, USES};
use crate::tables::{DEFINITION, Given, entries};

const KEPT: &[u8] = include_bytes!("../../../../crates/replay/stdin");
const EXPECTED: &str = include_str!("../../../../crates/replay/stdout");
const MOST_BYTES: usize = 500_000;

fn cases() -> Vec<Case> {
    read_list(KEPT).expect("the list is whole")
}

/// The cases of a call that reads an image which have an answer, each with its tree.
fn answered(call: u32) -> Vec<(Case, Tree)> {
    let answered = |case: &Case| case.call == call && case.refusal == 0;
    let cases = cases().into_iter().filter(answered);
    cases
        .map(|case| (case.clone(), Tree::decode(&case.image)))
        .collect()
}

#[test]
fn the_list_is_short_and_the_expected_output_counts_its_cases() {
    assert!(KEPT.len() <= MOST_BYTES, "{}", KEPT.len());
    let cases = cases();
    let counted = |call| cases.iter().filter(|case| case.call == call).count();
    let names = call::NAMES.iter().zip(0..);
    let mut expected: Vec<String> = names
        .map(|(name, call)| format!("{name}: {} as recorded, 0 otherwise\n", counted(call)))
        .collect();
    expected.push(format!("{} as recorded, 0 otherwise\n", cases.len()));
    assert_eq!(EXPECTED, expected.concat());
}

/// The index has no second reading but of the image's refusals.
#[test]
fn the_second_reading_answers_as_recorded() {
    for case in cases() {
        if case.call != call::INDEX || is_of_image(case.refusal) {
            assert_eq!(case.second_reading(), case);
        }
    }
}

#[test]
fn each_call_has_each_of_its_refusals() {
    let refusals: [&[u32]; call::COUNT] = [
        &[0, 1, 2, 3, 4, 5, 6, 10, 11],
        &[0, 1, 2, 3, 4, 5, 6, 9, 10, 11],
        &[0, 1, 2, 3, 4, 5, 6, 8, 9, 10, 11],
        &[0, 1, 2, 3, 4, 5, 6, 7, 8, 9, 10, 11],
        &[0, 1, 2, 3, 4, 5, 6, 7, 8, 9, 10, 11],
        &[0, 1, 2, 3, 4, 5, 6, 10, 11],
        &[0, 1, 2, 3, 4, 5, 6, 8, 10, 11],
        &[0, 1, 2, 3, 4, 5, 6, 7, 8, 10, 11],
        &[0],
    ];
    let cases = cases();
    for (refusals, call) in refusals.iter().zip(0..) {
        for &refusal in *refusals {
            let hits = cases
                .iter()
                .filter(|case| case.call == call && case.refusal == refusal);
            assert!(hits.count() >= 2, "refusal {refusal} of call {call}");
        }
    }
}

/// What a case asks and lends, without its answer.
type Asked = (u32, Vec<u8>, Given, u32, u32, [usize; 4]);

fn asked(case: &Case) -> Asked {
    let rooms = case.buffers.each_ref().map(Vec::len);
    let (image, given) = (case.image.clone(), case.given.clone());
    (case.call, image, given, case.condition, case.budget, rooms)
}

#[test]
fn eight_and_nine_are_met_where_they_begin() {
    let cases = cases();
    let refused = |asked_for: &Asked, refusal| {
        let mut cases = cases.iter();
        cases.any(|case| case.refusal == refusal && asked(case) == *asked_for)
    };
    for call in call::INDEX..call::OF_IMAGES.end {
        let enough: Vec<Asked> = answered(call).iter().map(|(case, _)| asked(case)).collect();
        let a_step_less = enough.iter().filter(|asked| asked.4 > 0).any(|enough| {
            let mut less = enough.clone();
            less.4 -= 1;
            refused(&less, OVER_BUDGET)
        });
        assert_eq!(a_step_less, call::takes_budget(call), "call {call}");
        for place in 0..LENT[call as usize] {
            let a_byte_less = enough
                .iter()
                .filter(|asked| asked.5[place] > 0)
                .any(|enough| {
                    let mut less = enough.clone();
                    less.5[place] -= 1;
                    refused(&less, TOO_SHORT)
                });
            assert!(a_byte_less, "buffer {place} of call {call}");
        }
    }
}

#[test]
fn each_call_meets_every_kind_and_every_role() {
    let all_but = [call::CHECK, call::CONDITION];
    for call in call::OF_IMAGES.filter(|call| !all_but.contains(call)) {
        let (mut kinds, mut roles, mut name_kinds) = Default::default();
        for (_, tree) in answered(call) {
            for expr in &tree.exprs {
                BTreeSet::insert(&mut kinds, (expr.kind, expr.detail));
                BTreeSet::extend(&mut roles, expr.items.iter().map(|item| item.role));
            }
            BTreeSet::extend(&mut name_kinds, tree.names.iter().map(|name| name.kind));
        }
        let with_detail = |kind, details| (0..details).map(move |detail| (kind, detail));
        let expected = (0..kind::COUNT).flat_map(|kind| match kind {
            kind::LITERAL => with_detail(kind, detail::URI + 1),
            kind::ATTR_SET | kind::UNARY_OP => with_detail(kind, 2),
            _ => with_detail(kind, u32::from(kind != kind::BIN_OP)),
        });
        let missing: Vec<_> = expected.filter(|kind| !kinds.contains(kind)).collect();
        assert_eq!(missing, [], "kinds and details of call {call}");
        assert_eq!(roles, (role::CHILD..=role::PARAMETER).collect());
        assert_eq!(name_kinds, (0..name_kind::COUNT).collect());
    }
}

#[test]
fn every_tag_and_every_builtin_is_resolved() {
    let tables = answered(call::RESOLUTION);
    let entries: BTreeSet<u16> = tables
        .iter()
        .flat_map(|(case, tree)| {
            entries(&case.buffers[0][..2 * tree.exprs.len()]).collect::<Vec<_>>()
        })
        .collect();
    let tags: BTreeSet<u16> = entries.iter().map(|entry| entry >> 14).collect();
    assert_eq!(tags, (0..4).collect());
    assert!((0..22).all(|place| entries.contains(&(2 << 14 | place))));
}

#[test]
fn the_index_binds_and_leaves_unbound() {
    let tables = answered(call::INDEX);
    let entries: Vec<u32> = tables
        .iter()
        .flat_map(|(case, tree)| {
            entries(&case.buffers[0][..2 * tree.names.len()]).collect::<Vec<_>>()
        })
        .map(u32::from)
        .collect();
    assert!(entries.contains(&NONE) && entries.iter().any(|&entry| entry != NONE));
}

#[test]
fn each_number_of_a_need_is_met_in_many_values() {
    let values = |call: u32, number: usize| {
        let answered = answered(call);
        let values = answered.iter().map(|(case, _)| case.numbers[number]);
        values.collect::<BTreeSet<u32>>()
    };
    for (call, numbers) in [
        (call::LEVELS, 1..2),
        (call::RESOLUTION_NEED, 0..2),
        (call::WALK_NEED, 0..4),
    ] {
        for number in numbers {
            let values = values(call, number);
            assert!(values.len() >= 3, "number {number} of call {call}");
        }
    }
}

/// A record's sort and value; of a key, which has the number of a text, 0.
fn told(record: u32) -> (u32, u32) {
    let sort = sort_of(record) as u32;
    let is_key = [sort::HAS_FIELD, sort::NOT_HAS_FIELD].contains(&sort);
    (sort, if is_key { 0 } else { record & 0x3fff })
}

fn words(bytes: &[u8], count: u32) -> impl Iterator<Item = u32> {
    let (words, _) = bytes.as_chunks();
    let words = words.iter().take(count as usize);
    words.map(|&word| u32::from_be_bytes(word))
}

#[test]
fn every_sort_and_value_of_a_record_is_told_and_recorded() {
    let types = (0..6).flat_map(|ty| [(sort::IS_TYPE, ty), (sort::IS_NOT_TYPE, ty)]);
    let others = [
        (sort::HAS_FIELD, 0),
        (sort::NOT_HAS_FIELD, 0),
        (sort::IS_ATTR_SET, 0),
        (sort::IS_LIST, 0),
        (sort::IS_FUNCTION, 0),
        (sort::IS_NUMBER, 0),
    ];
    let every: BTreeSet<(u32, u32)> = types.chain(others).collect();
    let mut lists: BTreeSet<(u32, u32)> = BTreeSet::new();
    for (case, _) in answered(call::CONDITION) {
        let [then_list, else_list, ..] = &case.buffers;
        lists.extend(words(then_list, case.numbers[1]).map(told));
        lists.extend(words(else_list, case.numbers[2]).map(told));
    }
    assert_eq!(lists, every);
    let mut recorded: BTreeSet<(u32, u32)> = BTreeSet::new();
    for (case, _) in answered(call::WALK) {
        let narrowings = words(&case.buffers[1], 2 * case.numbers[2]);
        recorded.extend(narrowings.skip(1).step_by(2).map(told));
    }
    assert_eq!(recorded, every);
}

/// What a form of condition tells, by the sorts of its lists.
fn sorts_told(form: &str) -> Option<[Vec<u32>; 2]> {
    let cases = answered(call::CONDITION);
    let asked = cases
        .iter()
        .find(|(case, tree)| show(tree, case.condition) == form);
    asked.map(|(case, _)| {
        let [then_list, else_list, ..] = &case.buffers;
        let [_, thens, elses, _] = case.numbers;
        [(then_list, thens), (else_list, elses)]
            .map(|(list, count)| words(list, count).map(|record| told(record).0).collect())
    })
}

#[test]
fn number_literals_tell_a_number_in_the_equal_branch_and_is_int_a_type() {
    let (number, ty, not_ty) = (sort::IS_NUMBER, sort::IS_TYPE, sort::IS_NOT_TYPE);
    for literal in ["1", "1.0"] {
        for [left, right] in [["x", literal], [literal, "x"]] {
            let equal = sorts_told(&format!("{left} == {right}"));
            assert_eq!(equal, Some([vec![number], vec![]]));
            let unequal = sorts_told(&format!("{left} != {right}"));
            assert_eq!(unequal, Some([vec![], vec![number]]));
        }
    }
    let turned = sorts_told("!(x == 1)");
    assert_eq!(turned, Some([vec![], vec![number]]));
    let both = sorts_told("(x == 1) && (builtins.isInt x)");
    assert_eq!(both, Some([vec![number, ty], vec![]]));
    let either = sorts_told("(1.0 != x) || (y != 1)");
    assert_eq!(either, Some([vec![], vec![number; 2]]));
    for word in ["isInt", "isFloat"] {
        let tested = sorts_told(&format!("builtins.{word} x"));
        assert_eq!(tested, Some([vec![ty], vec![not_ty]]));
    }
}

#[test]
fn an_arrow_tells_what_it_is_rewritten_to_and_takes_a_step_less_for_each_negation() {
    let (is, lacks) = (sort::IS_TYPE, sort::NOT_HAS_FIELD);
    let arrow = "(x == null) -> (y ? f)";
    let steps = |form: &str| {
        let cases = answered(call::CONDITION);
        let mut cases = cases.iter();
        let asked = cases.find(|(case, tree)| show(tree, case.condition) == form);
        asked.map(|(case, _)| case.numbers[0])
    };
    let (negated, written_out) = (format!("!({arrow})"), "(!(x == null)) || (y ? f)");
    let both = Some([vec![], vec![is, lacks]]);
    assert_eq!((sorts_told(arrow), steps(arrow)), (both.clone(), Some(3)));
    let told = (sorts_told(written_out), steps(written_out));
    assert_eq!(told, (both, Some(4)));
    let conjunction = "(x == null) && (!(y ? f))";
    for form in [&negated, conjunction] {
        let told = (sorts_told(form), steps(form));
        assert_eq!(told, (Some([vec![is, lacks], vec![]]), Some(4)));
    }
}

/// An assert of an arrow, of which nothing is in force, and a call with one that is negated, of which both sides are.
#[test]
fn guards_with_arrows_are_walked_and_their_needs_told() {
    for call in [call::WALK, call::WALK_NEED] {
        let mut recorded: BTreeMap<usize, BTreeSet<u32>> = BTreeMap::new();
        for (case, tree) in answered(call) {
            for arrow in arrows::of_walk(&tree) {
                let told = recorded.entry(arrow.place).or_default();
                told.insert(case.numbers[2]);
            }
        }
        let told = |place: usize| recorded.get(&place).cloned().unwrap_or_default();
        assert_eq!(told(arrows::ASSERT), BTreeSet::from([0]));
        assert!(told(arrows::NOT).contains(&2));
    }
}

/// An expression as it would be written.
fn show(tree: &Tree, e: u32) -> String {
    let expr = &tree.exprs[e as usize];
    let text = || String::from_utf8_lossy(&tree.texts[expr.text as usize]).into_owned();
    let part = |place: usize| nested(tree, expr.items[place].expr);
    let keys = || {
        let keys = expr.items.iter().filter(|item| item.role == role::PATH_KEY);
        let keys = keys.map(|key| show(tree, key.expr).replace('"', ""));
        keys.collect::<Vec<_>>().join(".")
    };
    match (expr.kind, expr.detail) {
        (kind::REFERENCE, _) => text(),
        (kind::LITERAL, detail::STRING) => format!("{:?}", text()),
        (kind::LITERAL, other) => ["1.0", "1", "", "./p", "a:b"][other as usize].to_string(),
        (kind::APPLY, _) => format!("{} {}", show(tree, expr.items[0].expr), part(1)),
        (kind::UNARY_OP, detail::INVERT) => format!("!{}", part(0)),
        (kind::HAS_ATTR, _) => format!("{} ? {}", part(0), keys()),
        (kind::SELECT, _) => format!("{}.{}", part(0), keys()),
        (kind::BIN_OP, detail::EQUAL) => format!("{} == {}", part(0), part(1)),
        (kind::BIN_OP, detail::NOT_EQUAL) => format!("{} != {}", part(0), part(1)),
        (kind::BIN_OP, detail::AND) => format!("{} && {}", part(0), part(1)),
        (kind::BIN_OP, detail::OR) => format!("{} || {}", part(0), part(1)),
        (kind::BIN_OP, detail::IMPLICATION) => format!("{} -> {}", part(0), part(1)),
        (kind, detail) => format!("(kind {kind}, detail {detail})"),
    }
}

/// The same with brackets around what is made of parts.
fn nested(tree: &Tree, e: u32) -> String {
    match tree.exprs[e as usize].kind {
        kind::REFERENCE | kind::LITERAL | kind::SELECT => show(tree, e),
        _ => format!("({})", show(tree, e)),
    }
}

/// Every form of a condition, as it is written.
fn forms() -> Vec<String> {
    let mut forms: Vec<String> = [
        "x ? f",
        "x ? a.b",
        "!(x ? f)",
        "!(x == null)",
        "(x == null) && (y ? f)",
        "(x == null) || (y ? f)",
        "(x == null) || (x == null)",
        "!((x == null) && (y ? f))",
        "!((x == null) || (y ? f))",
        "(isNull x) && (builtins.isList y)",
        "!(x == 1)",
        "(x == 1) && (builtins.isInt x)",
        "(1.0 != x) || (y != 1)",
        "(x == null) -> (y ? f)",
        "!((x == null) -> (y ? f))",
        "(y ? f) -> ((x == null) -> (x == null))",
        "(!(x == null)) || (y ? f)",
        "(x == null) && (!(y ? f))",
        "hasAttr \"f\" x",
        "builtins.hasAttr \"f\" x",
        "lib.hasAttr \"f\" x",
    ]
    .map(String::from)
    .to_vec();
    for literal in ["null", "true", "false", "1", "1.0", "\"a\"", "./p", "a:b"] {
        for operator in ["==", "!="] {
            forms.push(format!("x {operator} {literal}"));
            forms.push(format!("{literal} {operator} x"));
        }
    }
    for word in PREDICATES {
        let spellings = ["", "builtins.", "lib.", "lib.types."];
        forms.extend(spellings.map(|before| format!("{before}{word} x")));
    }
    forms
}

fn missing(forms: Vec<String>, met: impl Fn(&str) -> bool) -> Vec<String> {
    forms.into_iter().filter(|form| !met(form)).collect()
}

#[test]
fn every_form_of_condition_is_asked() {
    // Whether a case of the form tells something.
    let mut told: BTreeMap<String, bool> = BTreeMap::new();
    for (case, tree) in answered(call::CONDITION) {
        let tells = case.numbers[1..] != [0; 3];
        *told.entry(show(&tree, case.condition)).or_default() |= tells;
    }
    assert_eq!(missing(forms(), |form| told.contains_key(form)), [""; 0]);
    let telling = |form: &str| told.get(form) == Some(&true);
    let plain = PREDICATES.map(|word| format!("{word} x"));
    assert_eq!(missing(plain.to_vec(), telling), [""; 0]);
    assert!(telling("hasAttr \"f\" x") && !telling("x ? a.b"));
}

#[test]
fn every_form_of_guard_is_walked() {
    let mut guards: BTreeSet<String> = BTreeSet::new();
    for (_, tree) in answered(call::WALK) {
        for expr in &tree.exprs {
            let item = |place: usize| expr.items[place].expr;
            match expr.kind {
                kind::IF_THEN_ELSE => guards.insert(show(&tree, item(0))),
                kind::ASSERT => guards.insert(format!("assert {}", show(&tree, item(0)))),
                kind::APPLY => guards.insert(show(&tree, item(0))),
                _ => false,
            };
        }
    }
    let mut expected = forms();
    expected.push("assert a == null".to_string());
    expected.push("assert (x == null) -> (y ? f)".to_string());
    expected.push("lib.mkIf (!((x == null) -> (y ? f)))".to_string());
    for word in CONDITIONALS {
        let spellings = ["", "lib.", "lib.x."];
        expected.extend(spellings.map(|before| format!("{before}{word} (x == null)")));
    }
    assert_eq!(missing(expected, |form| guards.contains(form)), [""; 0]);
}

/// How many names lead from the called expression to what no name leads on from.
fn names_on_the_way(case: &Case, tree: &Tree) -> usize {
    let resolutions: Vec<u16> = entries(&case.given.resolutions).collect();
    let bindings: Vec<u16> = entries(&case.given.bindings).collect();
    let mut e = tree.exprs[case.condition as usize].items[0].expr as usize;
    let mut names = 0;
    while resolutions[e] >> 14 == DEFINITION && names < 9 {
        e = usize::from(bindings[usize::from(resolutions[e] & 0x3fff)]);
        names += 1;
    }
    names
}

#[test]
fn aliases_are_traced_through_three_names_and_not_through_four() {
    let mut told = [false; 10];
    let mut met = [false; 10];
    for (case, tree) in answered(call::CONDITION) {
        if show(&tree, case.condition) == "isNull x" {
            let names = names_on_the_way(&case, &tree);
            met[names] = true;
            told[names] |= case.numbers[1] > 0;
        }
    }
    assert_eq!(met[..6], [true; 6]);
    assert_eq!(told[..6], [true, true, true, true, false, false]);
}

/// What a `builtins` is that a call selects from: of a name the role that binds it.
fn set_of(reader: &Reader, selected: &Selected) -> String {
    let Some(name) = reader.name(selected.from) else {
        return SETS[selected.set].to_string();
    };
    let mut items = reader.tree.exprs.iter().flat_map(|e| &e.items);
    let binding = items.find(|item| item.name == name as u32);
    format!("role {}", binding.expect("what binds it").role)
}

/// What each case of a call selects from a `builtins`, and whether the case tells or records something.
fn selections(call: u32) -> BTreeMap<String, BTreeSet<bool>> {
    let mut met: BTreeMap<String, BTreeSet<bool>> = BTreeMap::new();
    for (case, tree) in answered(call) {
        let reader = Reader::new(&tree, &case.given);
        let called = match call {
            call::CONDITION => reader.condition(case.condition).into_iter().collect(),
            _ => reader.walk(),
        };
        for (selected, used) in called {
            let (set, path) = (set_of(&reader, &selected), PATHS[selected.path]);
            let tells = case.numbers[2 - usize::from(call == call::CONDITION)] > 0;
            let way = format!("{set}, {path}, {}", USES[used]);
            met.entry(way).or_default().insert(tells);
        }
    }
    met
}

/// The ways to resolve a `builtins`: the builtin set, a name by its role, and what given tables may say.
fn sets() -> Vec<String> {
    let roles = [
        role::STATIC,
        role::INHERIT,
        role::INHERIT_FROM,
        role::PARAMETER,
    ];
    let roles = roles.map(|role| format!("role {role}"));
    let given = ["builtin", "another place", "With", "nothing"].map(String::from);
    given.into_iter().chain(roles).collect()
}

#[test]
fn what_each_builtins_has_is_asked_as_a_condition() {
    let met = selections(call::CONDITION);
    for set in sets() {
        for (path, used, always) in [
            ("one key", "predicate", false),
            ("several keys", "predicate", false),
            ("set of the set", "predicate", true),
            ("one key", "hasAttr", false),
        ] {
            let way = format!("{set}, {path}, {used}");
            let told = met.get(&way).and_then(BTreeSet::last);
            assert_eq!(told, Some(&(always || set == "builtin")), "{way}");
        }
    }
    let alias = |set: &str| met.get(&format!("{set}, one key, alias"));
    assert_eq!(alias("builtin").and_then(BTreeSet::last), Some(&true));
    assert_eq!(alias("nothing").and_then(BTreeSet::last), Some(&false));
}

#[test]
fn what_each_builtins_has_is_called_in_a_walk_and_its_need() {
    for call in [call::WALK, call::WALK_NEED] {
        let met = selections(call);
        let ways = sets().into_iter().flat_map(|set| {
            let calls = PATHS.map(|path| format!("{set}, {path}, conditional function"));
            calls
                .into_iter()
                .chain([format!("{set}, one key, predicate")])
        });
        let ways: Vec<String> = ways.collect();
        assert_eq!(missing(ways, |way| met.contains_key(way)), [""; 0]);
    }
}

/// The two texts of each case that compares them, with its answer and the pairs looked at.
fn compared() -> Vec<([Vec<u8>; 2], [usize; 2])> {
    let compared = cases()
        .into_iter()
        .filter(|case| case.call == call::SAME_TEXT);
    compared
        .map(|case| {
            let [_, answer, looked, _] = case.numbers.map(|number| number as usize);
            ([case.image, case.given.resolutions], [answer, looked])
        })
        .collect()
}

#[test]
fn texts_around_a_word_and_a_block_are_compared_in_every_way() {
    let compared = compared();
    for length in [1, 7, 8, 9, 63, 64, 65, 127, 128, 129] {
        let of_length = |texts: &[Vec<u8>; 2]| texts.iter().all(|text| text.len() == length);
        let of_length = compared.iter().filter(|(texts, _)| of_length(texts));
        let told: BTreeSet<[usize; 2]> = of_length.map(|(_, told)| *told).collect();
        let differing = [1, length.div_ceil(2), length].map(|looked| [0, looked]);
        let expected: BTreeSet<[usize; 2]> = differing.into_iter().chain([[1, length]]).collect();
        assert!(told.is_superset(&expected), "texts of {length} bytes");
        // Those that differ in their lengths alone, and are the same from the front or from the end.
        let longer = |[a, b]: &[Vec<u8>; 2]| a.len() == length && b.len() == length + 1;
        let longer = || compared.iter().filter(|(texts, _)| longer(texts));
        assert!(longer().any(|([a, b], _)| b.starts_with(a)), "{length}");
        assert!(longer().any(|([a, b], _)| b.ends_with(a)), "{length}");
        assert!(longer().all(|(_, told)| *told == [0, 0]));
    }
}

#[test]
fn empty_texts_and_each_fixed_word_are_compared() {
    let compared = compared();
    let told = |a: &[u8], b: &[u8]| {
        let found = compared.iter().find(|([x, y], _)| x == a && y == b);
        found.map(|(_, told)| *told)
    };
    assert_eq!(told(b"", b""), Some([1, 0]));
    assert_eq!(told(b"", b"x"), Some([0, 0]));
    assert_eq!(told(b"x", b""), Some([0, 0]));
    for word in GLOBALS.iter().chain(&PREDICATES).chain(&CONDITIONALS) {
        let word = word.as_bytes();
        assert_eq!(told(word, word), Some([1, word.len()]));
        let beside = |([a, b], _): &&([Vec<u8>; 2], _)| a == word && b.len() == a.len() && a != b;
        assert!(compared.iter().any(|pair| beside(&pair)), "{word:?}");
    }
}

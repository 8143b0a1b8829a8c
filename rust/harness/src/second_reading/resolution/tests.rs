//! The rules of scopes and resolution one by one, and what each refusal leaves.

use super::{name_resolution, resolution_need, resolution_steps};
use crate::generate::shapes;
use crate::image::{Tree, name_kind};
use crate::notation::*;
use crate::survey_text::{printed_resolution, resolve_lines};

/// What a lent byte holds before the call.
const FRESH: u8 = 0xa5;
const FRESH_STEPS: u32 = 0xa5a5_a5a5;
/// More bytes than any tree here needs.
const ROOM: usize = 1 << 18;

/// All that a call leaves.
#[derive(Debug, PartialEq, Eq)]
struct Left {
    answer: u32,
    steps: u32,
    table: Vec<u8>,
    working: Vec<u8>,
}

fn call(image: &[u8], budget: u32, table: usize, working: usize) -> Left {
    let mut left = Left {
        answer: 0,
        steps: FRESH_STEPS,
        table: vec![FRESH; table],
        working: vec![FRESH; working],
    };
    let (table, working, steps) = (&mut left.table, &mut left.working, &mut left.steps);
    left.answer = name_resolution(image, budget, table, working, steps);
    left
}

/// What a refusal of the run leaves.
fn zero(answer: u32, table: usize, working: usize) -> Left {
    Left {
        answer,
        steps: 0,
        table: vec![0; table],
        working: vec![0; working],
    }
}

/// The lines that `survey` prints of a tree's resolution.
fn lines(tree: &Tree) -> Vec<String> {
    let left = call(&tree.encode(), u32::MAX, ROOM, ROOM);
    assert_eq!(left.answer, 0);
    resolve_lines(left.steps.into(), &left.table[..2 * tree.exprs.len()])
}

/// The lines of an expression's resolution without the first, which has the steps.
fn resolved(entry: &Node) -> Vec<String> {
    lines(&tree(entry)).split_off(1)
}

fn none() -> Vec<String> {
    Vec::new()
}

/// Scopes made, the root included: the smallest working buffer that is long enough tells.
fn scopes(tree: &Tree) -> usize {
    let image = tree.encode();
    let long_enough = |&working: &usize| call(&image, u32::MAX, ROOM, working).answer == 0;
    let need = (0..ROOM).find(long_enough).expect("it ends");
    assert_eq!(resolution_need(&image), need as u64);
    let above_exprs = need - 4 * tree.exprs.len();
    assert_eq!(above_exprs % 8, 0);
    above_exprs / 8
}

#[test]
fn the_printed_case_gives_what_is_printed() {
    assert_eq!(lines(&survey_case()), printed_resolution());
    assert_eq!(scopes(&survey_case()), 3);
}

#[test]
fn an_answer_leaves_the_working_buffer_zero_and_bytes_behind_it_as_they_are() {
    let left = call(&survey_case().encode(), 9, 18 + 3, 60 + 3);
    assert_eq!((left.answer, left.steps), (0, 9));
    assert_eq!(left.working, [0; 63]);
    assert_eq!(left.table[16..], [0, 0, FRESH, FRESH, FRESH]);
}

#[test]
fn refusals_of_the_run_leave_all_zero_and_8_comes_before_9() {
    let image = survey_case().encode();
    assert_eq!(call(&image, 9, 18, 60).answer, 0);
    for budget in [0, 1, 8] {
        for (table, working) in [(18, 60), (17, 60), (18, 59), (0, 0), (30, 90)] {
            let left = call(&image, budget, table, working);
            assert_eq!(left, zero(8, table, working));
        }
    }
    for (table, working) in [(17, 60), (18, 59), (0, 0), (0, 90), (90, 0)] {
        let left = call(&image, u32::MAX, table, working);
        assert_eq!(left, zero(9, table, working));
    }
}

#[test]
fn a_refused_image_leaves_everything_as_it_was() {
    let image = survey_case().encode();
    for budget in [0, 9] {
        let left = call(&image[..145], budget, 18, 60);
        assert_eq!((left.answer, left.steps), (1, FRESH_STEPS));
        assert_eq!(left.table, [FRESH; 18]);
        assert_eq!(left.working, [FRESH; 60]);
    }
}

#[test]
fn the_last_equal_text_of_a_scope_wins() {
    let twice = let_(&[("x", int()), ("x", int())], var("x"));
    assert_eq!(resolved(&twice), ["2 def 1"]);
    let field = lambda_pattern(Some("x"), &[(Some("x"), None)], var("x"));
    assert_eq!(resolved(&field), ["0 def 1"]);
    // An inner scope comes before an outer one, wherever its name stands.
    let shadowed = lambda(
        "x",
        lambda_pattern(Some("x"), &[(Some("y"), None)], var("x")),
    );
    assert_eq!(resolved(&shadowed), ["0 def 1"]);
}

#[test]
fn equal_texts_of_other_numbers_are_equal() {
    let mut tree = tree(&lambda("x", var("x")));
    tree.texts.push(b"x".to_vec());
    tree.exprs[0].text = 1;
    assert_eq!(lines(&tree)[1..], ["0 def 0"]);
    tree.texts[1] = b"xx".to_vec();
    assert_eq!(lines(&tree)[1..], none());
}

#[test]
fn definitions_come_first_then_builtins_then_the_innermost_with() {
    let under_with = |name| with_(int(), var(name));
    assert_eq!(resolved(&under_with("null")), ["1 builtin 15"]);
    assert_eq!(resolved(&under_with("abort")), ["1 builtin 0"]);
    assert_eq!(resolved(&under_with("true")), ["1 builtin 21"]);
    assert_eq!(resolved(&under_with("x")), ["1 with 2"]);
    assert_eq!(resolved(&lambda("x", under_with("x"))), ["1 def 0"]);
    assert_eq!(resolved(&lambda("null", under_with("null"))), ["1 def 0"]);
    assert_eq!(resolved(&with_(int(), under_with("x"))), ["2 with 3"]);
    assert_eq!(resolved(&with_(var("x"), int())), none());
}

#[test]
fn names_of_plain_sets_define_nothing_but_parameters_always_do() {
    let bindings = || Bindings::new().bind("x", &var("x"));
    assert_eq!(resolved(&set(bindings())), none());
    assert_eq!(resolved(&rec_set(bindings())), ["0 def 0"]);
    for (entry, defines) in [
        (let_in(bindings(), int()), false),
        (rec_set(bindings()), false),
        (lambda("x", var("x")), true),
        (lambda_pattern(None, &[(Some("x"), None)], var("x")), true),
    ] {
        let mut tree = tree(&entry);
        tree.names[0].kind = name_kind::PLAIN_ATTRSET;
        assert_eq!(lines(&tree).len() - 1, usize::from(defines));
        assert_eq!(scopes(&tree), 1 + usize::from(defines));
    }
}

#[test]
fn an_inherit_is_resolved_outside_and_the_rest_inside() {
    let inner = let_in(Bindings::new().inherit("x"), var("x"));
    assert_eq!(resolved(&lambda("x", inner)), ["0 def 0", "1 def 1"]);
    // All inherits are visited first: a reference shared with a value behind them keeps the inner scope.
    let mut tree = tree(&let_in(
        Bindings::new().bind("x", &var("x")).inherit("x"),
        int(),
    ));
    let items = &mut tree.exprs[3].items;
    items[0].expr = items[1].expr;
    assert_eq!(lines(&tree), ["resolve 4", "1 def 1"]);
}

#[test]
fn dynamic_parts_and_bases_stand_inside() {
    let bindings = Bindings::new()
        .bind("x", &int())
        .inherit_from(var("x"), &[])
        .dynamic(var("x"), var("x"));
    let expected = ["1 def 0", "2 def 0", "3 def 0"];
    assert_eq!(resolved(&rec_set(bindings)), expected);
}

#[test]
fn role_6_gets_no_visit_but_its_name_is_defined() {
    let bindings = Bindings::new().inherit_from(var("lib"), &["a"]);
    let tree = tree(&lambda("lib", let_in(bindings, var("a"))));
    assert_eq!(lines(&tree), ["resolve 4", "0 def 0", "3 def 1"]);
    let mut without_base = tree;
    without_base.exprs[4].items.remove(1);
    assert_eq!(lines(&without_base), ["resolve 3", "3 def 1"]);
}

#[test]
fn defaults_stand_inside_the_scope_of_their_lambda() {
    let fields = [
        (Some("x"), Some(var("y"))),
        (Some("y"), None),
        (None, Some(var("x"))),
    ];
    let function = lambda_pattern(None, &fields, var("z"));
    assert_eq!(resolved(&function), ["0 def 1", "1 def 0"]);
}

#[test]
fn a_shared_expression_keeps_its_last_scope() {
    let shared = var("x");
    let inside = || lambda("x", shared.clone());
    let first = list(&[inside(), shared.clone()]);
    assert_eq!(lines(&tree(&first)), ["resolve 4"]);
    let last = list(&[shared.clone(), inside()]);
    assert_eq!(lines(&tree(&last)), ["resolve 4", "0 def 0"]);
    // Of an owner that is visited twice the last visit counts, also where another owner has a higher number.
    let owner = list(std::slice::from_ref(&shared));
    let both = list(&[
        lambda("x", owner.clone()),
        with_(int(), owner),
        lambda("x", shared),
    ]);
    assert_eq!(lines(&tree(&both)), ["resolve 10", "0 def 1"]);
}

#[test]
fn assert_visits_its_body_before_its_condition() {
    let shared = var("x");
    let outside = assert_(shared.clone(), lambda("x", shared.clone()));
    assert_eq!(resolved(&outside), none());
    let inside = assert_(lambda("x", shared.clone()), shared);
    assert_eq!(resolved(&inside), ["0 def 0"]);
}

#[test]
fn what_is_not_visited_has_no_entry() {
    let mut tree = tree(&list(&[var("null"), var("map")]));
    tree.entry = 1;
    assert_eq!(lines(&tree), ["resolve 1", "1 builtin 14"]);
}

#[test]
fn scopes_are_counted_by_visit_and_only_where_something_is_defined() {
    let shared = with_(var("a"), var("b"));
    assert_eq!(scopes(&tree(&list(&[shared.clone(), shared]))), 3);
    let bare = lambda_pattern(None, &[(None, None)], let_(&[], int()));
    assert_eq!(scopes(&tree(&bare)), 1);
    let plain = set(Bindings::new().bind("x", &int()));
    assert_eq!(scopes(&tree(&plain)), 1);
}

#[test]
fn steps_are_counted_however_many_they_are() {
    let image = |levels| shapes::doubling(levels).encode();
    assert_eq!(resolution_steps(&image(100)), u64::MAX);
    assert_eq!(call(&image(31), u32::MAX - 1, ROOM, ROOM).answer, 8);
    let most = call(&image(31), u32::MAX, ROOM, ROOM);
    assert_eq!((most.answer, most.steps), (0, u32::MAX));
    for levels in [32, 62, 63, 64, 16382] {
        let left = call(&image(levels), u32::MAX, 3, 2);
        assert_eq!(left, zero(8, 3, 2));
    }
}

#[cfg(original)]
mod beside_the_original {
    use super::*;
    use crate::generate::{self, grow::Texts};
    use crate::large_stack::{LARGE, run_on};
    use crate::original::passes::Subject;
    use crate::random::Random;

    #[test]
    fn generated_images_are_resolved_as_the_original_resolves_them() {
        let ran = run_on(LARGE, || {
            let mut random = Random::new(21);
            let trees = (0..5000).map(|_| generate::tree(&mut random, Texts::Utf8));
            trees.for_each(|tree| compare(&tree));
        });
        assert!(ran.is_ok());
    }

    fn compare(tree: &Tree) {
        let image = tree.encode();
        if resolution_steps(&image) > 50_000 {
            return;
        }
        let original = Subject::new(tree).name_resolution();
        let table = original.table.len();
        let need = 4 * tree.exprs.len() + 8 * original.scopes;
        let left = call(&image, u32::MAX, table, need);
        assert_eq!((left.answer, u64::from(left.steps)), (0, original.steps));
        assert_eq!(left.table, original.table);
        let short = call(&image, u32::MAX, table, need - 1);
        assert_eq!(short, zero(9, table, need - 1));
    }
}

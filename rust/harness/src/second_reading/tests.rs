//! The corners of each rule.

use super::check;
use crate::generate::shapes;
use crate::generate::small::{OWNER, REFERENCE, above_leaves, missing, right_item, right_items};
use crate::image::{Expr, Fields, Item, NONE, Name, TextFields, Tree, detail, kind, role};
use crate::notation::survey_case;

fn answer(kind: u32, items: &[Item]) -> u32 {
    check(&above_leaves(kind, items.to_vec()).encode())
}

fn order(kind: u32, roles: &[u32]) -> u32 {
    answer(kind, &right_items(roles))
}

/// The answer for the printed case after a change of its fields.
fn changed(change: impl FnOnce(&mut Fields)) -> u32 {
    let mut fields = survey_case().fields();
    change(&mut fields);
    check(&fields.encode())
}

#[test]
fn an_image_under_12_bytes_is_1() {
    for length in 0..12 {
        assert_eq!(check(&vec![0; length]), 1);
        assert_eq!(check(&vec![0xff; length]), 1);
    }
}

#[test]
fn an_image_of_another_length_than_the_headers_is_1() {
    let image = missing().encode();
    assert_eq!((image.len(), check(&image)), (20, 0));
    assert_eq!(check(&image[..19]), 1);
    assert_eq!(check(&[&image[..], &[0]].concat()), 1);
}

#[test]
fn the_highest_counts_need_their_whole_length() {
    assert_eq!(check(&[0xff; 12]), 1);
    let mut image = shapes::largest().encode();
    assert_eq!(image.len(), 12 + 16 * 16383 + 5 * 1_048_575);
    assert_eq!(check(&image), 0);
    image.push(0);
    assert_eq!(check(&image), 1);
    image.truncate(image.len() - 2);
    assert_eq!(check(&image), 1);
}

#[test]
fn counts_of_0_are_allowed_but_for_expressions() {
    assert_eq!(check(&[0; 12]), 2);
    assert_eq!(order(kind::LIST, &[]), 0);
    let mut tree = above_leaves(kind::LIST, vec![]);
    tree.exprs[1] = Expr::new(kind::MISSING, vec![]);
    tree.exprs[2] = Expr::new(kind::MISSING, vec![]);
    tree.names.clear();
    assert_eq!(check(&tree.encode()), 0);
    tree.texts.clear();
    assert_eq!(check(&tree.encode()), 0);
}

#[test]
fn the_entry_is_below_the_count() {
    for entry in 0..9 {
        assert_eq!(changed(|fields| fields.header.entry = entry), 0);
    }
    for entry in [9, 10, 16383] {
        assert_eq!(changed(|fields| fields.header.entry = entry), 2);
    }
    let mut tree = shapes::NESTINGS[0].chain(16383);
    assert_eq!((tree.entry, check(&tree.encode())), (16382, 0));
    tree.entry = 16383;
    assert_eq!(check(&tree.encode()), 2);
}

#[test]
fn text_runs_stand_end_to_end_and_use_all_bytes() {
    assert_eq!(changed(|fields| fields.texts[0].first = 1), 3);
    assert_eq!(changed(|fields| fields.texts[1].first += 1), 3);
    assert_eq!(changed(|fields| fields.texts[1].first -= 1), 3);
    assert_eq!(changed(|fields| fields.texts[2].length = 0), 3);
    assert_eq!(changed(|fields| fields.texts[2].length = 2), 3);
    let left_over = |fields: &mut Fields| {
        fields.bytes.push(b'z');
        fields.recount();
    };
    assert_eq!(changed(left_over), 3);
    let no_text = |fields: &mut Fields| {
        fields.texts.clear();
        fields.recount();
    };
    assert_eq!(changed(no_text), 3);
}

#[test]
fn texts_are_0_to_4095_bytes_long_of_any_value() {
    for text in [vec![], vec![0], vec![0xff; 4095], b"x".to_vec()] {
        let mut tree = survey_case();
        tree.texts.push(text.clone());
        tree.texts.push(text);
        assert_eq!(check(&tree.encode()), 0);
    }
    // An empty run, too, starts where the one before ended.
    let mut fields = survey_case().fields();
    let empty = TextFields {
        first: 5,
        length: 0,
    };
    fields.texts.push(empty);
    fields.recount();
    assert_eq!(check(&fields.encode()), 3);
    fields.texts[3].first = 6;
    assert_eq!(check(&fields.encode()), 0);
}

#[test]
fn names_have_a_kind_a_text_and_nothing_else() {
    for kind in 0..8 {
        let expected = if kind <= 4 { 0 } else { 4 };
        assert_eq!(changed(|fields| fields.names[1].kind = kind), expected);
    }
    for (text, expected) in [(0, 0), (2, 0), (3, 4), (16383, 4)] {
        assert_eq!(changed(|fields| fields.names[0].text = text), expected);
    }
    for bit in 0..15 {
        assert_eq!(changed(|fields| fields.names[1].spare = 1 << bit), 4);
    }
}

#[test]
fn only_references_and_strings_have_a_text() {
    let with_text = |kind, detail, text| {
        let mut tree = above_leaves(kind::LIST, vec![]);
        tree.exprs[0] = Expr {
            text,
            ..Expr::with_detail(kind, detail, vec![])
        };
        check(&tree.encode())
    };
    for (text, expected) in [(0, 0), (1, 5), (16382, 5), (NONE, 5)] {
        assert_eq!(with_text(kind::REFERENCE, 0, text), expected);
        assert_eq!(with_text(kind::LITERAL, detail::STRING, text), expected);
    }
    for (text, expected) in [(0, 5), (1, 5), (16382, 5), (NONE, 0)] {
        assert_eq!(with_text(kind::MISSING, 0, text), expected);
        assert_eq!(with_text(kind::ATTR_SET, 1, text), expected);
        for detail in [detail::FLOAT, detail::INTEGER, detail::PATH, detail::URI] {
            assert_eq!(with_text(kind::LITERAL, detail, text), expected);
        }
    }
}

/// Roles that each kind accepts.
fn right_roles(kind: u32) -> &'static [u32] {
    match kind {
        kind::MISSING | kind::LITERAL | kind::REFERENCE => &[],
        kind::IF_THEN_ELSE => &[0, 0, 0],
        kind::APPLY | kind::BIN_OP | kind::WITH | kind::ASSERT => &[0, 0],
        kind::ATTR_SET => &[4, 5],
        _ => &[0],
    }
}

#[test]
fn details_go_by_kind() {
    for kind in 0..32 {
        let most = match kind {
            kind::LITERAL => 4,
            kind::BIN_OP => 14,
            kind::ATTR_SET | kind::UNARY_OP => 1,
            _ => 0,
        };
        for detail in 0..32 {
            let mut tree = above_leaves(kind, right_items(right_roles(kind)));
            tree.exprs[3].detail = detail;
            if kind == kind::LITERAL && detail == detail::STRING {
                tree.exprs[3].text = 0;
            }
            let expected = if kind <= 16 && detail <= most { 0 } else { 5 };
            assert_eq!(check(&tree.encode()), expected, "{kind} {detail}");
        }
    }
}

#[test]
fn item_runs_stand_end_to_end_and_use_all_items() {
    assert_eq!(changed(|fields| fields.exprs[0].first = 1), 5);
    assert_eq!(changed(|fields| fields.exprs[5].first += 1), 5);
    assert_eq!(changed(|fields| fields.exprs[5].first -= 1), 5);
    assert_eq!(changed(|fields| fields.exprs[8].count = 1), 5);
    assert_eq!(changed(|fields| fields.exprs[8].count = 3), 5);
    // An empty run, too, starts where the one before ended.
    assert_eq!(changed(|fields| fields.exprs[6].first = 0), 5);
    let left_over = |fields: &mut Fields| {
        fields.items.push(Item::child(0));
        fields.recount();
    };
    assert_eq!(changed(left_over), 5);
}

#[test]
fn children_have_their_number() {
    for kind in 0..kind::COUNT {
        let any = matches!(
            kind,
            kind::LIST | kind::STRING_INTERPOLATION | kind::PATH_INTERPOLATION
        );
        let count = match kind {
            kind::ATTR_SET => 0,
            _ => right_roles(kind).len(),
        };
        for children in 0..5 {
            let fits = any || children == count;
            let expected = if fits { 0 } else { 6 };
            let roles = vec![role::CHILD; children];
            assert_eq!(order(kind, &roles), expected, "{kind} {children}");
        }
    }
}

#[test]
fn lambdas_have_a_parameter_fields_and_a_body() {
    for roles in [&[0][..], &[10, 0], &[3, 0], &[3, 3, 0], &[10, 3, 3, 0]] {
        assert_eq!(order(kind::LAMBDA, roles), 0, "{roles:?}");
    }
    for roles in [
        &[][..],
        &[10],
        &[3],
        &[10, 10, 0],
        &[3, 10, 0],
        &[0, 3],
        &[0, 10],
        &[10, 0, 0],
        &[10, 4, 0],
    ] {
        assert_eq!(order(kind::LAMBDA, roles), 6, "{roles:?}");
    }
}

const RIGHT_BINDINGS: [&[u32]; 9] = [
    &[],
    &[4],
    &[6, 5, 4, 4, 6],
    &[7],
    &[7, 7],
    &[8, 9],
    &[8, 9, 8, 9],
    &[4, 7, 8, 9],
    &[5, 6, 7, 7, 8, 9, 8, 9],
];

const WRONG_BINDINGS: [&[u32]; 13] = [
    &[8],
    &[9],
    &[9, 8],
    &[8, 8, 9, 9],
    &[8, 9, 8],
    &[8, 9, 9],
    &[7, 4],
    &[8, 9, 4],
    &[8, 9, 7],
    &[8, 7, 9],
    &[4, 3],
    &[1],
    &[10, 4],
];

#[test]
fn bindings_have_statics_bases_and_pairs() {
    for bindings in RIGHT_BINDINGS {
        assert_eq!(order(kind::ATTR_SET, bindings), 0, "{bindings:?}");
        let with_body = [bindings, &[0]].concat();
        assert_eq!(order(kind::LET_IN, &with_body), 0, "{bindings:?}");
        // A set has no body, and a let has one.
        assert_eq!(order(kind::ATTR_SET, &with_body), 6, "{bindings:?}");
        assert_eq!(order(kind::LET_IN, bindings), 6, "{bindings:?}");
    }
    for bindings in WRONG_BINDINGS {
        assert_eq!(order(kind::ATTR_SET, bindings), 6, "{bindings:?}");
        let with_body = [bindings, &[0]].concat();
        assert_eq!(order(kind::LET_IN, &with_body), 6, "{bindings:?}");
    }
    assert_eq!(order(kind::LET_IN, &[0, 4]), 6);
    assert_eq!(order(kind::LET_IN, &[8, 0, 9]), 6);
    assert_eq!(order(kind::LET_IN, &[0, 0]), 6);
}

#[test]
fn paths_have_a_set_keys_and_for_select_a_default() {
    for roles in [&[0][..], &[0, 1], &[0, 1, 1, 1]] {
        assert_eq!(order(kind::SELECT, roles), 0, "{roles:?}");
        assert_eq!(order(kind::HAS_ATTR, roles), 0, "{roles:?}");
        let with_default = [roles, &[2]].concat();
        assert_eq!(order(kind::SELECT, &with_default), 0, "{roles:?}");
        assert_eq!(order(kind::HAS_ATTR, &with_default), 6, "{roles:?}");
    }
    for roles in [&[][..], &[1], &[1, 0], &[0, 0], &[0, 2, 1], &[0, 2, 2]] {
        assert_eq!(order(kind::SELECT, roles), 6, "{roles:?}");
        assert_eq!(order(kind::HAS_ATTR, roles), 6, "{roles:?}");
    }
}

#[test]
fn a_pattern_field_may_lack_name_and_expression() {
    let field = |name, expr| {
        let role = role::PATTERN_FIELD;
        let field = Item { role, name, expr };
        answer(kind::LAMBDA, &[field, right_item(role::CHILD)])
    };
    for name in [0, NONE] {
        for expr in [0, 2, NONE] {
            assert_eq!(field(name, expr), 0);
        }
        for expr in [OWNER, OWNER + 1, NONE - 1] {
            assert_eq!(field(name, expr), 10);
        }
    }
    for name in [1, NONE - 1] {
        assert_eq!(field(name, NONE), 6);
    }
}

#[test]
fn roles_above_10_are_6() {
    for role in 11..16 {
        for kind in 0..kind::COUNT {
            assert_eq!(answer(kind, &[Item::of(role, REFERENCE)]), 6);
        }
    }
}

/// A kind and a list of roles that is right for it and has the role.
fn home(role: u32) -> (u32, &'static [u32]) {
    match role {
        role::CHILD => (kind::LIST, &[0]),
        role::PATH_KEY => (kind::HAS_ATTR, &[0, 1]),
        role::DEFAULT => (kind::SELECT, &[0, 2]),
        role::STATIC => (kind::ATTR_SET, &[4]),
        role::INHERIT => (kind::ATTR_SET, &[5]),
        role::INHERIT_FROM => (kind::ATTR_SET, &[6]),
        role::INHERIT_BASE => (kind::ATTR_SET, &[7]),
        role::DYNAMIC_KEY | role::DYNAMIC_VALUE => (kind::ATTR_SET, &[8, 9]),
        role::PARAMETER => (kind::LAMBDA, &[10, 0]),
        _ => (kind::LAMBDA, &[3, 0]),
    }
}

/// The answer where the item of this role is changed and all else is right.
fn in_home(role: u32, change: impl Fn(&mut Item)) -> u32 {
    let (kind, roles) = home(role);
    let mut items = right_items(roles);
    let item = items.iter_mut().find(|item| item.role == role);
    change(item.expect("its home has it"));
    answer(kind, &items)
}

#[test]
fn names_stand_where_the_role_has_one() {
    for role in [0, 1, 2, 7, 8, 9] {
        assert_eq!(in_home(role, |_| ()), 0);
        for name in [0, 1, NONE - 1] {
            assert_eq!(in_home(role, |item| item.name = name), 6, "{role} {name}");
        }
    }
    for role in [4, 5, 6, 10] {
        assert_eq!(in_home(role, |_| ()), 0);
        for name in [1, NONE - 1, NONE] {
            assert_eq!(in_home(role, |item| item.name = name), 6, "{role} {name}");
        }
    }
}

#[test]
fn expressions_are_smaller_than_their_owner() {
    for role in [0, 1, 2, 4, 5, 6, 7, 8, 9] {
        assert_eq!(in_home(role, |item| item.expr = REFERENCE), 0);
        assert_eq!(in_home(role, |item| item.expr = NONE), 6, "{role}");
        for expr in [OWNER, OWNER + 1, NONE - 1] {
            assert_eq!(in_home(role, |item| item.expr = expr), 10, "{role} {expr}");
        }
    }
    // Where the role has no expression, any number is 6.
    for expr in [0, OWNER, NONE - 1] {
        assert_eq!(in_home(role::PARAMETER, |item| item.expr = expr), 6);
    }
}

#[test]
fn an_inherit_names_a_reference_wherever_it_stands() {
    let inherit = |expr| in_home(role::INHERIT, |item| item.expr = expr);
    assert_eq!((inherit(0), inherit(1), inherit(2)), (11, 0, 11));
    let item = Item {
        expr: 2,
        ..right_item(role::INHERIT)
    };
    let mut tree = above_leaves(kind::ATTR_SET, vec![item]);
    tree.entry = 0;
    assert_eq!(check(&tree.encode()), 11);
}

#[test]
fn a_child_with_its_owners_number_is_10() {
    let own = Expr::new(kind::LIST, vec![Item::child(0)]);
    let tree = Tree {
        exprs: vec![own],
        ..Tree::default()
    };
    assert_eq!(check(&tree.encode()), 10);
}

/// A set of one Inherit whose first broken rule is this one, the number of the set being `owner`.
fn breaking(rule: u32, owner: u32) -> Expr {
    let expr = match rule {
        6 => NONE,
        10 => owner,
        _ => 0,
    };
    let item = Item {
        expr,
        ..right_item(role::INHERIT)
    };
    Expr::new(kind::ATTR_SET, vec![item])
}

#[test]
fn of_6_10_and_11_the_first_is_told_whichever_stands_first() {
    let orders: [(&[u32], u32); 12] = [
        (&[6, 10, 11], 6),
        (&[6, 11, 10], 6),
        (&[10, 6, 11], 6),
        (&[10, 11, 6], 6),
        (&[11, 6, 10], 6),
        (&[11, 10, 6], 6),
        (&[6, 10], 6),
        (&[10, 6], 6),
        (&[6, 11], 6),
        (&[11, 6], 6),
        (&[10, 11], 10),
        (&[11, 10], 10),
    ];
    for (rules, first) in orders {
        let mut apart = above_leaves(kind::LIST, vec![]);
        let mut items = Vec::new();
        for &rule in rules {
            let owner = apart.exprs.len() as u32;
            apart.exprs.push(breaking(rule, owner));
            items.extend(breaking(rule, OWNER).items);
        }
        assert_eq!(
            check(&apart.encode()),
            first,
            "{rules:?} in sets of their own"
        );
        assert_eq!(
            answer(kind::ATTR_SET, &items),
            first,
            "{rules:?} in one set"
        );
    }
}

#[test]
fn each_rule_is_asked_of_the_whole_image_before_the_next() {
    // Each change breaks the next earlier rule behind what is already broken.
    let mut fields = above_leaves(kind::ATTR_SET, breaking(11, OWNER).items).fields();
    assert_eq!(check(&fields.encode()), 11);
    fields.items[0].expr = OWNER;
    assert_eq!(check(&fields.encode()), 10);
    fields.items[0].name = NONE;
    assert_eq!(check(&fields.encode()), 6);
    fields.exprs[3].detail = 2;
    assert_eq!(check(&fields.encode()), 5);
    fields.names[0].kind = 5;
    assert_eq!(check(&fields.encode()), 4);
    fields.texts[0].length = 2;
    assert_eq!(check(&fields.encode()), 3);
    fields.header.entry = 4;
    assert_eq!(check(&fields.encode()), 2);
    fields.header.names = 2;
    assert_eq!(check(&fields.encode()), 1);
    // A broken item of the first owner does not hide a broken expression behind it.
    let mut tree = above_leaves(kind::MISSING, vec![]);
    tree.exprs[0] = Expr::new(kind::LIST, vec![Item::child(0)]);
    tree.exprs[3].kind = 17;
    assert_eq!(check(&tree.encode()), 5);
}

#[test]
fn what_is_odd_but_allowed_is_accepted() {
    let mut tree = survey_case();
    // Equal texts, a name that nothing binds, a name kind that fits no role, an entry below others.
    tree.texts.push(b"x".to_vec());
    tree.names.push(Name { text: 3, kind: 1 });
    tree.names[0].kind = 4;
    tree.entry = 0;
    assert_eq!(check(&tree.encode()), 0);
    // A name bound twice in one set, and an expression with two owners.
    let bindings = [right_item(role::STATIC), right_item(role::STATIC)];
    assert_eq!(answer(kind::ATTR_SET, &bindings), 0);
}

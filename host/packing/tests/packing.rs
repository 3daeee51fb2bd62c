//! The packed bytes of small models, by hand.

use jirvuntsag_packing::{
    largest, largest_asking, model_a, pack, pack_under, pack_with_fields, ChunkSpec, Header, ModelSpec, PatternSpec,
    QuerySpec, Role, RuleSpec, Term,
};

#[test]
fn smallest_model_is_p1() {
    let spec = ModelSpec { opening: vec![ChunkSpec::nil()], ..ModelSpec::default() };
    assert_eq!(pack(&spec), [1, 0x10, 0, 0, 0, 0, 0, 0]);
}

#[test]
fn header_fields_lie_without_gaps() {
    let spec = ModelSpec { opening: vec![ChunkSpec::nil()], ..ModelSpec::default() };
    let header = Header { version: 1, buffers: 8, types: 63, rules: 256, facts: 512, failure: 0xabcd };
    let packed = pack_under(&header, &spec);
    assert_eq!(packed.bytes[..7], [0x01, 0x8f, 0xe0, 0x10, 0x05, 0x5e, 0x68]);
    let header_fields = &packed.fields[..6];
    let layout: Vec<_> = header_fields.iter().map(|field| (field.at, field.width, field.get(&packed.bytes))).collect();
    assert_eq!(layout, [(0, 8, 1), (8, 4, 8), (12, 6, 63), (18, 9, 256), (27, 10, 512), (37, 16, 0xabcd)]);
}

#[test]
fn fields_can_be_set_and_read_back() {
    let packed = pack_with_fields(&model_a());
    for field in &packed.fields {
        let mut image = packed.bytes.clone();
        let other = !field.get(&image) & ((1_u32 << field.width) - 1) as u16;
        field.set(&mut image, other);
        assert_eq!(field.get(&image), other);
        field.set(&mut image, field.get(&packed.bytes));
        assert_eq!(image, packed.bytes);
    }
}

#[test]
fn model_a_has_every_field_once() {
    let packed = pack_with_fields(&model_a());
    let count = |role| packed.fields.iter().filter(|field| field.role == role).count();
    assert_eq!((count(Role::Utility), count(Role::TestBuffer), count(Role::TestTerm)), (3, 5, 6));
    assert_eq!((count(Role::ActionKind), count(Role::RequestType), count(Role::ActionTerm)), (4, 2, 3));
    let last = packed.fields.last().expect("fields");
    assert_eq!((last.at + last.width).div_ceil(8), packed.bytes.len());
}

#[test]
fn fields_are_found_by_their_first_bit_and_by_a_cut() {
    let packed = pack_with_fields(&model_a());
    let role_at = |bit| packed.field_at(bit).map(|field| field.role);
    assert_eq!([role_at(0), role_at(258), role_at(259)], [Some(Role::Version), Some(Role::TestMask), None]);
    let missing = |bytes| packed.first_missing(bytes).map(|field| (field.role, field.at));
    assert_eq!(
        [missing(0), missing(70), missing(71)],
        [Some((Role::Version, 0)), Some((Role::ActionBuffer, 558)), None]
    );
}

#[test]
fn fields_are_found_by_their_role_and_set_in_a_copy() {
    let packed = pack_with_fields(&model_a());
    let at = |role, which| packed.nth(role, which).map(|field| field.at);
    assert_eq!([at(Role::TestMask, 0), at(Role::TestMask, 4), at(Role::TestMask, 5)], [Some(258), Some(524), None]);
    let mask = packed.nth(Role::TestMask, 0).expect("a mask");
    let image = packed.with(mask, 0x40);
    assert_eq!((mask.get(&image), mask.get(&packed.bytes)), (0x40, 0x80));
    assert_eq!(packed.with(mask, 0x80), packed.bytes);
}

/// A field of two models that differ in one value alone, and whether the others stay.
#[test]
fn some_fields_say_where_others_are() {
    let places = |spec: &ModelSpec| pack_with_fields(spec).fields.iter().map(|field| field.at).collect::<Vec<_>>();
    let (one, mut other) = (model_a(), model_a());
    other.rules[0].variables = 7;
    other.rules[1].tests[0].buffer = 3;
    other.rules[1].tests[0].isa = 1;
    other.rules[2].tests[0].pattern.terms[0] = Term::Symbol(9);
    assert_eq!(places(&one), places(&other));
    assert!([Role::Variables, Role::TestBuffer, Role::TestType, Role::TestTerm].iter().all(|role| role.keeps_places()));
    other.rules[0].tests[1].pattern = PatternSpec::new(&[(0, Term::Symbol(1))]);
    assert_ne!(places(&one), places(&other));
    assert!(!Role::TestMask.keeps_places());
}

/// The version says whether there are queries, their number how many; a query is always as long.
#[test]
fn queries_that_differ_leave_the_others_in_their_places() {
    let ends = |spec: &ModelSpec| pack_with_fields(spec).fields.last().map(|field| field.at + field.width);
    let (one, mut other, mut more) = (asks(), asks(), asks());
    other.rules[0].queries = vec![QuerySpec::error(5)];
    more.rules[0].queries.push(QuerySpec::free(1));
    assert_eq!(ends(&one), ends(&other));
    assert!([Role::QueryBuffer, Role::QueryKind].iter().all(|role| role.keeps_places()));
    assert!(ends(&one) != ends(&more) && ends(&one) != ends(&ModelSpec { version: Some(1), ..asks() }));
    assert!([Role::Queries, Role::Version].iter().all(|role| !role.keeps_places()));
}

/// One buffer and a rule without tests that asks whether it is free.
fn asks() -> ModelSpec {
    let rule = RuleSpec { queries: vec![QuerySpec::free(0)], ..RuleSpec::default() };
    ModelSpec { opening: vec![ChunkSpec::nil()], rules: vec![rule], ..ModelSpec::default() }
}

#[test]
fn queries_lie_between_tests_and_actions() {
    let packed = pack_with_fields(&asks());
    assert_eq!(packed.bytes, [2, 0x10, 0, 0x20, 0, 0, 0, 0, 0, 0, 0, 0x21]);
    let last: Vec<_> = packed.fields.iter().rev().take(4).map(|field| (field.role, field.at, field.width)).collect();
    let queries = [(Role::QueryKind, 94, 2), (Role::QueryBuffer, 91, 3), (Role::Queries, 87, 4)];
    assert_eq!(last, [queries[0], queries[1], queries[2], (Role::Variables, 83, 4)]);
}

#[test]
fn a_version_is_the_one_that_is_set_or_the_first_that_will_do() {
    let version = |spec: &ModelSpec| pack(spec)[0];
    let set = |version| ModelSpec { version: Some(version), ..model_a() };
    assert_eq!([version(&model_a()), version(&set(2)), version(&set(4))], [1, 2, 4]);
    let (mut asking, mut untested) = (model_a(), model_a());
    asking.rules[1].queries.push(QuerySpec::busy(1));
    untested.rules[2].tests.clear();
    assert_eq!([version(&asking), version(&untested)], [2, 2]);
}

#[test]
fn only_version_2_has_queries() {
    let count = |version, role| {
        let packed = pack_with_fields(&ModelSpec { version: Some(version), ..asks() });
        packed.fields.iter().filter(|field| field.role == role).count()
    };
    assert_eq!([count(2, Role::Queries), count(2, Role::QueryKind)], [1, 1]);
    assert_eq!([count(1, Role::Queries), count(1, Role::QueryKind)], [0, 0]);
    let plain = pack_with_fields(&ModelSpec { version: Some(2), ..model_a() });
    assert_eq!(plain.nth(Role::Queries, 2).map(|field| field.get(&plain.bytes)), Some(0));
}

#[test]
fn kinds_are_packed_as_they_stand() {
    let kinds = [QuerySpec::busy(1), QuerySpec::free(1), QuerySpec::error(1), QuerySpec { buffer: 1, kind: 3 }];
    for (number, query) in kinds.into_iter().enumerate() {
        let mut spec = asks();
        spec.rules[0].queries = vec![query];
        let packed = pack_with_fields(&spec);
        let value = |role| packed.nth(role, 0).map(|field| field.get(&packed.bytes));
        assert_eq!((value(Role::QueryBuffer), value(Role::QueryKind)), (Some(1), Some(number as u16)));
    }
}

#[test]
fn patterns_name_their_slots_in_order() {
    let named = [(0, Term::Variable(1)), (3, Term::Symbol(1)), (7, Term::Variable(0))];
    let pattern = PatternSpec::new(&named);
    assert_eq!(pattern.mask, 0b1001_0001);
    assert_eq!(pattern.named().collect::<Vec<_>>(), named);
}

#[test]
fn the_largest_models_fill_the_largest_image() {
    for (spec, version, queries) in [(largest(), 1, 0), (largest_asking(), 2, 8)] {
        let image = pack(&spec);
        assert_eq!((spec.facts.len(), spec.rules.len(), image.len(), image[0]), (512, 256, 65_536, version));
        assert!(spec.rules[..255].iter().all(|rule| rule.queries.len() == queries));
    }
}

//! The fields of queries (request 2026-06): which values are refused, by which number, and at which bit.

mod common;

use common::{asks, rule, P1, V0};
use jirvuntsag_packing::{
    model_a, pack, pack_with_fields, ActionSpec, ModelSpec, Packed, QuerySpec, Role, RuleSpec, TestSpec,
};
use jirvuntsag_reference::{open, run_fresh, Model, Refusal, State};

/// Two buffers, and a rule that tests the first for v0, asks both, and clears the second.
fn asking() -> ModelSpec {
    let queries = vec![QuerySpec::free(0), QuerySpec::error(1)];
    let one = RuleSpec { queries, ..rule(0, 1, vec![TestSpec::new(0, 2, &[(0, V0)])], vec![ActionSpec::clear(1)]) };
    ModelSpec { rules: vec![one], ..model_a() }
}

/// Holds the calls on an image to a refusal with this number at this bit.
fn assert_refused(image: &[u8], number: u8, at: usize, what: &str) {
    let at = at as u32;
    assert_eq!(Model::decode(image).err(), Some(Refusal { number, at }), "{what}");
    assert_eq!(open(image, &mut []), (number, at, State::default()), "{what}");
    assert_eq!(run_fresh(image, State::default(), 1), (number, at, State::default(), 0), "{what}");
}

/// Where a field lies, by its role and which of that role it is.
fn at(packed: &Packed, role: Role, which: usize) -> usize {
    packed.nth(role, which).expect("such a field").at
}

/// A field of queries by its role and which of that role it is, its number, values that break its rule, and some that do not.
type Sides = (Role, usize, u8, &'static [u16], &'static [u16]);

#[test]
fn each_field_of_a_query_on_both_sides_of_its_rule() {
    let sides: [Sides; 5] = [
        (Role::Queries, 0, 3, &[3, 8, 15], &[2]),
        (Role::QueryBuffer, 0, 13, &[2, 7], &[0]),
        (Role::QueryBuffer, 1, 13, &[0, 2, 7], &[1]),
        (Role::QueryKind, 0, 3, &[3], &[0, 1, 2]),
        (Role::QueryKind, 1, 3, &[3], &[0, 1, 2]),
    ];
    let packed = pack_with_fields(&asking());
    for (role, which, number, broken, kept) in sides {
        let field = packed.nth(role, which).expect("such a field");
        for &value in broken {
            let image = packed.with(field, value);
            let what = format!("{role:?} {which} {value}");
            assert_refused(&image, number, field.at, &what);
            // A field is judged before the next is fetched: cut right after it the answer is the same.
            assert_refused(&image[..(field.at + field.width).div_ceil(8)], number, field.at, &what);
        }
        for &value in kept {
            assert!(Model::decode(&packed.with(field, value)).is_ok(), "{role:?} {which} {value}");
        }
    }
}

#[test]
fn a_count_may_be_the_number_of_buffers_and_no_more() {
    for buffers in 1..=8 {
        let queries: Vec<QuerySpec> = (0..8).map(QuerySpec::free).collect();
        let spec = |count: usize| {
            let opening = vec![Default::default(); usize::from(buffers)];
            pack_with_fields(&ModelSpec {
                opening,
                rules: vec![asks(&queries[..count], vec![])],
                ..ModelSpec::default()
            })
        };
        let most = spec(usize::from(buffers));
        assert!(Model::decode(&most.bytes).is_ok(), "{buffers}");
        let field = most.nth(Role::Queries, 0).expect("a count");
        assert_refused(&most.with(field, buffers + 1), 3, field.at, "one more");
    }
}

#[test]
fn a_cut_image_misses_the_first_field_that_is_not_there() {
    let packed = pack_with_fields(&asking());
    let roles: Vec<Role> = (0..packed.bytes.len())
        .map(|bytes| {
            let missing = packed.first_missing(bytes).expect("a missing field");
            assert_refused(&packed.bytes[..bytes], 2, missing.at, &format!("cut at {bytes}"));
            missing.role
        })
        .collect();
    assert!(roles.contains(&Role::Queries) || roles.contains(&Role::QueryBuffer), "{roles:?}");
}

#[test]
fn without_tests_a_count_of_0_is_refused_at_the_count() {
    let mut spec = asking();
    spec.rules[0].tests.clear();
    spec.rules[0].variables = 0;
    let packed = pack_with_fields(&spec);
    assert!(Model::decode(&packed.bytes).is_ok());
    spec.rules[0].queries.clear();
    let empty = pack_with_fields(&spec);
    assert_refused(&empty.bytes, 3, at(&empty, Role::Queries, 0), "neither tests nor queries");
    // With a test no query is needed.
    let mut plain = asking();
    plain.rules[0].queries.clear();
    plain.version = Some(2);
    assert!(Model::decode(&pack(&plain)).is_ok());
}

#[test]
fn variables_are_judged_before_the_queries_are_counted() {
    let mut spec = asking();
    spec.rules[0].variables = 2;
    let packed = pack_with_fields(&spec);
    let count = at(&packed, Role::Queries, 0);
    assert_refused(&packed.bytes, 12, count, "variable 1");
    // Neither what is wrong with the count, nor that it is missing, is told.
    let field = packed.nth(Role::Queries, 0).expect("a count");
    assert_refused(&packed.with(field, 15), 12, count, "a bad count behind it");
    assert_refused(&packed.bytes[..count.div_ceil(8)], 12, count, "no count behind it");
    // A rule without tests has no variable, whatever its queries.
    spec.rules[0].tests.clear();
    spec.rules[0].variables = 1;
    let untested = pack_with_fields(&spec);
    assert_refused(&untested.bytes, 12, at(&untested, Role::Queries, 0), "a variable without tests");
}

#[test]
fn a_buffer_that_is_only_queried_is_untested_for_a_modify() {
    let mut spec = asking();
    spec.rules[0].actions = vec![ActionSpec::modify(1, &[])];
    let packed = pack_with_fields(&spec);
    assert_refused(&packed.bytes, 13, at(&packed, Role::ActionKind, 0), "a modify of what is asked");
    spec.rules[0].actions = vec![ActionSpec::modify(0, &[])];
    assert!(Model::decode(&pack(&spec)).is_ok(), "a modify of what is tested and asked");
    spec.rules[0].tests.clear();
    spec.rules[0].variables = 0;
    let untested = pack_with_fields(&spec);
    assert_refused(&untested.bytes, 13, at(&untested, Role::ActionKind, 0), "it is tested no more");
}

#[test]
fn versions_1_and_2_open_and_no_others() {
    for version in 0..=255 {
        let image = [&[version], &P1[1..]].concat();
        match version {
            1 | 2 => assert_eq!(open(&image, &mut []), (0, 0, State::default())),
            _ => assert_refused(&image, 3, 0, &format!("version {version}")),
        }
    }
}

#[test]
fn version_1_has_no_queries() {
    let packed = pack_with_fields(&asking());
    assert_eq!(packed.bytes[0], 2);
    // The same bits as version 1: the count, 2 in four bits, is taken for buffer 1 and the first bit of a modify's kind.
    let image = [&[1], &packed.bytes[1..]].concat();
    assert_refused(&image, 13, at(&packed, Role::Queries, 0) + 3, "a modify of buffer 1, which is not tested");
    let mut untested = asking();
    untested.rules[0].tests.clear();
    untested.rules[0].variables = 0;
    let untested = pack_with_fields(&untested);
    let image = [&[1], &untested.bytes[1..]].concat();
    assert_refused(&image, 3, at(&untested, Role::Tests, 0), "no test in version 1");
}

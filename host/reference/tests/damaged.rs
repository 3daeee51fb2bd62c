//! Damaged images: which number, and at which bit.

mod common;

use common::number;
use jirvuntsag_generate::{damage, each_seed, model, model_of, Shape};
use jirvuntsag_packing::{
    largest, model_a, pack, pack_under, pack_with_fields, ActionSpec, ChunkSpec, Deed, Field, ModelSpec, Packed,
    PatternSpec, Role, RuleSpec, Term, TestSpec,
};
use jirvuntsag_reference::{
    open, print, refresh, run, run_fresh, table_len, trace, trace_fresh, Model, Refusal, State,
};

/// Where the first field begins that is not wholly in a cut image.
fn first_missing(packed: &Packed, bytes: usize) -> usize {
    packed.first_missing(bytes).expect("a missing field").at
}

/// The nth field of a role.
fn nth(packed: &Packed, role: Role, n: usize) -> Field {
    *packed.nth(role, n).expect("such a field")
}

/// All calls on an image that is refused: each tells number and position, and nothing changes.
fn check_refused(image: &[u8], Refusal { number, at }: Refusal) {
    let before = [1, 2, 3, 65_535, 0, 0, 0, 0, 0];
    let mut state = State { clock: 77, ..State::default() };
    state.buffers[3].isa = 9;
    let mut table = before;
    assert_eq!(open(image, &mut table), (number, at, State::default()));
    assert_eq!(run(image, state, &mut table, 5), (number, at, state, 0));
    assert_eq!(refresh(image, &state, 65_535, &mut table), (number, at, 0));
    assert_eq!(trace(image, state, &mut table, 5), (number, at, state, vec![]));
    assert_eq!(run_fresh(image, state, 5), (number, at, state, 0));
    assert_eq!(trace_fresh(image, state, 5), (number, at, state, vec![]));
    assert_eq!(table, before);
    assert_eq!(table_len(image), (number, at, 0));
    assert_eq!(print(image), format!("end {number} 0\n"));
}

/// Holds a decoding and all calls to a refusal with this number at this bit.
fn assert_refused(image: &[u8], number: u8, at: usize, what: &str) {
    let refusal = Refusal { number, at: at as u32 };
    assert_eq!(Model::decode(image).err(), Some(refusal), "{what}");
    check_refused(image, refusal);
}

#[test]
fn every_cut_of_model_a() {
    let packed = pack_with_fields(&model_a());
    for bytes in 0..packed.bytes.len() {
        let at = first_missing(&packed, bytes);
        assert_refused(&packed.bytes[..bytes], 2, at, &format!("cut at {bytes}"));
    }
}

#[test]
fn every_cut_of_random_models() {
    each_seed(20_000, 60, |_, mut rng| {
        let shape = Shape::small(&mut rng);
        let packed = pack_with_fields(&model_of(&mut rng, shape));
        for bytes in 0..packed.bytes.len() {
            let at = first_missing(&packed, bytes) as u32;
            assert_eq!(Model::decode(&packed.bytes[..bytes]).err(), Some(Refusal { number: 2, at }));
        }
    });
}

#[test]
fn every_flipped_bit_of_model_a_is_answered() {
    let image = pack(&model_a());
    for bit in 0..8 * image.len() {
        let mut image = image.clone();
        image[bit / 8] ^= 0x80 >> (bit % 8);
        match Model::decode(&image) {
            Ok(_) => {
                let mut table = vec![0; table_len(&image).2];
                let (number, at, state) = open(&image, &mut table);
                assert_eq!((number, at), (0, 0));
                assert!(matches!(run(&image, state, &mut table, 1_000), (0 | 9, 0, ..)));
            }
            Err(refusal) => {
                assert!(matches!(refusal.number, 2..=4 | 11..=13));
                check_refused(&image, refusal);
            }
        }
    }
}

#[test]
fn pad_bits_and_appended_bytes() {
    let packed = pack_with_fields(&model_a());
    let last = packed.fields.last().expect("fields");
    for bit in last.at + last.width..8 * packed.bytes.len() {
        let mut image = packed.bytes.clone();
        image[bit / 8] |= 0x80 >> (bit % 8);
        assert_refused(&image, 4, 0, &format!("bit {bit}"));
    }
    for byte in [0, 1, 255] {
        assert_refused(&[&packed.bytes[..], &[byte]].concat(), 4, 0, &format!("a byte {byte}"));
    }
}

/// A field by its role and which of that role it is, the number that its rule has, values that break the rule, and some that do not.
type Sides = (Role, usize, u8, &'static [u16], &'static [u16]);

/// The fields of model A that have a rule: the nearest values on its other side, and farther ones.
const SIDES: [Sides; 22] = [
    (Role::Version, 0, 3, &[0, 3, 4, 255], &[1]),
    (Role::Buffers, 0, 3, &[0, 9, 15], &[2]),
    (Role::Rules, 0, 3, &[257, 511], &[3]),
    (Role::Facts, 0, 3, &[513, 1_023], &[2]),
    (Role::SlotCount, 1, 3, &[9, 15], &[2]),
    (Role::OpeningType, 0, 3, &[3, 63], &[1, 2]),
    (Role::FactType, 0, 3, &[0, 3, 63], &[1, 2]),
    (Role::Tests, 0, 3, &[0, 3, 15], &[2]),
    (Role::Actions, 1, 3, &[3, 15], &[2]),
    (Role::Variables, 2, 3, &[9, 15], &[1]),
    (Role::TestType, 0, 3, &[3, 63], &[1, 2]),
    (Role::ActionKind, 0, 3, &[3], &[1]),
    (Role::RequestType, 0, 3, &[0, 3, 63], &[1, 2]),
    (Role::TestMask, 0, 11, &[0x20, 0x21, 0xa0, 0x81, 0xff], &[0x80, 0x40]),
    (Role::TestMask, 1, 11, &[0x80, 0x01], &[0]),
    (Role::ActionMask, 0, 11, &[0x20, 0x01, 0xff], &[0x80, 0x40]),
    (Role::ActionMask, 1, 11, &[0x20, 0x01, 0xff], &[0x80, 0x40]),
    (Role::TestTerm, 1, 12, &[0x1002, 0x1008, 0x1fff], &[0x1000]),
    (Role::ActionTerm, 0, 12, &[0x1001, 0x1fff], &[0, 0xfff, 0x1000]),
    (Role::TestBuffer, 1, 13, &[0, 2, 7], &[1]),
    (Role::ActionBuffer, 0, 13, &[2, 7], &[0, 1]),
    (Role::ActionBuffer, 2, 13, &[0, 2, 7], &[1]),
];

#[test]
fn each_field_on_both_sides_of_its_rule() {
    let packed = pack_with_fields(&model_a());
    for (role, n, refused_as, broken, kept) in SIDES {
        let field = nth(&packed, role, n);
        for &value in broken {
            let what = format!("{role:?} {n} {value}");
            let image = packed.with(&field, value);
            assert_refused(&image, refused_as, field.at, &what);
            // A field is judged before the next is fetched: cut right after it the answer is the same.
            assert_refused(&image[..(field.at + field.width).div_ceil(8)], refused_as, field.at, &what);
        }
        for &value in kept {
            assert_eq!(number(&packed.with(&field, value)), 0, "{role:?} {n} {value}");
        }
    }
}

#[test]
fn a_variable_in_no_test_is_refused_where_the_tests_end() {
    let mut spec = model_a();
    spec.rules[0].variables = 2;
    let packed = pack_with_fields(&spec);
    let at = nth(&packed, Role::ActionBuffer, 0).at;
    assert_refused(&packed.bytes, 12, at, "variable 1 of rule 0");
    // The image may end there: no action field is fetched.
    assert_refused(&packed.bytes[..at.div_ceil(8)], 12, at, "no action is there");
    // A variable of a term that is only in an action does not stand in a test.
    spec.rules[0].actions = vec![ActionSpec::request(1, 1, &[(0, Term::Variable(1))])];
    assert_refused(&pack(&spec), 12, at, "it stands in an action");
    // Nor does one that stands in a test of another rule, and a rule without actions has its tests' end before the next rule.
    spec.rules[0].actions.clear();
    let packed = pack_with_fields(&spec);
    assert_eq!(nth(&packed, Role::Utility, 1).at, at);
    assert_refused(&packed.bytes, 12, at, "the next rule has it");
    spec.rules[0].tests[0] = TestSpec::new(0, 2, &[(0, Term::Variable(0)), (1, Term::Variable(1))]);
    assert_eq!(number(&pack(&spec)), 0);
}

#[test]
fn what_comes_first_is_told() {
    let mut spec = model_a();
    // Behind the tests of rule 0 a variable is missing, and the action's buffer is not there.
    spec.rules[0].variables = 2;
    spec.rules[0].actions[0].buffer = 5;
    let end = nth(&pack_with_fields(&spec), Role::ActionBuffer, 0).at;
    assert_refused(&pack(&spec), 12, end, "the variable before the action");
    // A test before them with a mask that is too long, and the buffer of that test not there.
    spec.rules[0].tests[1].pattern.mask = 1;
    assert_refused(
        &pack(&spec),
        11,
        nth(&pack_with_fields(&spec), Role::TestMask, 1).at,
        "the mask before the variable",
    );
    spec.rules[0].tests[1].isa = 9;
    assert_refused(&pack(&spec), 3, nth(&pack_with_fields(&spec), Role::TestType, 1).at, "the type before its mask");
    spec.rules[0].tests[1].buffer = 0;
    assert_refused(
        &pack(&spec),
        13,
        nth(&pack_with_fields(&spec), Role::TestBuffer, 1).at,
        "the buffer before its type",
    );
    spec.rules[0].tests[0].pattern.terms[0] = Term::Variable(2);
    assert_refused(
        &pack(&spec),
        12,
        nth(&pack_with_fields(&spec), Role::TestTerm, 0).at,
        "the term of the test before",
    );
}

#[test]
fn modify_of_an_untested_buffer_breaks_at_its_kind() {
    let mut spec = model_a();
    // The mask breaks its rule, too, and comes later.
    spec.rules[2].actions = vec![ActionSpec { buffer: 1, deed: Deed::Modify(PatternSpec { mask: 1, terms: vec![] }) }];
    let packed = pack_with_fields(&spec);
    let kind = nth(&packed, Role::ActionKind, 3);
    assert_refused(&packed.bytes, 13, kind.at, "a modify of buffer 1");
    assert_refused(&packed.bytes[..(kind.at + kind.width).div_ceil(8)], 13, kind.at, "cut after the kind");
    spec.rules[2].actions[0].deed = Deed::Forbidden;
    assert_refused(&pack(&spec), 3, kind.at, "kind 3 on an untested buffer");
    spec.rules[2].actions[0].buffer = 2;
    let buffer = nth(&packed, Role::ActionBuffer, 3).at;
    assert_refused(&pack(&spec), 13, buffer, "the buffer comes before the kind");
    spec.rules[2].actions[0] = ActionSpec::clear(1);
    assert_eq!(number(&pack(&spec)), 0);
    // The tested buffer may be modified.
    spec.rules[2].actions[0] = ActionSpec::modify(0, &[]);
    assert_eq!(number(&pack(&spec)), 0);
}

#[test]
fn without_types_facts_and_requests_break_at_their_type() {
    let nil = || vec![ChunkSpec::nil()];
    let spec = ModelSpec { opening: nil(), facts: vec![Default::default()], ..ModelSpec::default() };
    let packed = pack_with_fields(&spec);
    assert_refused(&packed.bytes, 3, nth(&packed, Role::FactType, 0).at, "a fact of type 0");
    let rule = |isa| RuleSpec {
        tests: vec![TestSpec::new(0, 0, &[])],
        actions: vec![ActionSpec::request(0, isa, &[])],
        ..RuleSpec::default()
    };
    for isa in [0, 1, 63] {
        let spec = ModelSpec { opening: nil(), rules: vec![rule(isa)], ..ModelSpec::default() };
        let packed = pack_with_fields(&spec);
        assert_refused(&packed.bytes, 3, nth(&packed, Role::RequestType, 0).at, "a request without types");
    }
    // With 63 types no type field is too large.
    let spec = ModelSpec { types: vec![0; 63], opening: nil(), rules: vec![rule(63)], ..ModelSpec::default() };
    assert_eq!(number(&pack(&spec)), 0);
}

#[test]
fn the_largest_image() {
    // P1 grown with pad bytes: 65,536 bytes are read, one more are not.
    assert_refused(&[&common::P1[..], &[0; 65_528]].concat(), 4, 0, "65,536 bytes");
    assert_refused(&[&common::P1[..], &[0; 65_529]].concat(), 1, 0, "65,537 bytes");
}

#[test]
fn a_header_that_promises_too_much() {
    let spec = model_a();
    let mut header = spec.header();
    header.rules += 1;
    let packed = pack_under(&header, &spec);
    let last = packed.fields.last().expect("fields");
    assert_refused(&packed.bytes, 2, last.at + last.width, "no fourth rule is there");
}

#[test]
fn positions_up_to_the_end_of_the_largest_image() {
    let packed = pack_with_fields(&largest());
    // Every count of it is the highest that its rule allows.
    assert_eq!((packed.bytes.len(), number(&packed.bytes)), (65_536, 0));
    for bytes in 65_500..65_536 {
        let at = first_missing(&packed, bytes);
        assert_refused(&packed.bytes[..bytes], 2, at, &format!("cut at {bytes}"));
    }
    let last = packed.fields.last().expect("fields");
    let mut image = packed.bytes.clone();
    last.set(&mut image, 0x1008);
    assert_eq!((last.role, 8 * image.len() - last.at < 16 + 8), (Role::ActionTerm, true));
    assert_refused(&image, 12, last.at, "variable 8 in the last field");
}

#[test]
fn damaged_images_are_answered() {
    each_seed(30_000, 4_000, |_, mut rng| {
        let spec = model(&mut rng);
        let (_, image) = damage(&mut rng, &pack_with_fields(&spec));
        match Model::decode(&image) {
            Err(refusal) => {
                assert!(matches!(refusal.number, 1..=4 | 11..=13));
                assert!(refusal.at as usize <= 8 * image.len());
                check_refused(&image, refusal);
            }
            Ok(model) => {
                // What is accepted packs back to the same bytes.
                assert_eq!(pack(&common::spec_of(&model)), image);
            }
        }
    });
}

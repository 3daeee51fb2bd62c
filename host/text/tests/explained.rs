//! What is said of refused images: the number, the place, the field, what was found, and the rule that is broken.

mod models;

use jirvuntsag_compare::P1;
use jirvuntsag_packing::{
    model_a, pack, pack_with_fields, retries, ActionSpec, ChunkSpec, ModelSpec, Packed, QuerySpec, Role, TestSpec,
};
use jirvuntsag_text::{read_image, Flaw};
use models::wider;

/// A field, as which of its role; a value that breaks a rule; and what is said to be found.
type Broken<'a> = (Role, usize, u16, &'a str);

/// What is said of an image, which is refused.
fn said(image: &[u8]) -> String {
    read_image(image).expect_err("a refused image").to_string()
}

/// The words before what was found: the number, and the place as bit, byte and bit of it.
fn head(flaw: Flaw, bit: usize) -> String {
    format!("refused by {} at bit {bit} (byte {}, bit {} of it)", flaw.number(), bit / 8, bit % 8)
}

/// Sets fields, each by itself: the rule that is broken, the field's first bit, what was found and what it is held to.
fn check(spec: &ModelSpec, flaw: Flaw, held_to: &str, fields: &[Broken]) {
    let packed = pack_with_fields(spec);
    for &(role, which, value, found) in fields {
        let field = packed.nth(role, which).expect("such a field");
        assert_eq!(
            said(&packed.with(field, value)),
            format!("{}: {found}{held_to} [{}]", head(flaw, field.at), flaw.rule())
        );
    }
}

#[test]
fn versions_and_counts() {
    let (a, buffers) = (model_a(), ", but the image has buffers 0 and 1");
    for (version, found) in [(0, "the version is 0"), (3, "the version is 3"), (4, "the version is 4")] {
        check(&a, Flaw::Version, "", &[(Role::Version, 0, version, found)]);
    }
    check(&a, Flaw::BufferCount, "", &[(Role::Buffers, 0, 9, "the number of buffers is 9")]);
    check(&a, Flaw::BufferCount, "", &[(Role::Buffers, 0, 0, "the number of buffers is 0")]);
    check(&a, Flaw::RuleCount, "", &[(Role::Rules, 0, 257, "the number of rules is 257")]);
    check(&a, Flaw::FactCount, "", &[(Role::Facts, 0, 513, "the number of facts is 513")]);
    check(&a, Flaw::SlotCount, "", &[(Role::SlotCount, 1, 9, "the slot count of type 2 is 9")]);
    check(&a, Flaw::TestCount, "", &[(Role::Tests, 0, 0, "the number of tests of rule 0 is 0")]);
    check(&a, Flaw::TestCount, buffers, &[(Role::Tests, 1, 3, "the number of tests of rule 1 is 3")]);
    check(&a, Flaw::ActionCount, buffers, &[(Role::Actions, 0, 3, "the number of actions of rule 0 is 3")]);
    check(&a, Flaw::VariableCount, "", &[(Role::Variables, 2, 9, "the number of variables of rule 2 is 9")]);
    let four = ", but the image has buffers 0 to 3";
    check(&wider(), Flaw::TestCount, four, &[(Role::Tests, 0, 5, "the number of tests of rule 0 is 5")]);
}

#[test]
fn types_and_kinds() {
    let (a, types) = (model_a(), ", but the image declares types 1 and 2");
    let undeclared = [
        (Role::OpeningType, 0, 3, "the type of the opening of buffer 0 is 3"),
        (Role::FactType, 1, 63, "the type of fact 1 is 63"),
        (Role::TestType, 0, 9, "the type of test 0 of rule 0 is 9"),
        (Role::RequestType, 1, 3, "the type of action 1 of rule 1 is 3"),
    ];
    check(&a, Flaw::UnknownType, types, &undeclared);
    let chunks = [
        (Role::FactType, 0, 0, "the type of fact 0 is 0"),
        (Role::RequestType, 0, 0, "the type of action 0 of rule 0 is 0"),
    ];
    check(&a, Flaw::ChunkType, "", &chunks);
    check(&a, Flaw::ActionKind, "", &[(Role::ActionKind, 3, 3, "the kind of action 0 of rule 2 is 3")]);
    // kind 3 on a buffer that the rule does not test is told as the kind that it is
    check(&wider(), Flaw::ActionKind, "", &[(Role::ActionKind, 1, 3, "the kind of action 1 of rule 0 is 3")]);
    let one = ModelSpec { types: vec![0], opening: vec![ChunkSpec::nil()], ..ModelSpec::default() };
    let opening = [(Role::OpeningType, 0, 2, "the type of the opening of buffer 0 is 2")];
    check(&one, Flaw::UnknownType, ", but the image declares type 1 alone", &opening);
}

#[test]
fn masks() {
    let a = model_a();
    let two = ", but type 2 has slots 0 and 1: bits from 2 on must be 0";
    check(&a, Flaw::UnknownSlot, two, &[(Role::TestMask, 0, 0xa0, "the mask of test 0 of rule 0 is 10100000")]);
    check(&a, Flaw::UnknownSlot, two, &[(Role::ActionMask, 1, 0x81, "the mask of action 0 of rule 1 is 10000001")]);
    let none = ", but type 0 has no slot: bits from 0 on must be 0";
    check(&a, Flaw::UnknownSlot, none, &[(Role::TestMask, 1, 128, "the mask of test 1 of rule 0 is 10000000")]);
    let seven = ", but type 2 has slots 0 to 6: bits from 7 on must be 0";
    let masks = [
        (Role::TestMask, 0, 0xff, "the mask of test 0 of rule 0 is 11111111"),
        (Role::ActionMask, 0, 1, "the mask of action 0 of rule 0 is 00000001"),
    ];
    check(&wider(), Flaw::UnknownSlot, seven, &masks);
}

#[test]
fn variables() {
    let one = ", but the rule has variable 0 alone";
    let terms = [
        (Role::TestTerm, 0, 0x1001, "the term for slot 0 of test 0 of rule 0 is variable 1"),
        (Role::ActionTerm, 0, 0x1fff, "the term for slot 0 of action 0 of rule 0 is variable 4095"),
    ];
    check(&model_a(), Flaw::UnknownVariable, one, &terms);
    let three = ", but the rule has variables 0 to 2";
    let term = [(Role::ActionTerm, 0, 0x1003, "the term for slot 6 of action 0 of rule 0 is variable 3")];
    check(&wider(), Flaw::UnknownVariable, three, &term);
    let mut spec = model_a();
    spec.rules[0].variables = 0;
    let none = ": the term for slot 0 of test 0 of rule 0 is variable 0, but the rule has no variable";
    assert!(said(&pack(&spec)).contains(none));
}

/// The place is the bit after the last test, whether an action follows it, a rule, or nothing.
#[test]
fn variables_in_no_test() {
    let mut spec = model_a();
    for (rule, after) in [(0, 296), (1, 429), (2, 558)] {
        let variable = spec.rules[rule].variables;
        spec.rules[rule].variables += 1;
        let found =
            format!("variable {variable} of rule {rule} stands in none of its tests, which end before this bit");
        let wanted = format!("{}: {found} [{}]", head(Flaw::UntestedVariable, after), Flaw::UntestedVariable.rule());
        assert_eq!(said(&pack(&spec)), wanted);
        spec.rules[rule].variables -= 1;
    }
    spec.rules[2].actions.clear();
    spec.rules[2].variables = 8;
    assert!(said(&pack(&spec)).contains("at bit 558 (byte 69, bit 6 of it): variable 1 of rule 2 "));
    spec.rules.truncate(1);
    // an image that ends with the test, at a byte's end: the place is that end
    spec.rules[0].actions.clear();
    spec.rules[0].variables = 2;
    let image = pack(&spec);
    assert_eq!((image.len(), read_image(&image).expect_err("a variable in no test").position()), (37, 296));
}

#[test]
fn buffers() {
    let (a, two) = (model_a(), ", but the image has buffers 0 and 1");
    let unknown = [
        (Role::TestBuffer, 0, 5, "the buffer of test 0 of rule 0 is 5"),
        (Role::ActionBuffer, 3, 2, "the buffer of action 0 of rule 2 is 2"),
    ];
    check(&a, Flaw::UnknownBuffer, two, &unknown);
    let falling = [
        (Role::TestBuffer, 1, 0, "the buffer of test 1 of rule 0 is 0, but the one before it is 0"),
        (Role::ActionBuffer, 2, 0, "the buffer of action 1 of rule 1 is 0, but the one before it is 0"),
    ];
    check(&a, Flaw::BufferOrder, "; the image has buffers 0 and 1", &falling);
    let four = "; the image has buffers 0 to 3";
    let falling = [(Role::ActionBuffer, 2, 1, "the buffer of action 2 of rule 0 is 1, but the one before it is 2")];
    check(&wider(), Flaw::BufferOrder, four, &falling);
    let untested = "the kind of action 1 of rule 0 is 0 (modify) of buffer 2, but the rule tests buffers 0, 1, 3";
    check(&wider(), Flaw::UntestedBuffer, four, &[(Role::ActionKind, 1, 0, untested)]);
    let mut alone = model_a();
    alone.opening.truncate(1);
    alone.rules = vec![alone.rules.remove(2)];
    let unknown = [(Role::ActionBuffer, 0, 7, "the buffer of action 0 of rule 0 is 7")];
    check(&alone, Flaw::UnknownBuffer, ", but the image has buffer 0 alone", &unknown);
    alone.opening.push(ChunkSpec::nil());
    alone.rules[0].tests = vec![TestSpec::new(1, 0, &[])];
    alone.rules[0].variables = 0;
    let untested = "the kind of action 0 of rule 0 is 0 (modify) of buffer 0, but the rule tests buffer 1";
    let kind = [(Role::ActionKind, 0, 0, untested)];
    check(&alone, Flaw::UntestedBuffer, "; the image has buffers 0 and 1", &kind);
}

/// The fields of queries, each by its name.
#[test]
fn queries() {
    let (spec, two) = (retries(), "image has buffers 0 and 1");
    let counts = [(Role::Queries, 1, 3, "the number of queries of rule 1 is 3")];
    check(&spec, Flaw::QueryCount, &format!(", but the {two}"), &counts);
    check(&spec, Flaw::QueryKind, "", &[(Role::QueryKind, 0, 3, "the kind of query 0 of rule 0 is 3")]);
    let unknown = [(Role::QueryBuffer, 2, 2, "the buffer of query 1 of rule 1 is 2")];
    check(&spec, Flaw::UnknownBuffer, &format!(", but the {two}"), &unknown);
    let falling = [(Role::QueryBuffer, 2, 0, "the buffer of query 1 of rule 1 is 0, but the one before it is 0")];
    check(&spec, Flaw::BufferOrder, &format!("; the {two}"), &falling);
}

/// A rule without tests needs a query in version 2, which is judged at their number; in version 1 it needs a test.
#[test]
fn rules_without_tests() {
    check(&retries(), Flaw::QueryCount, "", &[(Role::Queries, 1, 0, "the number of queries of rule 1 is 0")]);
    let packed = pack_with_fields(&ModelSpec { version: Some(1), ..retries() });
    let tests = packed.nth(Role::Tests, 1).expect("those of rule 1").at;
    let found = "the number of tests of rule 1 is 0";
    assert_eq!(said(&packed.bytes), format!("{}: {found} [{}]", head(Flaw::TestCount, tests), Flaw::TestCount.rule()));
}

#[test]
fn a_buffer_that_is_only_queried_is_untested() {
    let mut spec = retries();
    let found = |spec: &ModelSpec| {
        let said = said(&pack(spec));
        let (_, found) =
            said.split_once(": the kind of action 0 of rule 1 is 0 (modify) of buffer 1, but the rule tests ")?;
        found.split_once("; the image has buffers 0 and 1 [").map(|(found, _)| found.to_owned())
    };
    spec.rules[1].actions = vec![ActionSpec::modify(1, &[])];
    assert_eq!(found(&spec).as_deref(), Some("no buffer and only queries this one"));
    spec.rules[1].queries.pop();
    assert_eq!(found(&spec).as_deref(), Some("no buffer"));
    spec.rules[1].tests = vec![TestSpec::new(0, 0, &[])];
    spec.rules[1].queries = vec![QuerySpec::free(1)];
    assert_eq!(found(&spec).as_deref(), Some("buffer 0 and only queries this one"));
}

/// A variable in no test is refused before the number of queries is read, even if that is bad, or not wholly there.
#[test]
fn variables_are_checked_before_the_queries() {
    let packed = pack_with_fields(&retries());
    let field = |role| packed.nth(role, 0).expect("such a field");
    let (variables, count) = (field(Role::Variables), field(Role::Queries));
    let mut image = packed.with(variables, 2);
    count.set(&mut image, 15);
    let found = format!("{}: variable 1 of rule 0 stands in none of its tests", head(Flaw::UntestedVariable, count.at));
    for image in [&image[..], &image[..count.at.div_ceil(8)]] {
        assert!(said(image).starts_with(&found), "{}", said(image));
    }
}

/// Each field that an image can be cut in is named, with the bits that it needs and those that are left.
#[test]
fn fields_that_are_cut() {
    let packed = pack_with_fields(&model_a());
    for packed in [&packed, &pack_with_fields(&retries())] {
        assert_cuts_are_named(packed);
    }
    let second = "the value of slot 1 of the opening of buffer 0 needs 12 bits, but only 1 bit is left";
    assert!(said(&packed.bytes[..10]).contains(second));
}

fn assert_cuts_are_named(packed: &Packed) {
    for bytes in 0..packed.bytes.len() {
        let field = packed.first_missing(bytes).expect("a field that is cut");
        let left = match 8 * bytes - field.at {
            0 => "no bit is left".to_owned(),
            1 => "only 1 bit is left".into(),
            left => format!("only {left} bits are left"),
        };
        let end = format!(" needs {} bits, but {left} [every field must be wholly there]", field.width);
        let said = said(&packed.bytes[..bytes]);
        assert!(
            said.starts_with(&format!("{}: the ", head(Flaw::Missing, field.at))) && said.ends_with(&end),
            "{said}"
        );
    }
}

/// P1 and its neighbours.
#[test]
fn ends() {
    assert!(read_image(&P1).is_ok());
    let cut =
        "refused by 2 at bit 53 (byte 6, bit 5 of it): the type of the opening of buffer 0 needs 6 bits, but only 3 \
               bits are left [every field must be wholly there]";
    assert_eq!(said(&P1[..7]), cut);
    let only = "[only zero bits up to the byte's end may follow the last field]";
    let longer = [&P1[..], &[0]].concat();
    assert_eq!(said(&longer), format!("refused by 4: the last field ends in byte 7, but the image has 9 bytes {only}"));
    let padded = [&P1[..7], &[0x10]].concat();
    let pad = "bit 59 (byte 7, bit 3 of it) is 1, but the last field ends before bit 59";
    assert_eq!(said(&padded), format!("refused by 4: {pad} {only}"));
    let typed = [&P1[..7], &[0x20]].concat();
    assert!(said(&typed).contains(": the type of the opening of buffer 0 is 1, but the image declares no type ["));
    let large = "refused by 1: it has 65537 bytes [an image must have at most 65,536 bytes]";
    assert_eq!(said(&[0; 65_537]), large);
}

#[test]
fn a_main_that_gives_it_up_prints_the_sentence() {
    let refused = read_image(&[4]).expect_err("another version");
    assert_eq!((refused.flaw, refused.number(), refused.position()), (Flaw::Version, 3, 0));
    assert_eq!(format!("{refused:?}"), refused.to_string());
}

//! What the command says of a refused image and of a text that breaks a rule, by every subcommand that reads one.

use std::path::Path;
use std::process::Command;

use jirvuntsag_packing::{model_a, pack, pack_with_fields, retries, ActionSpec, ModelSpec, Role};

/// The subcommands that read an image; those that run it need the library.
const READING: [&str; 5] = ["check", "unpack", "trace", "explain", "compare"];

/// What a subcommand says of bytes in a file of this name: they are refused, and nothing is printed.
fn said(subcommand: &str, name: &str, bytes: &[u8]) -> String {
    let folder = Path::new(env!("CARGO_TARGET_TMPDIR"));
    std::fs::write(folder.join(name), bytes).expect("the file");
    let mut command = Command::new(env!("CARGO_BIN_EXE_jirvuntsag-tool"));
    let output = command.args([subcommand, name]).current_dir(folder).output().expect("the command");
    assert!(output.status.code() == Some(1) && output.stdout.is_empty(), "{subcommand}: {output:?}");
    String::from_utf8(output.stderr).expect("text")
}

/// Every subcommand explains an image by the same line.
fn check(name: &str, image: &[u8], wanted: &str) {
    let there = if cfg!(feature = "proved") { &READING[..] } else { &READING[..2] };
    for subcommand in there {
        assert_eq!(said(subcommand, name, image), format!("{name}: {wanted}\n"), "{subcommand}");
    }
}

/// Model A with a field, as which of its role, set to a value.
fn with(role: Role, which: usize, value: u16) -> Vec<u8> {
    altered(&model_a(), role, which, value)
}

/// A model's image with a field, as which of its role, set to a value.
fn altered(spec: &ModelSpec, role: Role, which: usize, value: u16) -> Vec<u8> {
    let packed = pack_with_fields(spec);
    packed.with(packed.nth(role, which).expect("such a field"), value)
}

#[test]
fn fields_by_name_byte_and_bit() {
    check(
        "kind.image",
        &with(Role::ActionKind, 0, 3),
        "refused by 3 at bit 299 (byte 37, bit 3 of it): the kind of action 0 of rule 0 is 3 \
         [an action must be of kind 0 (modify), 1 (request) or 2 (clear)]",
    );
    check(
        "mask.image",
        &with(Role::TestMask, 0, 0xa0),
        "refused by 11 at bit 258 (byte 32, bit 2 of it): the mask of test 0 of rule 0 is 10100000, but type 2 has slots \
         0 and 1: bits from 2 on must be 0 [a test or an action must name only slots that its type has]",
    );
    check(
        "term.image",
        &with(Role::TestTerm, 0, 0x1001),
        "refused by 12 at bit 266 (byte 33, bit 2 of it): the term for slot 0 of test 0 of rule 0 is variable 1, but the \
         rule has variable 0 alone [a term must name only a variable that its rule has]",
    );
    check(
        "variable.image",
        &with(Role::Variables, 0, 2),
        "refused by 12 at bit 296 (byte 37, bit 0 of it): variable 1 of rule 0 stands in none of its tests, which end \
         before this bit [every variable of a rule must stand in one of its tests]",
    );
}

#[test]
fn the_three_reasons_of_13() {
    check(
        "unknown.image",
        &with(Role::TestBuffer, 0, 5),
        "refused by 13 at bit 249 (byte 31, bit 1 of it): the buffer of test 0 of rule 0 is 5, but the image has buffers \
         0 and 1 [a test, a query or an action must name a buffer that exists]",
    );
    check(
        "order.image",
        &with(Role::TestBuffer, 1, 0),
        "refused by 13 at bit 279 (byte 34, bit 7 of it): the buffer of test 1 of rule 0 is 0, but the one before it is \
         0; the image has buffers 0 and 1 [buffers must rise among a rule's tests, its queries and its actions, each once \
         at most]",
    );
    let mut spec = model_a();
    spec.rules[2].actions = vec![ActionSpec::modify(1, &[])];
    check(
        "untested.image",
        &pack(&spec),
        "refused by 13 at bit 561 (byte 70, bit 1 of it): the kind of action 0 of rule 2 is 0 (modify) of buffer 1, but \
         the rule tests buffer 0; the image has buffers 0 and 1 [a rule must test each buffer that it modifies]",
    );
}

/// The fields of queries, which images of version 2 have.
#[test]
fn queries_by_name_byte_and_bit() {
    check(
        "version.image",
        &altered(&retries(), Role::Version, 0, 3),
        "refused by 3 at bit 0 (byte 0, bit 0 of it): the version is 3 [the version must be 1 or 2]",
    );
    check(
        "count.image",
        &altered(&retries(), Role::Queries, 1, 0),
        "refused by 3 at bit 291 (byte 36, bit 3 of it): the number of queries of rule 1 is 0 \
         [a rule must have a test or a query, and at most one query for each buffer]",
    );
    check(
        "asked.image",
        &altered(&retries(), Role::QueryBuffer, 0, 7),
        "refused by 13 at bit 226 (byte 28, bit 2 of it): the buffer of query 0 of rule 0 is 7, but the image has buffers \
         0 and 1 [a test, a query or an action must name a buffer that exists]",
    );
    check(
        "query.image",
        &altered(&retries(), Role::QueryKind, 2, 3),
        "refused by 3 at bit 303 (byte 37, bit 7 of it): the kind of query 1 of rule 1 is 3 \
         [a query must be of kind 0 (busy), 1 (free) or 2 (error)]",
    );
}

#[test]
fn images_of_a_wrong_length() {
    let image = pack(&model_a());
    check(
        "cut.image",
        &image[..70],
        "refused by 2 at bit 558 (byte 69, bit 6 of it): the buffer of action 0 of rule 2 needs 3 bits, but only 2 bits \
         are left [every field must be wholly there]",
    );
    let only = "[only zero bits up to the byte's end may follow the last field]";
    let longer = [&image[..], &[0, 0]].concat();
    check(
        "longer.image",
        &longer,
        &format!("refused by 4: the last field ends in byte 70, but the image has 73 bytes {only}"),
    );
    check("large.image", &[1; 65_537], "refused by 1: it has 65537 bytes [an image must have at most 65,536 bytes]");
}

/// A text is told the rules in the words and by the numbers that an image is.
#[test]
fn texts_break_the_same_rules() {
    let text = "type t a\nbuffer goal\nbuffer other\nrule r variables ?x ?y\n  =goal> t a ?x\n  ==>\n  =other> a ?x\n";
    let untested = "m.model:7:3: rule 'r' modifies buffer 'other' and does not test it \
                    [13: a rule must test each buffer that it modifies]\n";
    let variable = "m.model:4:21: variable '?y' stands in no test of rule 'r' \
                    [12: every variable of a rule must stand in one of its tests]\n";
    for subcommand in ["check", "pack"] {
        assert_eq!(said(subcommand, "m.model", text.as_bytes()), untested);
        let tested = text.replace("=other> a ?x", "");
        assert_eq!(said(subcommand, "m.model", tested.as_bytes()), variable);
    }
}

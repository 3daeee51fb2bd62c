//! One table of rules: a text that breaks one, and the image that would be packed of it, are refused by the same.

use jirvuntsag_packing::{pack, ActionSpec, ChunkSpec, Deed, FactSpec, ModelSpec, QuerySpec, RuleSpec, Term, TestSpec};
use jirvuntsag_text::{read_image, Flaw, Model, TextError};

/// The model that each row changes.
const TEXT: &str = "type pair first second
buffer goal pair first 1
buffer retrieval
rule r
  =goal> pair first ?a
  ==>
  =goal> second ?a
";

/// The same in numbers.
fn spec() -> ModelSpec {
    Model::from_text(TEXT).expect("a model").spec().clone()
}

/// What a text is refused for.
fn fault(text: &str) -> TextError {
    Model::from_text(text).expect_err(text)
}

/// A rule; how the model in numbers comes to break it; and the text that would say that model.
type Row = (Flaw, fn(&mut ModelSpec), fn() -> String);

/// The text with other words in one place.
fn with(old: &str, new: &str) -> String {
    assert_eq!(TEXT.matches(old).count(), 1, "{old}");
    TEXT.replace(old, new)
}

/// The text with many lines more.
fn and_many(count: usize, line: impl Fn(usize) -> String) -> String {
    TEXT.to_owned() + &(0..count).map(line).collect::<String>()
}

/// The terms of the first rule's first test.
fn terms(spec: &mut ModelSpec) -> &mut Vec<Term> {
    &mut spec.rules[0].tests[0].pattern.terms
}

/// A fact of no slots.
fn fact(isa: u8) -> FactSpec {
    FactSpec { chunk: ChunkSpec::new(isa, &[]), ..FactSpec::default() }
}

const ROWS: [Row; 19] = [
    (Flaw::BufferCount, |spec| spec.opening = vec![ChunkSpec::nil(); 9], || and_many(7, |n| format!("buffer b{n}\n"))),
    (Flaw::BufferCount, |spec| spec.opening.clear(), String::new),
    (
        Flaw::RuleCount,
        |spec| spec.rules = vec![RuleSpec::default(); 257],
        || and_many(256, |n| format!("rule r{n}\n =goal> chunk\n ==>\n")),
    ),
    (Flaw::FactCount, |spec| spec.facts = vec![fact(1); 513], || and_many(513, |_| "fact pair\n".into())),
    (Flaw::SlotCount, |spec| spec.types[0] = 9, || with("first second", "first second 3 4 5 6 7 8 9")),
    (Flaw::UnknownType, |spec| spec.opening[0] = ChunkSpec::new(2, &[]), || with("goal pair", "goal pears")),
    (Flaw::UnknownType, |spec| spec.rules[0].tests[0].isa = 2, || with("=goal> pair", "=goal> pears")),
    (Flaw::ChunkType, |spec| spec.facts = vec![fact(0)], || and_many(1, |_| "fact chunk\n".into())),
    (
        Flaw::ChunkType,
        |spec| spec.rules[0].actions[0].deed = Deed::Request(0, Default::default()),
        || with("=goal> second ?a", "+goal> chunk"),
    ),
    (Flaw::Version, |spec| spec.version = Some(3), || "version 3\n".to_owned() + TEXT),
    (
        Flaw::QueryCount,
        |spec| {
            spec.rules[0].tests.clear();
            spec.rules[0].variables = 0;
        },
        || with("  =goal> pair first ?a\n", ""),
    ),
    (
        Flaw::VariableCount,
        |spec| spec.rules[0].variables = 9,
        || with("rule r", "rule r variables ?1 ?2 ?3 ?4 ?5 ?6 ?7 ?8 ?9"),
    ),
    (Flaw::UnknownSlot, |spec| spec.rules[0].tests[0].pattern.mask = 0x20, || with("pair first ?a", "pair third ?a")),
    (Flaw::UnknownVariable, |spec| terms(spec)[0] = Term::Variable(1), || with("rule r", "rule r variables ?b")),
    (Flaw::UntestedVariable, |spec| terms(spec)[0] = Term::Symbol(1), || with("first ?a", "first 1")),
    (Flaw::UnknownBuffer, |spec| spec.rules[0].tests[0].buffer = 2, || with("=goal> pair", "=gaol> pair")),
    (
        Flaw::UnknownBuffer,
        |spec| spec.rules[0].queries = vec![QuerySpec::free(2)],
        || with("  ==>", "  ?gaol> state free\n  ==>"),
    ),
    (
        Flaw::UntestedBuffer,
        |spec| {
            spec.rules[0].queries = vec![QuerySpec::free(1)];
            spec.rules[0].actions = vec![ActionSpec::modify(1, &[])];
        },
        || with("  ==>\n  =goal> second ?a", "  ?retrieval> state free\n  ==>\n  =retrieval>"),
    ),
    (
        Flaw::UntestedBuffer,
        |spec| spec.rules[0].actions = vec![ActionSpec::modify(1, &[])],
        || with("=goal> second ?a", "=retrieval>"),
    ),
];

#[test]
fn a_text_breaks_the_rule_that_its_image_would() {
    for (flaw, change, text) in ROWS {
        let mut spec = spec();
        change(&mut spec);
        assert_eq!(read_image(&pack(&spec)).expect_err("refused").flaw, flaw);
        let fault = fault(&text());
        assert_eq!(fault.flaw, Some(flaw), "{fault}");
        assert!(fault.to_string().ends_with(&format!(" [{}: {}]", flaw.number(), flaw.rule())), "{fault}");
    }
}

/// A text may have its tests, queries and actions in any order, but a buffer in each only once.
#[test]
fn a_buffer_that_stands_twice() {
    let twice = [
        with("pair first ?a\n", "pair first ?a\n  =goal> pair\n"),
        with("  ==>", "  ?goal> state free\n  ?goal> state error\n  ==>"),
        with("second ?a", "second ?a\n  -goal>"),
    ];
    for text in twice {
        assert_eq!(fault(&text).flaw, Some(Flaw::BufferOrder));
    }
    let (mut tested, mut asked) = (spec(), spec());
    tested.rules[0].tests.push(TestSpec::new(0, 1, &[]));
    asked.rules[0].queries = vec![QuerySpec::free(0), QuerySpec::error(0)];
    for spec in [tested, asked] {
        assert_eq!(read_image(&pack(&spec)).expect_err("refused").flaw, Flaw::BufferOrder);
    }
}

/// Those that no text can break are the packer's own: it writes whole fields with zeros after them, kinds that there are, and
/// version 2 where a rule has no test.
#[test]
fn what_no_text_can_break() {
    let rows = ROWS.iter().map(|(flaw, ..)| *flaw).chain([Flaw::BufferOrder, Flaw::TooLong]);
    let breakable: Vec<Flaw> = rows.collect();
    let others: Vec<Flaw> = Flaw::ALL.into_iter().filter(|flaw| !breakable.contains(flaw)).collect();
    let own = [Flaw::TestCount, Flaw::ActionCount, Flaw::QueryKind, Flaw::ActionKind, Flaw::Follows];
    assert_eq!(others, [&[Flaw::Missing], &own[..]].concat());
}

/// A fact or an opening has a value for each slot and no mask, and no image can say what these texts say.
#[test]
fn what_no_image_can_hold_has_no_number() {
    let texts = [
        with("goal pair first", "goal pair third"),
        with("first ?a", "- first ?a"),
        with("  ==>", "  ?goal> buffer full\n  ==>"),
        with("  ==>", "  ?goal> - state busy\n  ==>"),
        with("buffer retrieval", "buffer retrieval pair first ?x"),
        and_many(63, |n| format!("type t{n}\n")),
        and_many(1, |_| "rule s utility 40\n".into()),
    ];
    for text in texts {
        let fault = fault(&text);
        assert_eq!(fault.flaw, None, "{fault}");
        assert!(!fault.to_string().ends_with(']'), "{fault}");
    }
}

#[test]
fn every_rule_has_its_number_and_words_of_its_own() {
    let numbers: Vec<u8> = Flaw::ALL.iter().map(|flaw| flaw.number()).collect();
    assert_eq!(numbers, [1, 2, 3, 3, 3, 3, 3, 3, 3, 3, 3, 3, 3, 3, 3, 4, 11, 12, 12, 13, 13, 13]);
    for (at, flaw) in Flaw::ALL.iter().enumerate() {
        assert!(!Flaw::ALL[..at].iter().any(|other| other.rule() == flaw.rule()), "{flaw:?}");
    }
}

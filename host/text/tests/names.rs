//! The file of names: written, read again, and refused where it is no such file.

use jirvuntsag_packing::{model_a, pack, QuerySpec};
use jirvuntsag_proved::{Chunk, Store};
use jirvuntsag_text::{Model, Names};

/// The file of names of model A's invented names.
const MODEL_A: &str = r#"{
  "buffers": ["b0", "b1"],
  "types": [
    {"name": "chunk", "slots": []},
    {"name": "t1", "slots": ["s0", "s1"]},
    {"name": "t2", "slots": ["s0", "s1"]}
  ],
  "symbols": {
    "0": "nil"
  },
  "rules": [
    {"name": "r0", "variables": ["v0"]},
    {"name": "r1", "variables": ["v0", "v1"]},
    {"name": "r2", "variables": ["v0"]}
  ]
}
"#;

#[test]
fn written_as_shown() {
    assert_eq!(Names::invented(&model_a()).to_json(), MODEL_A);
}

#[test]
fn read_as_written() {
    let mut names = Names::invented(&model_a());
    names.symbols.insert(4_095, "\"\\\u{1}\u{1f600}".into());
    assert_eq!(Names::from_json(&names.to_json()), Ok(names));
    assert_eq!(Names::from_json(&Names::new().to_json()), Ok(Names::new()));
}

#[test]
fn escapes_and_other_members() {
    let text = r#"{"made":[1,-2.5e3,null,true,{}], "buffers":["\u0067o\u0061l", "\ud83d\ude00\t\/"],
        "types":[],"symbols":{},"rules":[]}"#;
    let names = Names::from_json(text).expect("names");
    assert_eq!(names.buffers, ["goal", "\u{1f600}\t/"]);
}

/// Files that are refused, and how.
const REFUSED: [(&str, &str); 14] = [
    ("", "1:1: expected a value, found the end"),
    ("[1, 2", "1:6: expected ']', found the end"),
    ("{\n \"a\" 1}", "2:6: expected ':', found '1'"),
    ("[\"a\n\"]", "2:1: a string that does not end on its line"),
    ("[\"\\x\"]", "1:5: an unknown escape after '\\'"),
    ("[\"\\ud800\"]", "1:10: a code that is no character"),
    ("[1] 2", "1:5: '2' after the end of the value"),
    ("[nan]", "1:5: 'nan' is no JSON value"),
    (r#"{"a": 1, "a": 2}"#, "1:13: the member 'a' stands twice"),
    (r#"{"buffers":[],"types":[],"symbols":{"01":"a"}}"#, " symbols: '01' is no symbol number, 0 to 4095"),
    (r#"{"buffers":[],"types":[],"symbols":{"+1":"a"}}"#, " symbols: '+1' is no symbol number, 0 to 4095"),
    ("[]", " the file: expected an object"),
    (r#"{"buffers": []}"#, " names without \"types\""),
    (r#"{"buffers":[],"types":[],"symbols":{"4096":"a"}}"#, " symbols: '4096' is no symbol number, 0 to 4095"),
];

#[test]
fn what_is_no_file_of_names_is_refused() {
    for (text, message) in REFUSED {
        let error = Names::from_json(text).expect_err(text);
        assert_eq!(error.to_string(), message, "{text}");
    }
    let deep = "[".repeat(100_000);
    assert!(Names::from_json(&deep).expect_err("too deep").message.contains("more than 64"));
}

/// What is said of model A's names after a change.
fn unfit(change: impl Fn(&mut Names)) -> String {
    let model = Model::from_image(&pack(&model_a())).expect("model A");
    let mut names = model.names().clone();
    change(&mut names);
    let said = model.with_names(names).expect_err("names that do not fit").message;
    said.strip_prefix("the names do not fit the model: ").expect("these words").into()
}

#[test]
fn names_of_another_model_are_refused() {
    let twice = |names: &mut Vec<String>| names[1] = names[0].clone();
    assert_eq!(unfit(|names| names.buffers.truncate(1)), "1 buffers are named and 2 are there");
    assert_eq!(unfit(|names| twice(&mut names.buffers)), "buffer 'b0' is declared twice");
    assert_eq!(unfit(|names| names.buffers[1] = "a>".into()), "'>' cannot stand in the name of a buffer");
    assert_eq!(unfit(|names| names.types.truncate(2)), "1 declared types are named and 2 are there");
    assert_eq!(unfit(|names| names.types[0].name = "nil".into()), "the first type is 'chunk', without slots");
    assert_eq!(unfit(|names| names.types.clear()), "the first type is 'chunk', without slots");
    assert_eq!(unfit(|names| names.types[2].name = "t1".into()), "type 't1' is declared twice");
    assert_eq!(unfit(|names| names.types[1].slots.truncate(1)), "1 slots of type 't1' are named and 2 are there");
    assert_eq!(unfit(|names| twice(&mut names.types[1].slots)), "slot 's0' is named twice");
    assert_eq!(unfit(|names| names.rules.truncate(1)), "1 rules are named and 3 are there");
    assert_eq!(unfit(|names| names.rules[1].name = "r0".into()), "rule 'r0' stands twice");
    assert_eq!(unfit(|names| names.rules[0].variables.clear()), "0 variables of rule 'r0' are named and 1 are there");
    assert_eq!(unfit(|names| twice(&mut names.rules[1].variables)), "variable 'v0' stands twice");
    assert_eq!(unfit(|names| names.rules[0].name = "a b".into()), "' ' cannot stand in a name");
    assert_eq!(unfit(|names| names.symbols.clear()), "symbol 0 is 'nil'");
    assert_eq!(unfit(|names| names.symbols.extend([(1, "a".into()), (2, "a".into())])), "symbol 'a' stands twice");
    let borrowed = "symbol 1 is called 'x2' as symbol 2 would be, which has no name";
    assert_eq!(unfit(|names| names.symbols.extend([(1, "x2".into())])), borrowed);
}

#[test]
fn a_chunk_is_printed_by_its_names() {
    let model = Model::from_text("type sum first second\nbuffer goal sum first one second two\n").expect("a model");
    let names = model.names();
    assert_eq!(names.chunk(1, &[1, 2, 0, 0, 0, 0, 0, 0]), "sum first=one second=two");
    assert_eq!(names.chunk(1, &[0, 9, 0, 0, 0, 0, 0, 0]), "sum first=nil second=x9");
    assert_eq!((names.chunk(0, &[0; 8]), names.chunk(7, &[1; 8])), ("chunk".into(), "t7".into()));
}

#[test]
fn a_query_is_printed_by_its_names() {
    let model = Model::from_text("buffer goal\nbuffer retrieval\n").expect("a model");
    let queries = [QuerySpec::busy(0), QuerySpec::free(1), QuerySpec::error(1)];
    let printed = queries.map(|query| model.names().query(&query));
    assert_eq!(printed, ["?goal> state busy", "?retrieval> state free", "?retrieval> state error"]);
}

#[test]
fn a_store_is_printed_by_its_names() {
    let model = Model::from_text("type sum first second\nbuffer goal sum first one second two\n").expect("a model");
    let fact = |first, second| Chunk { isa: 1, slots: [first, second, 0, 0, 0, 0, 0, 0] };
    let store = Store::from_facts(&[fact(1, 2), fact(2, 0)]).expect("two facts");
    assert_eq!(model.names().store(store.facts()), "sum first=one second=two\nsum first=two second=nil\n");
    assert_eq!(model.names().store([(1, [1, 9, 0, 0, 0, 0, 0, 0])]), "sum first=one second=x9\n");
    assert_eq!(model.names().store(Store::new().facts()), "");
}

#[test]
fn a_main_that_gives_it_up_prints_the_sentence() {
    let printed = |text: &str| format!("Error: {:?}", Model::from_text(text).expect_err(text));
    assert_eq!(printed("type chunk"), "Error: 1:6: type 'chunk' is declared twice");
    assert_eq!(printed(""), "Error: no buffer is declared [3: there must be 1 to 8 buffers]");
}

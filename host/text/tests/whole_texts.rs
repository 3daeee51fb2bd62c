//! A text is read whole: all its faults in one pass, none that merely follows from another, and what may be mistyped.

use jirvuntsag_text::{Flaw, Lone, Model};

/// All that is said of a text that is no model.
fn faults(text: &str) -> Vec<String> {
    Model::read(text).model.expect_err("faults").iter().map(|fault| fault.in_file("m")).collect()
}

/// Ten faults, of each kind of line, and much that is right between them.
const WRONG: &str = "failure latency soon
type pair first latency second
type other
fact pair first 1 third 2
fact pairs first 1
buffer goal pair frist 1
buffer retrieval
rule start utility 40
  =goal> pair first ?a
  ==>
  =goal> second ?a
rule next
  =goal> pair first ?a
  =retrieval> pear first ?a
  ==>
  =retrieval> first ?b
  +gaol> pair
rule last
  =goal> pair second ?c
(p stop
  =goal> pair second ?c
rule end
  =goal> pair first ?x
  ==>
  -goal>
";

#[test]
fn all_faults_are_told_in_one_pass() {
    let undeclared = |found: &str| Flaw::UnknownType.told(format!("{found} is not declared (chunk, pair, other)"));
    let wanted = [
        "m:1:17: a latency is a whole number from 0 to 65535, not 'soon'".to_owned(),
        "m:2:17: 'latency' has a meaning of its own and cannot be a slot".into(),
        "m:4:19: slot 'third' is not a slot of type 'pair' (first, second)".into(),
        undeclared("m:5:6: type 'pairs'"),
        "m:6:18: slot 'frist' is not a slot of type 'pair' (first, second)".into(),
        "m:8:20: a utility is a number from -32.768 to 32.767 with at most three decimals, not '40'".into(),
        undeclared("m:14:15: type 'pear'"),
        Flaw::UnknownBuffer.told("m:17:3: buffer 'gaol' is not declared (goal, retrieval)"),
        "m:18:6: rule 'last' has no line '==>' between tests and actions".into(),
        "m:20:1: '(p' is ACT-R's: write 'rule NAME', and below it the tests, '==>' and the actions, each on its line; \
         a variable is '?name'"
            .into(),
    ];
    assert_eq!(faults(WRONG), wanted);
    let first = Model::from_text(WRONG).expect_err("a fault");
    assert_eq!(first.in_file("m"), wanted[0]);
}

/// A rule as ACT-R writes it, with slots on lines of their own: each is answered, and the rule is not said to lack what stands below.
#[test]
fn slots_on_lines_of_their_own_are_answered() {
    let text = "type pair first second
buffer goal pair first 1
rule start
  =goal>
    isa pair
    first ?n
  ==>
  !output! ?n
  =goal>
    second ?n
rule end
  =goal> pair
  ==>
";
    let within =
        "begins no line; a line begins with =BUFFER>, ?BUFFER>, +BUFFER>, -BUFFER> or ==> within a rule, where slots \
         stand behind it, or else with version, failure, symbol, type, buffer, fact or rule";
    let wanted = [
        "m:4:9: the line ends where a type is expected".to_owned(),
        "m:5:5: 'isa' is ACT-R's: the type stands behind the buffer, on its line: '=goal> TYPE SLOT TERM ..'".into(),
        format!("m:6:5: 'first' {within}"),
        "m:8:3: '!output!' is ACT-R's: a rule prints nothing; leave it out, the trace tells each firing".into(),
        format!("m:10:5: 'second' {within}"),
    ];
    assert_eq!(faults(text), wanted);
}

/// What is said of a wrong query is one fault, wherever its words stand, and the rule is not said to lack what it has.
#[test]
fn faults_of_queries_are_told_once() {
    let text = "type pair first second
buffer goal pair first 1
buffer retrieval
rule one
  ?gaol>
    state free
  ==>
  =goal> second 2
rule two
  ?retrieval>
  =goal> pair
  ==>
  =goal> second 2
  ?goal>
    state free
rule three
  ?retrieval>
    state free
    buffer empty
  ==>
  =retrieval> first 1
rule four
  ?retrieval>
type other
";
    let held = "'buffer empty' cannot be asked: an image has no query of what a buffer holds; test it with \
                '=retrieval> TYPE', an empty one with '=retrieval> chunk'";
    let nothing = "nothing is asked of '?retrieval>': write 'state busy', 'state free' or 'state error'";
    let wanted = [
        Flaw::UnknownBuffer.told("m:5:3: buffer 'gaol' is not declared (goal, retrieval)"),
        format!("m:10:14: {nothing}"),
        "m:14:3: '?goal>' asks, and stands before '==>'".into(),
        format!("m:19:5: {held}"),
        format!("m:23:14: {nothing}"),
    ];
    assert_eq!(faults(text), wanted);
}

#[test]
fn no_text_fills_the_memory_with_faults() {
    assert_eq!(faults(&"wrong\n".repeat(100_000)).len(), 1_000);
}

/// Each word that a user of ACT-R tries first, with and without its bracket, is answered by what to write here.
#[test]
fn words_of_act_r_are_answered() {
    for (word, answer) in [
        ("chunk-type", "write 'type NAME SLOT ..'"),
        ("add-dm", "write 'fact TYPE SLOT VALUE ..'"),
        ("p", "write 'rule NAME'"),
        ("sgp", "'failure latency MS' stands on its line"),
        ("goal-focus", "the chunk that a buffer opens with stands on its line"),
        ("define-model", "leave it out: a file is a model"),
        ("!output!", "a rule prints nothing"),
    ] {
        for written in [word.to_owned(), format!("({word}"), word.to_uppercase()] {
            let said = &faults(&written)[0];
            assert!(said.starts_with(&format!("m:1:1: '{written}' is ACT-R's: {answer}")), "{said}");
        }
    }
}

/// The symbols of a text that stand in one place only, with those that are nearly called so.
fn lone(text: &str) -> Vec<(String, usize, usize, Option<String>)> {
    let told = |lone: Lone| (lone.name, lone.line, lone.column, lone.near);
    Model::read(text).lone.into_iter().map(told).collect()
}

#[test]
fn symbols_in_one_place_only_are_pointed_out() {
    let text = "type t a b
fact t a start b 11
fact t a 1 b 1
buffer goal t a strat b start
rule r
  =goal> t a nil
  ==>
";
    let near = |name: &str| Some(name.to_owned());
    assert_eq!(lone(text), [("11".into(), 2, 18, None), ("strat".into(), 4, 17, near("start"))]);
    assert!(Model::from_text(text).is_ok(), "a hint is no error");
}

#[test]
fn names_that_are_nearly_alike() {
    let guess = |one: &str, other: &str| {
        let text = format!("type t a b c\nbuffer goal t a {one} b {other} c {other}\n");
        lone(&text).first().and_then(|(_, _, _, near)| near.clone())
    };
    for (one, other) in
        [("strt", "start"), ("startt", "start"), ("stort", "start"), ("Start", "start"), ("tsart", "start")]
    {
        assert_eq!(guess(one, other).as_deref(), Some(other), "{one}");
    }
    for (one, other) in [("11", "1"), ("1.5", "1.4"), ("begin", "start"), ("ab", "ac"), ("stasrtt", "start")] {
        assert_eq!(guess(one, other), None, "{one}");
    }
}

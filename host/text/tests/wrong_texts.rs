//! Wrong texts, and the exact words with which each is refused.

use jirvuntsag_text::{Flaw, Model};

/// Lines that many of the texts begin with.
const START: &str = "type pair first second
type other
buffer goal pair first 1
buffer retrieval
";

/// What is said of a text; of the lines after `START` if they begin with a line break.
fn said(text: &str) -> String {
    let text = match text.strip_prefix('\n') {
        Some(rest) => format!("{START}{rest}"),
        None => text.into(),
    };
    match Model::from_text(&text) {
        Ok(_) => panic!("accepted:\n{text}"),
        Err(error) => error.in_file("m"),
    }
}

fn check(table: &[(&str, &str)]) {
    for (text, wanted) in table {
        assert_eq!(said(text), *wanted, "of the text\n{text}");
    }
}

/// The same for texts that break a rule of images, which is told after what is found.
fn check_breaking(flaw: Flaw, table: &[(&str, &str)]) {
    for (text, found) in table {
        assert_eq!(said(text), flaw.told(found), "of the text\n{text}");
    }
}

#[test]
fn lines_that_are_no_lines() {
    let begins =
        "a line begins with version, failure, symbol, type, buffer, fact, rule, =BUFFER>, ?BUFFER>, +BUFFER>, \
                  -BUFFER> or ==>";
    let wrong = |word: &str, why: &str| (word.to_owned(), format!("m:1:1: '{word}'{why} {begins}"));
    for (text, wanted) in [
        wrong("production", " begins no line;"),
        wrong("=>", " begins no line;"),
        wrong("(defun", ": this is not Lisp;"),
        wrong(")", ": this is not Lisp;"),
        wrong("!safe-eval!", ": a rule prints and computes nothing;"),
    ] {
        assert_eq!(said(&text), wanted);
    }
    check(&[
        ("==>", "m:1:1: '==>' stands in no rule: a 'rule' line comes first"),
        ("\n=goal> pair", "m:5:1: '=goal>' stands in no rule: a 'rule' line comes first"),
        ("\n?goal> state free", "m:5:1: '?goal>' stands in no rule: a 'rule' line comes first"),
    ]);
    check_breaking(
        Flaw::BufferCount,
        &[("", "m: no buffer is declared"), ("# nothing ; but a comment\n", "m: no buffer is declared")],
    );
}

#[test]
fn declarations() {
    check(&[
        ("version", "m:1:8: the line ends where a version is expected"),
        ("version 1", "m:1:9: version 1 is not said: an image has it unless a rule has a query"),
        ("version two", "m:1:9: a version is a whole number from 0 to 255, not 'two'"),
        ("version 2\nversion 2", "m:2:1: the version is said twice"),
        ("version 2 3", "m:1:11: expected the end of the line, found '3'"),
        ("failure 200", "m:1:9: expected 'latency', found '200'"),
        ("failure latency", "m:1:16: the line ends where a latency in ms is expected"),
        ("failure latency 65536", "m:1:17: a latency is a whole number from 0 to 65535, not '65536'"),
        ("failure latency +1", "m:1:17: a latency is a whole number from 0 to 65535, not '+1'"),
        ("failure latency 1 ms", "m:1:19: expected the end of the line, found 'ms'"),
        ("failure latency 1\nfailure latency 1", "m:2:1: the failure latency is said twice"),
        ("symbol a 1", "m:1:10: expected '=', found '1'"),
        ("symbol a = 4096", "m:1:12: a symbol's number is a whole number from 0 to 4095, not '4096'"),
        ("symbol nil = 1", "m:1:8: symbol 'nil' has the number 0 already"),
        ("symbol a = 0", "m:1:12: number 0 is that of the symbol 'nil' already"),
        ("symbol a = 1\nsymbol a = 2", "m:2:8: symbol 'a' has the number 1 already"),
        ("\nsymbol a = 1", "m:5:12: number 1 is that of the symbol '1' already"),
        ("type", "m:1:5: the line ends where the type's name is expected"),
        ("type chunk", "m:1:6: type 'chunk' is declared twice"),
        ("type isa", "m:1:6: 'isa' has a meaning of its own and cannot be a type"),
        ("type a x y x", "m:1:12: slot 'x' is named twice"),
        ("type a latency", "m:1:8: 'latency' has a meaning of its own and cannot be a slot"),
        ("type =a", "m:1:6: '=a' is no name: a variable is written '?a'"),
        ("type a(", "m:1:6: '(' cannot stand in a name"),
        ("buffer goal>", "m:1:8: '>' cannot stand in the name of a buffer"),
        ("buffer a\nbuffer a", "m:2:8: buffer 'a' is declared twice"),
        ("buffer a chunk x 1", "m:1:16: slot 'x' is not a slot of type 'chunk' (there is none)"),
        ("\nbuffer a pair frist 1", "m:5:15: slot 'frist' is not a slot of type 'pair' (first, second)"),
        ("\nbuffer a pair first", "m:5:20: the line ends where the value of slot 'first' is expected"),
        ("\nbuffer a pair first 1 first 2", "m:5:23: slot 'first' is named twice"),
        ("\nbuffer a pair first ?x", "m:5:21: '?x' is a variable, which stands only in rules"),
        ("\nbuffer a pair latency 1", "m:5:15: expected the end of the line, found 'latency'"),
        ("\nfact pair activation -1", "m:5:22: an activation is a whole number from 0 to 65535, not '-1'"),
        ("\nfact pair latency 1.5", "m:5:19: a latency is a whole number from 0 to 65535, not '1.5'"),
        ("\nfact pair latency 1 activation 1", "m:5:21: expected the end of the line, found 'activation'"),
    ]);
}

#[test]
fn declarations_that_break_a_rule() {
    check_breaking(Flaw::Version, &[("version 3", "m:1:9: version 3 is not known")]);
    check_breaking(Flaw::SlotCount, &[("type a 1 2 3 4 5 6 7 8 9", "m:1:24: more than 8 slots in type 'a'")]);
    check_breaking(
        Flaw::UnknownType,
        &[
            ("buffer a nil", "m:1:10: type 'nil' is not declared (chunk)"),
            ("\nfact pairs", "m:5:6: type 'pairs' is not declared (chunk, pair, other)"),
        ],
    );
    check_breaking(Flaw::ChunkType, &[("\nfact chunk", "m:5:6: a fact cannot be of type chunk")]);
}

#[test]
fn heads_of_rules() {
    let utility = "a utility is a number from -32.768 to 32.767 with at most three decimals, not";
    for number in ["32.768", "-32.769", "0.0001", "1e3", "+1", ".5", "1.", "", "-", "99999999999"] {
        let wanted = match number {
            "" => "m:5:15: the line ends where a utility is expected".into(),
            number => format!("m:5:16: {utility} '{number}'"),
        };
        assert_eq!(said(&format!("\nrule r utility {number}")), wanted);
    }
    check(&[
        ("rule", "m:1:5: the line ends where the rule's name is expected"),
        ("rule ?r", "m:1:6: '?r' is a variable, which stands only in rules"),
        ("rule r 5", "m:1:8: expected the end of the line, found '5'"),
        ("rule r variables a", "m:1:18: expected a variable, as '?a', found 'a'"),
        ("rule r variables ?", "m:1:18: a name has at least one character"),
        ("rule r variables ?a ?a", "m:1:21: variable '?a' is listed twice"),
        ("rule r", "m:1:6: rule 'r' has no line '==>' between tests and actions"),
        ("\nrule r\n =goal> pair\n ==>\nrule r", "m:8:6: rule 'r' is declared twice"),
        ("\nrule r\n =goal> pair\nfact pair", "m:5:6: rule 'r' has no line '==>' between tests and actions"),
        ("\nrule r\n =goal> pair\n ==>\n ==>", "m:8:2: rule 'r' has two lines '==>'"),
    ]);
}

#[test]
fn variables_and_counts_of_rules() {
    let nine = "rule r variables ?1 ?2 ?3 ?4 ?5 ?6 ?7 ?8 ?9";
    check_breaking(Flaw::VariableCount, &[(nine, "m:1:42: more than 8 variables in rule 'r'")]);
    check_breaking(Flaw::QueryCount, &[("\nrule r\n ==>", "m:6:2: rule 'r' has no test and no query")]);
    let other = "\nrule r variables ?a\n =goal> pair first ?b\n ==>\n";
    check_breaking(Flaw::UnknownVariable, &[(other, "m:6:20: variable '?b' is not in the list of rule 'r'")]);
    let untested = [
        ("\nrule r variables ?a\n =goal> pair\n ==>\n", "m:5:18: variable '?a' stands in no test of rule 'r'"),
        (
            "\nrule r\n =goal> pair first ?a\n ==>\n =goal> first ?b",
            "m:8:15: variable '?b' stands in no test of rule 'r'",
        ),
    ];
    check_breaking(Flaw::UntestedVariable, &untested);
}

#[test]
fn tests_and_actions() {
    check(&[
        ("\nrule r\n =goal>", "m:6:8: the line ends where a type is expected"),
        ("\nrule r\n =goal> pair first", "m:6:19: the line ends where the term of slot 'first' is expected"),
        ("\nrule r\n =goal> pair first =a", "m:6:20: '=a' is no name: a variable is written '?a'"),
        (
            "\nrule r\n =goal> pair - first 1",
            "m:6:14: a slot cannot be negated in an image: give the rule for the other case a higher utility",
        ),
        ("\nrule r\n -goal>\n", "m:6:2: '-goal>' is an action, and stands after '==>'"),
        (
            "\nrule r\n =goal> pair\n ==>\n =goal> isa pair",
            "m:8:9: a modified buffer keeps its type: 'isa' stands in tests and requests",
        ),
        ("\nrule r\n =goal> pair\n ==>\n -goal> pair", "m:8:9: expected the end of the line, found 'pair'"),
    ]);
}

#[test]
fn queries() {
    let wanted = "write 'state busy', 'state free' or 'state error'";
    let asked = |words: &str| said(&format!("\nrule r\n ?retrieval>{words}\n ==>"));
    assert_eq!(asked(""), format!("m:6:13: nothing is asked of '?retrieval>': {wanted}"));
    assert_eq!(asked(" state"), "m:6:19: the line ends where busy, free or error is expected");
    assert_eq!(asked(" state full"), "m:6:20: 'full' is no state of a buffer: it is busy, free or error");
    assert_eq!(asked(" state ?x"), "m:6:20: '?x' is no state of a buffer: it is busy, free or error");
    assert_eq!(asked(" error"), format!("m:6:14: 'error' cannot be asked of a buffer: {wanted}"));
    let module = format!("m:7:2: 'recently-retrieved' cannot be asked of a buffer: {wanted}");
    assert_eq!(asked("\n recently-retrieved nil"), module);
    let after = "\nrule r\n =goal> pair\n ==>\n ?goal> state free";
    assert_eq!(said(after), "m:8:2: '?goal>' asks, and stands before '==>'");
}

/// Queries that are no business of an image, on the line of their buffer and on one of their own.
#[test]
fn queries_of_what_a_buffer_holds_and_negated_ones() {
    let held = |query: &str| {
        let instead = "test it with '=retrieval> TYPE', an empty one with '=retrieval> chunk'";
        format!("'{query}' cannot be asked: an image has no query of what a buffer holds; {instead}")
    };
    let negated = |instead: &str| format!("a query cannot be negated in an image: {instead}");
    let utility = "give the rule for the other case a higher utility";
    for (words, why) in [
        ("buffer full", held("buffer full")),
        ("buffer empty", held("buffer empty")),
        ("buffer requested", held("buffer requested")),
        ("buffer", held("buffer")),
        ("- state busy", negated("write 'state free'")),
        ("- state free", negated("write 'state busy'")),
        ("- state error", negated(utility)),
        ("- buffer empty", negated(utility)),
    ] {
        assert_eq!(said(&format!("\nrule r\n ?retrieval> {words}\n ==>")), format!("m:6:14: {why}"));
        assert_eq!(said(&format!("\nrule r\n ?retrieval>\n   {words}\n ==>")), format!("m:7:4: {why}"));
    }
}

/// One query for each buffer, and why one is enough; the word at which the second begins is told.
#[test]
fn two_queries_of_a_buffer() {
    let one = "one says it all, since an error is seen only where the buffer is free, and none where it is busy";
    let twice = |place: &str| format!("m:{place}: rule 'r' queries buffer 'goal' twice, first in line 6: {one}");
    let texts = [
        ("7:9", " ?goal> state free\n ?goal> state error"),
        ("7:9", " ?goal> state free\n ?goal> state free"),
        ("6:20", " ?goal> state free state error"),
        ("7:2", " ?goal> state free\n state error"),
        ("8:2", " ?goal>\n state free\n state error"),
    ];
    for (place, lines) in texts {
        let text = format!("\nrule r\n{lines}\n ==>");
        check_breaking(Flaw::BufferOrder, &[(&text, &twice(place))]);
    }
}

#[test]
fn types_and_slots_of_tests_and_actions() {
    check_breaking(
        Flaw::UnknownType,
        &[
            ("\nrule r\n =goal> first 1", "m:6:9: type 'first' is not declared (chunk, pair, other)"),
            ("\nrule r\n =goal> isa pairs", "m:6:13: type 'pairs' is not declared (chunk, pair, other)"),
        ],
    );
    let chunk = "\nrule r\n =goal> pair\n ==>\n +goal> chunk";
    check_breaking(Flaw::ChunkType, &[(chunk, "m:8:9: a request cannot be of type chunk")]);
    check_breaking(
        Flaw::UnknownSlot,
        &[
            ("\nrule r\n =goal> pair secnd 1", "m:6:14: slot 'secnd' is not a slot of type 'pair' (first, second)"),
            (
                "\nrule r\n =goal> other\n ==>\n =goal> first 1",
                "m:8:9: slot 'first' is not a slot of type 'other' (there is none)",
            ),
            (
                "\nrule r\n =goal> other\n ==>\n +goal> pair third 1",
                "m:8:14: slot 'third' is not a slot of type 'pair' (first, second)",
            ),
        ],
    );
}

#[test]
fn buffers_of_tests_and_actions() {
    check_breaking(
        Flaw::UnknownBuffer,
        &[
            ("\nrule r\n =gaol> pair", "m:6:2: buffer 'gaol' is not declared (goal, retrieval)"),
            ("\nrule r\n =goal> pair\n ==>\n -gaol>", "m:8:2: buffer 'gaol' is not declared (goal, retrieval)"),
            ("\nrule r\n ?gaol> state free\n ==>", "m:6:2: buffer 'gaol' is not declared (goal, retrieval)"),
        ],
    );
    check_breaking(
        Flaw::BufferOrder,
        &[
            ("\nrule r\n =goal> pair\n =goal> pair", "m:7:2: rule 'r' tests buffer 'goal' twice, first in line 6"),
            (
                "\nrule r\n =goal> pair\n ==>\n =goal> first 1\n -goal>",
                "m:9:2: rule 'r' acts on buffer 'goal' twice, first in line 8",
            ),
        ],
    );
    let untested = "\nrule r\n =goal> pair\n ==>\n =retrieval> first 1";
    let found = "m:8:2: rule 'r' modifies buffer 'retrieval' and does not test it";
    let queried = "\nrule r\n ?retrieval> state free\n ==>\n =retrieval> first 1";
    let hint = format!("{found}: a query is no test, add '=retrieval> TYPE'");
    check_breaking(Flaw::UntestedBuffer, &[(untested, found), (queried, &hint)]);
}

/// As many lines as allowed are accepted, one more is refused in its line.
fn check_limit(before: &str, most: usize, line: fn(usize) -> String, wanted: &str) {
    let lines = |count| before.to_owned() + &(0..count).map(line).collect::<String>();
    assert!(Model::from_text(&lines(most)).is_ok(), "{most} lines {}", line(0));
    assert_eq!(said(&lines(most + 1)), wanted);
}

#[test]
fn limits() {
    check_limit("", 8, |n| format!("buffer b{n}\n"), &Flaw::BufferCount.told("m:9:8: more than 8 buffers"));
    check_limit("buffer b\n", 63, |n| format!("type t{n}\n"), "m:65:6: more than 63 types");
    check_limit(
        "buffer b\ntype t\n",
        512,
        |_| "fact t\n".into(),
        &Flaw::FactCount.told("m:515:1: more than 512 facts"),
    );
    let rule = |n| format!("rule r{n}\n=b> chunk\n==>\n");
    check_limit("buffer b\n", 256, rule, &Flaw::RuleCount.told("m:770:1: more than 256 rules"));
    let facts = |n: usize| {
        let values = (0..8).map(|slot| format!(" {slot} s{}", 8 * n + slot)).collect::<String>();
        format!("fact t{values}\n")
    };
    let symbols = "buffer b\ntype t 0 1 2 3 4 5 6 7\nsymbol last = 4095\n";
    let full: String = symbols.to_owned() + &(0..511).map(facts).collect::<String>();
    // 4,088 symbols by order of appearance, then numbers 4,089 to 4,094, then none.
    let more = "fact t 0 a 1 b 2 c 3 d 4 e 5 f 6 last 7 nil\n";
    assert!(Model::from_text(&(full.clone() + more)).is_ok());
    let wanted = "m:515:41: more than 4095 symbols besides nil: 'g' finds no number";
    assert_eq!(said(&(full + "fact t 0 a 1 b 2 c 3 d 4 e 5 f 6 last 7 g\n")), wanted);
}

#[test]
fn nine_variables() {
    let slots = (0..8).map(|slot| format!(" {slot} ?v{slot}")).collect::<String>();
    let eight = format!("type t 0 1 2 3 4 5 6 7\nbuffer a\nbuffer b\nrule r\n =a> t{slots}\n");
    assert!(Model::from_text(&format!("{eight} =b> t 0 ?v0\n ==>")).is_ok());
    let nine = format!("{eight} =b> t 0 ?v8\n ==>");
    check_breaking(Flaw::VariableCount, &[(&nine, "m:6:10: more than 8 variables in rule 'r'")]);
}

#[test]
fn an_image_that_is_too_large() {
    let terms = (0..8).map(|slot| format!(" {slot} a")).collect::<String>();
    let buffers = (0..8).map(|n| format!("buffer b{n}\n")).collect::<String>();
    let part = |sign: &str| (0..8).map(|n| format!("{sign}b{n}> t{terms}\n")).collect::<String>();
    let rule = |n: usize| format!("rule r{n}\n{}==>\n{}", part("="), part("+"));
    let facts = "fact t\n".repeat(512);
    let rules: String = (0..256).map(rule).collect();
    let text = format!("type t 0 1 2 3 4 5 6 7\n{buffers}{facts}{rules}");
    // 105 bits before the facts, 134 a fact, 1,980 a rule.
    check_breaking(Flaw::TooLong, &[(&text, "m: the image has 71950 bytes")]);
}

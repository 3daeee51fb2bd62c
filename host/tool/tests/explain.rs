//! One command for a text: its trace, how the run ended, what the buffers hold, and why rules do not match.

mod calling;

use calling::{block, examples, file, page, printed, refused, EXAMPLES};
use jirvuntsag_text::Model;

/// What `explain` prints after the trace.
fn explained(arguments: &[&str]) -> String {
    let told = printed(&[&["explain"], arguments].concat());
    let trace = printed(&[&["trace"], arguments].concat());
    told.strip_prefix(&format!("{trace}\n")).expect("the trace comes first").into()
}

#[test]
fn a_run_that_halts() {
    let wanted = "The run ended by 9 after 7 steps, at 550 ms: no rule matches, and nothing is on its way.

The buffers hold at the end:
  goal       chunk (empty)
  retrieval  chunk (empty, error)

The run learned, in this order:
  at 400 ms  count current=3 target=3

The rules, and how they stand at the end:
  start  fired once; does not match: goal holds chunk, not count
  go-on  fired 2 times; does not match: goal holds chunk, not count
  stop   fired once; does not match: goal holds chunk, not count
";
    assert_eq!(explained(&["counting.model"]), wanted);
    assert_eq!(explained(&["counting.image", "--names", "counting.names.json"]), wanted);
}

/// What the pupil counted it clears, and finds when it is asked again.
#[test]
fn a_run_that_learns() {
    let told = explained(&["pupil.model"]);
    let wanted = "The buffers hold at the end:
  goal       task first=3 second=2 count=nil step=done answer=5
  sheet      chunk (empty)
  retrieval  chunk (empty)

The run learned, in this order:
  at 950 ms  sum first=3 second=2 result=5

The rules";
    assert!(told.contains(wanted), "{told}");
    assert!(!explained(&["pupil.model", "--steps", "11"]).contains("learned"));
}

#[test]
fn a_run_that_is_cut() {
    let wanted = "The run ended by 0 after 1 step, at 50 ms: the steps asked are made.

The buffers hold at the end:
  goal       count current=1 target=3
  retrieval  follows first=1 second=2, which rules see in 100 ms

The rules, and how they stand at the end:
  start  fired once; does not match: retrieval is pending for another 100 ms
  go-on  fired never; does not match: retrieval is pending for another 100 ms
  stop   fired never; does not match: target of goal is 3, not 1
";
    assert_eq!(explained(&["counting.model", "--steps", "1"]), wanted);
}

#[test]
fn a_rule_that_matches_and_a_symbol_that_is_mistyped() {
    let text = "type t state
buffer goal t state strat
rule go
  =goal> t state start
  ==>
  =goal> state start
rule any
  =goal> t
  ==>
";
    let path = file("mistyped.model", text);
    let told = explained(&[&path, "--steps", "0"]);
    let wanted = format!(
        "The rules, and how they stand at the end:
  go   fired never; does not match: state of goal is strat, not start
  any  fired never; matches

Symbols that stand in one place only, which is right or mistyped:
  {path}:2:21: 'strat'; is it 'start'?
"
    );
    assert!(told.ends_with(&wanted), "{told}");
}

#[test]
fn a_variable_on_an_empty_slot() {
    let text = "type t a b
buffer goal t a x
rule full
  =goal> t a ?x b ?y
  ==>
rule same
  =goal> t a ?x b ?x
  ==>
rule none
  =goal> t a nil
  ==>
rule half
  =goal> t a ?x b nil
  ==>
";
    let told = explained(&[&file("empty.model", text), "--steps", "0"]);
    let wanted = "
  full  fired never; does not match: b of goal is empty, and variable ?y takes no empty slot
  same  fired never; does not match: b of goal is empty, and variable ?x takes no empty slot
  none  fired never; does not match: a of goal is x, not nil
  half  fired never; matches
";
    assert!(told.contains(wanted), "{told}");
}

/// The query that fails is named, and why: on its way, not on its way, and not in error.
#[test]
fn queries_that_fail() {
    let path = file("queries.model", &block("queries"));
    for (steps, buffer, rules) in [
        (
            "0",
            "chunk (empty)",
            [
                "matches",
                "does not match: ?retrieval> state busy fails: nothing is pending there",
                "step of goal is begin, not asked",
            ],
        ),
        (
            "1",
            "chunk (empty, error), which rules see in 200 ms",
            [
                "step of goal is asked, not begin",
                "matches",
                "?retrieval> state error fails: it is pending for another 200 ms",
            ],
        ),
        ("5", "chunk (empty, error)", ["step of goal is asked, not begin", "nothing is pending there", "matches"]),
        (
            "6",
            "chunk (empty)",
            ["step of goal is gave-up, not begin", "nothing is pending there", "gave-up, not asked"],
        ),
    ] {
        let told = explained(&[&path, "--steps", steps]);
        assert!(told.contains(&format!("\n  retrieval  {buffer}\n")), "{told}");
        let lines: Vec<&str> = told.lines().filter(|line| line.contains("  fired ")).collect();
        assert!(lines.len() == 3 && lines.iter().zip(rules).all(|(line, why)| line.ends_with(why)), "{told}");
    }
}

/// All three queries of a buffer that was never asked, and of one that is asked for a fact that is there.
#[test]
fn queries_of_a_free_and_of_a_busy_buffer() {
    let rules =
        ["busy", "free", "error"].map(|state| format!("rule {state} utility -1\n  ?side> state {state}\n  ==>\n"));
    let text = format!(
        "type t\nfact t latency 80\nbuffer goal t\nbuffer side\nrule ask\n  =goal> t\n  ==>\n  -goal>\n  +side> t\n{}",
        rules.concat()
    );
    let path = file("three.model", &text);
    let told = |steps: &str| {
        let told = explained(&[&path, "--steps", steps]);
        let (_, rules) = told.split_once("  busy ").expect("the rules");
        rules.lines().map(|line| line.rsplit("; ").next().unwrap_or_default().to_owned()).collect::<Vec<_>>()
    };
    let fails = |state: &str, why: &str| format!("does not match: ?side> state {state} fails: {why}");
    let flag = fails("error", "its error flag is not set");
    assert_eq!(told("0"), [&fails("busy", "nothing is pending there"), "matches", &flag]);
    let pending = "it is pending for another 80 ms";
    assert_eq!(told("1"), ["matches", &fails("free", pending), &fails("error", pending)]);
}

/// A rule is said not to match exactly where a test of it does not hold, or a query: on every example, after each number of steps.
#[test]
fn every_rule_is_explained() {
    for name in EXAMPLES {
        let path = format!("{name}.model");
        let text = std::fs::read_to_string(examples().join(&path)).expect("the text");
        let rules = Model::from_text(&text).expect("a model").spec().rules.len();
        for steps in 0..8 {
            let told = explained(&[&path, "--steps", &steps.to_string()]);
            let lines: Vec<&str> = told.lines().filter(|line| line.contains("  fired ")).collect();
            let kinds = lines.iter().filter(|line| line.ends_with("; matches") || line.contains("; does not match: "));
            assert_eq!((lines.len(), kinds.count()), (rules, rules), "{told}");
            // Rules that match are those of which one fires next.
            let goes_on = printed(&["trace", &path, "--steps", &(steps + 1).to_string()]);
            let fires = |trace: &str| trace.matches("PRODUCTION-FIRED").count();
            let before = fires(&printed(&["trace", &path, "--steps", &steps.to_string()]));
            let matching = lines.iter().any(|line| line.ends_with("; matches"));
            assert_eq!(matching, fires(&goes_on) > before, "{told}");
        }
    }
}

/// The engine that keeps no table explains a run as the other does, and knows which rules match without one.
#[test]
fn the_engine_without_a_table_explains_the_same() {
    for name in EXAMPLES {
        let path = format!("{name}.model");
        for steps in ["0", "1", "3", "1000"] {
            let arguments = ["explain", &path, "--steps", steps];
            assert_eq!(printed(&[&arguments[..], &["--fresh"]].concat()), printed(&arguments));
        }
    }
}

#[test]
fn all_faults_come_first() {
    let path = file("faults.model", "type\nchunk-type t\nbuffer\n");
    let said = refused(&["explain", &path], 1);
    assert_eq!(said.lines().count(), 3, "{said}");
    assert!(said.contains(":2:1: 'chunk-type' is ACT-R's: write 'type NAME SLOT ..'\n"), "{said}");
}

/// What docs/MODELS.md says of its model with queries.
#[test]
fn the_queries_of_the_page() {
    let path = file("page-queries.model", &block("queries"));
    let traced = printed(&["trace", &path]);
    let fired: Vec<&str> =
        traced.lines().filter_map(|line| line.split_once("PRODUCTION-FIRED ").map(|(_, rule)| rule)).collect();
    assert_eq!(fired, ["ASK", "HUM", "HUM", "HUM", "HUM", "GIVE-UP"]);
    assert!(traced.contains("     0.250   DECLARATIVE            RETRIEVAL-FAILURE\n"));
    assert!(traced.contains("     0.300   PROCEDURAL             PRODUCTION-FIRED GIVE-UP\n"));
    let told = explained(&[&path, "--steps", "1"]);
    let page = page();
    let why = page.split('`').find(|code| code.starts_with("?retrieval> state error fails")).expect("why not");
    assert!(told.contains(&format!("give-up  fired never; does not match: {why}\n")), "{told}");
}

/// The example of docs/MODELS.md is explained as the page prints it.
#[test]
fn the_example_of_the_page() {
    assert_eq!(explained(&[&file("page.model", &block("model"))]), block("explain"));
    let text = block("model").replace("buffer goal count-from start 2", "buffer goal count-from start strat");
    let text = text.replace("fact count-order first 2 second 3", "fact count-order first start second start");
    let told = explained(&[&file("count.model", &text)]);
    let page = page();
    let hint = page.split('`').find(|code| code.ends_with("'strat'; is it 'start'?")).expect("a hint");
    assert!(told.contains(&format!("/{hint}\n")), "{told}");
}

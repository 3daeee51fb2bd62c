//! Both engines on the examples: they do the same, and the command says so.

mod calling;

use calling::{block, call, examples, file, printed, refused, EXAMPLES};

/// What is said of engines that do the same, before how the run ended.
const SAME: &str =
    "both engines do the same: number, state, count, every event and what is learned, step by step and in one call.\n";

/// What `jirvuntsag-tool compare` prints in the folder of the examples.
fn compare(arguments: &[&str]) -> String {
    printed(&[&["compare"], arguments].concat())
}

#[test]
fn a_run_that_halts() {
    let wanted = format!("counting.model: {SAME}The run ended by 9 after 7 steps, at 550 ms.\n");
    assert_eq!(compare(&["counting.model"]), wanted);
    let named = compare(&["counting.image", "--names", "counting.names.json"]);
    assert_eq!(named, wanted.replace(".model", ".image"));
}

#[test]
fn a_run_that_is_cut() {
    for (steps, ended) in
        [("0", "0 after 0 steps, at 0"), ("1", "0 after 1 step, at 50"), ("7", "0 after 7 steps, at 550")]
    {
        let wanted = format!("counting.model: {SAME}The run ended by {ended} ms.\n");
        assert_eq!(compare(&["counting.model", "--steps", steps]), wanted);
    }
}

/// A run without an end; nothing is said of its progress, since it is short.
#[test]
fn a_run_that_has_no_end() {
    let path = file("endless.model", "buffer goal\nrule go\n=goal> chunk\n==>\n");
    let output = call(&["compare", &path, "--steps", "2000"]);
    let wanted = format!("{path}: {SAME}The run ended by 0 after 2000 steps, at 100000 ms.\n");
    assert!(output.status.success() && output.stderr.is_empty());
    assert_eq!(String::from_utf8_lossy(&output.stdout), wanted);
}

/// On every example, as text and as image: number, count and clock are those of its stored run.
#[test]
fn every_example() {
    for name in EXAMPLES {
        let stored = std::fs::read_to_string(examples().join(format!("{name}.trace"))).expect("its run");
        let words: Vec<&str> = stored.split_whitespace().collect();
        let [clock, _, _, "end", number, steps] = words[words.len() - 6..] else { panic!("{stored}") };
        for path in [format!("{name}.model"), format!("{name}.image")] {
            let wanted = format!("{path}: {SAME}The run ended by {number} after {steps} steps, at {clock} ms.\n");
            assert_eq!(compare(&[&path]), wanted);
        }
    }
}

#[test]
fn what_cannot_be_compared_is_refused() {
    for (arguments, status, beginning) in [
        (&["counting.model", "--steps", "-1"][..], 2, "jirvuntsag-tool: '-1' is no number of steps"),
        (&["counting.model", "--fresh"], 2, "jirvuntsag-tool: compare: unknown option '--fresh'\nusage: "),
        (&["none.model"], 2, "jirvuntsag-tool: none.model: "),
        (&["README.md"], 1, "README.md:3:1: 'Each' begins no line; "),
    ] {
        let said = refused(&[&["compare"], arguments].concat(), status);
        assert!(said.starts_with(beginning), "{said}");
    }
}

/// The example of docs/MODELS.md is compared as the page prints it.
#[test]
fn the_example_of_the_page() {
    let told = compare(&[&file("count.model", &block("model"))]);
    assert!(told.ends_with(&format!("/{}", block("compare"))), "{told}");
}

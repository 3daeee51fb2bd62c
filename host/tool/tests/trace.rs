//! The trace: line by line that of ACT-R where one is published, and its other kinds of lines.

mod calling;

use std::path::Path;

use calling::{block, file, printed, refused, EXAMPLES};

/// What `jirvuntsag-tool trace` prints in the folder of the examples.
fn trace(arguments: &[&str]) -> String {
    printed(&[&["trace"], arguments].concat())
}

/// The published chunks, whose names an image does not hold.
const CHUNKS: [(&str, &str); 4] = [
    ("FIRST-GOAL", "COUNT-FROM(2,4,NIL)"),
    ("C", "COUNT-ORDER(2,3)"),
    ("D", "COUNT-ORDER(3,4)"),
    ("E", "COUNT-ORDER(4,5)"),
];

/// A published line as it is printed here, with one blank between words; nothing for a line that a rule printed.
fn translated(line: &str) -> Option<String> {
    let (first, last) = line.rsplit_once(' ')?;
    let last = CHUNKS.iter().find(|(name, _)| *name == last).map_or(last, |(_, chunk)| chunk);
    Some(format!("{first} {last}").replace(" ----- ", " ------ "))
}

/// The trace of ACT-R 6 in Gall 2013, section 5.1.
#[test]
fn counting_is_traced_as_published() {
    let published: Vec<String> = include_str!("published.trace").lines().filter_map(translated).collect();
    let printed = trace(&["count-vanilla.model"]);
    let here: Vec<String> = printed.lines().map(|line| line.split_whitespace().collect::<Vec<_>>().join(" ")).collect();
    assert_eq!(here, published);
    assert_eq!(here.len(), 24);
}

#[test]
fn columns_waits_and_failures() {
    let wanted = "     0.000   GOAL                   SET-BUFFER-CHUNK GOAL COUNT(2)
     0.000   RETRIEVAL              SET-BUFFER-CHUNK RETRIEVAL COUNT-FACT(2,3)
     0.000   PROCEDURAL             CONFLICT-RESOLUTION
     0.050   PROCEDURAL             PRODUCTION-FIRED COUNT-RULE
     0.050   PROCEDURAL             CLEAR-BUFFER RETRIEVAL
     0.050   DECLARATIVE            START-RETRIEVAL
     0.050   PROCEDURAL             CONFLICT-RESOLUTION
     0.150   DECLARATIVE            RETRIEVED-CHUNK COUNT-FACT(3,4)
     0.150   DECLARATIVE            SET-BUFFER-CHUNK RETRIEVAL COUNT-FACT(3,4)
     0.150   PROCEDURAL             CONFLICT-RESOLUTION
     0.200   PROCEDURAL             PRODUCTION-FIRED COUNT-RULE
     0.200   PROCEDURAL             CLEAR-BUFFER RETRIEVAL
     0.200   DECLARATIVE            START-RETRIEVAL
     0.200   PROCEDURAL             CONFLICT-RESOLUTION
     0.400   DECLARATIVE            RETRIEVAL-FAILURE
     0.400   PROCEDURAL             CONFLICT-RESOLUTION
     0.400   ------                 Stopped because no events left to process
";
    assert_eq!(trace(&["count-rule.model"]), wanted);
}

#[test]
fn an_image_with_invented_names_and_few_steps() {
    let wanted = "     0.000   B0                     SET-BUFFER-CHUNK B0 T2(X1,X3)
     0.000   PROCEDURAL             CONFLICT-RESOLUTION
     0.050   PROCEDURAL             PRODUCTION-FIRED R0
     0.050   PROCEDURAL             CLEAR-BUFFER B1
     0.050   DECLARATIVE            START-RETRIEVAL
     0.050   ------                 Stopped because the steps asked are made
";
    assert_eq!(trace(&["counting.image", "--steps", "1"]), wanted);
}

#[test]
fn an_image_with_names_is_traced_as_its_text() {
    let folder = Path::new(env!("CARGO_TARGET_TMPDIR"));
    for name in ["counting", "parents", "addition"] {
        let (model, image) = (format!("{name}.model"), format!("{name}.image"));
        let names = folder.join(format!("{name}.json")).to_string_lossy().into_owned();
        printed(&["pack", &model, "-o", "/dev/null", "--names", &names]);
        assert_eq!(trace(&[&image, "--names", &names]), trace(&[&model]));
    }
}

/// The engine that keeps no table traces every example as the other does.
#[test]
fn the_engine_without_a_table_traces_the_same() {
    for name in EXAMPLES {
        let path = format!("{name}.image");
        assert_eq!(trace(&[&path, "--fresh"]), trace(&[&path]));
        assert_eq!(trace(&["--fresh", &path, "--steps", "2"]), trace(&[&path, "--steps", "2"]));
    }
}

#[test]
fn what_cannot_be_traced_is_refused() {
    for (arguments, status, beginning) in [
        (
            &["counting.model", "--names", "n"][..],
            2,
            "jirvuntsag-tool: counting.model is a text, which has its own names\n",
        ),
        (&["counting.image", "--steps", "65536"], 2, "jirvuntsag-tool: '65536' is no number of steps, 0 to 65535\n"),
        (&["README.md"], 1, "README.md:3:1: 'Each' begins no line; "),
    ] {
        let said = refused(&[&["trace"], arguments].concat(), status);
        assert!(said.starts_with(beginning), "{said}");
    }
}

/// The example of docs/MODELS.md is traced as the page prints it.
#[test]
fn the_example_of_the_page() {
    assert_eq!(trace(&[&file("count.model", &block("model"))]), block("trace"));
}

/// Names that capitals would make one are printed as they are written.
#[test]
fn names_that_differ_in_capitals_alone_stay_apart() {
    let traced = trace(&[&file("capitals.model", "type t a b\nbuffer goal t a Alice b alice\n")]);
    let line = traced.lines().next().expect("a line");
    assert_eq!(line, "     0.000   goal                   SET-BUFFER-CHUNK goal t(Alice,alice)");
    let traced = trace(&[&file("capitals.model", "type t a b\nbuffer goal t a Alice b bob\n")]);
    assert!(traced.contains("SET-BUFFER-CHUNK GOAL T(ALICE,BOB)"));
}

//! Calls of the command in the folder of the examples, for the tests of runs.

use std::path::{Path, PathBuf};
use std::process::{Command, Output};

/// The models of the examples that several tests go through.
pub const EXAMPLES: [&str; 9] =
    ["addition", "count-chr", "count-rule", "counting", "parents", "pupil", "retry", "rule-order", "successor"];

pub fn examples() -> PathBuf {
    Path::new(env!("CARGO_MANIFEST_DIR")).join("../../examples")
}

/// Calls a subcommand in the folder of the examples.
pub fn call(arguments: &[&str]) -> Output {
    let mut command = Command::new(env!("CARGO_BIN_EXE_jirvuntsag-tool"));
    command.args(arguments).current_dir(examples()).output().expect("the command")
}

/// What it prints.
pub fn printed(arguments: &[&str]) -> String {
    let output = call(arguments);
    assert!(output.status.success(), "{}", String::from_utf8_lossy(&output.stderr));
    String::from_utf8(output.stdout).expect("text")
}

/// What it says on standard error, where it ends with this status and prints nothing.
pub fn refused(arguments: &[&str], status: i32) -> String {
    let output = call(arguments);
    assert!(output.status.code() == Some(status) && output.stdout.is_empty(), "{arguments:?}: {output:?}");
    String::from_utf8(output.stderr).expect("text")
}

/// A text in a file of its own.
pub fn file(name: &str, text: &str) -> String {
    let path = Path::new(env!("CARGO_TARGET_TMPDIR")).join(name);
    std::fs::write(&path, text).expect("the text");
    path.to_string_lossy().into_owned()
}

/// The page that says how a model is written and run.
pub fn page() -> String {
    std::fs::read_to_string(examples().join("../docs/MODELS.md")).expect("the page")
}

/// The block of that page that is marked with a word.
pub fn block(mark: &str) -> String {
    let page = page();
    let (_, rest) = page.split_once(&format!("\n```{mark}\n")).expect("the block");
    rest.split_once("```").expect("its end").0.to_owned()
}

//! `jirvuntsag-tool explain`: a run, how it ended, and what kept each rule from matching.

use crate::{runs, Command};

/// The subcommand.
pub const COMMAND: Command = Command {
    name: "explain",
    summary: "runs a model and says how it ended, what the buffers hold, and why rules do not match",
    usage: "usage: jirvuntsag-tool explain MODEL [--names FILE] [--steps NUMBER] [--fresh]
Runs the model in the file MODEL ('-' for standard input), a text or an image, for at most NUMBER steps (1000; 65535 at
most). Prints its trace as 'trace' does; then why the run ended, what each buffer holds, what was learned (the run begins
with an empty store, as a printed run does, and learns what it clears), how often each rule fired, and of each rule that
does not match at the end the first test that does not hold (a variable takes no empty slot; nil tests for one), or the
first query. A buffer that is empty after a request that found no fact is said to be in error. Of a text it also points
out symbols that stand in one place only, which may be mistyped. Names of an image are those of FILE, as 'pack --names'
writes it, or invented. With --fresh the engine that keeps no table makes the steps, and matches every rule afresh at
each; what is printed is the same.",
    options: &["--names", "--steps"],
    flags: &["--fresh"],
    run: runs::explain,
};

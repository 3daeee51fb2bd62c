//! `jirvuntsag-tool trace`: a run with names, as ACT-R prints it.

use crate::{runs, Command};

/// The subcommand.
pub const COMMAND: Command = Command {
    name: "trace",
    summary: "runs a model on the proved library and prints an ACT-R trace",
    usage: "usage: jirvuntsag-tool trace MODEL [--names FILE] [--steps NUMBER] [--fresh]
Runs the model in the file MODEL ('-' for standard input), a text or an image, for at most NUMBER steps (1000; 65535 at
most), and prints a trace as ACT-R does: the clock in seconds, the module, the event. A chunk has no name of its own and
is printed as its type and values. Names are printed in capitals, as Lisp does, unless two of them differ in capitals
alone. The run begins with an empty store, as a printed run does, and learns what it clears; ACT-R prints no line for
that, and 'explain' tells it. Names of an image are those of FILE, as 'pack --names' writes it, or invented. With --fresh
the engine that keeps no table makes the steps, and matches every rule afresh at each; what is printed is the same.",
    options: &["--names", "--steps"],
    flags: &["--fresh"],
    run: runs::trace,
};

//! `jirvuntsag-tool compare`: both engines on one model, held against each other.

use crate::{runs, Command};

/// The subcommand.
pub const COMMAND: Command = Command {
    name: "compare",
    summary: "runs a model on both engines and says whether they do the same",
    usage: "usage: jirvuntsag-tool compare MODEL [--names FILE] [--steps NUMBER]
Runs the model in the file MODEL ('-' for standard input), a text or an image, from its opening on both engines of the
proved library, for at most NUMBER steps (1000; 65535 at most): the one that keeps the matches of all rules in a table,
and the one that keeps nothing and matches every rule afresh at each step. Both are lent an empty store, and learn. Says
that number, state, count, every event and what is learned are the same, step by step and in one call; or the first
place where they differ, with exit status 1. It is proved that they never do: this is for who wants to see it. Names of
an image are those of FILE, as 'pack --names' writes it, or invented. Of a run that takes long it says from time to time
how far it is, on standard error.",
    options: &["--names", "--steps"],
    flags: &[],
    run: runs::compare,
};

//! The command `jirvuntsag-tool`: each subcommand has a file of its own; what it does with runs stands in `runs`.

mod arguments;
mod c_header;
mod check;
mod compare;
mod explain;
mod failure;
mod files;
mod hints;
mod pack;
#[cfg_attr(not(feature = "proved"), path = "without.rs")]
mod runs;
mod trace;
mod unpack;

use std::ffi::OsString;
use std::process::ExitCode;

use jirvuntsag_text::Shown;

use arguments::Arguments;
use failure::{Failure, NAME};

/// What every subcommand is: how it is used, and what it does.
struct Command {
    name: &'static str,
    /// One line for the list of subcommands.
    summary: &'static str,
    /// The first line is how it is written.
    usage: &'static str,
    /// Options that are followed by a value.
    options: &'static [&'static str],
    /// Options that stand alone.
    flags: &'static [&'static str],
    run: fn(Arguments) -> Result<(), Failure>,
}

/// All subcommands.
const COMMANDS: [&Command; 6] =
    [&explain::COMMAND, &trace::COMMAND, &compare::COMMAND, &check::COMMAND, &pack::COMMAND, &unpack::COMMAND];

fn main() -> ExitCode {
    match words().and_then(dispatch) {
        Ok(()) => ExitCode::SUCCESS,
        Err(failure) => {
            eprintln!("{}", failure.message.trim_end());
            ExitCode::from(failure.status)
        }
    }
}

/// The words of the command line after the program's name.
fn words() -> Result<Vec<String>, Failure> {
    let refused = |word: OsString| Failure::usage(format!("{} is not UTF-8", word.to_string_lossy()));
    std::env::args_os().skip(1).map(|word| word.into_string().map_err(refused)).collect()
}

/// Finds the subcommand that the first word names.
fn dispatch(mut words: Vec<String>) -> Result<(), Failure> {
    if words.is_empty() {
        return Err(Failure { message: help(), status: 2 });
    }
    let first = words.remove(0);
    match COMMANDS.iter().find(|command| command.name == first) {
        Some(command) => run(command, words),
        None if first == "-h" || first == "--help" => files::write_out(help().as_bytes()),
        None if first == "--version" => files::write_out(format!("{NAME} {VERSION}\n").as_bytes()),
        None => Err(Failure::usage(format!("'{}' is no subcommand\n{}", Shown(&first), help()))),
    }
}

/// Runs a subcommand, or prints its help.
fn run(command: &Command, words: Vec<String>) -> Result<(), Failure> {
    if words.iter().any(|word| word == "-h" || word == "--help") {
        return files::write_out(format!("{}\n", command.usage).as_bytes());
    }
    let refused = |why| Failure::usage(format!("{}: {why}\n{}", command.name, command.usage));
    (command.run)(Arguments::new(words, command.options, command.flags).map_err(refused)?)
}

/// The list of subcommands.
fn help() -> String {
    let lines: String = COMMANDS.iter().map(|command| format!("  {:10}{}\n", command.name, command.summary)).collect();
    format!("usage: {NAME} SUBCOMMAND ..\n\n{lines}\n'{NAME} SUBCOMMAND --help' says more. {MORE}\n")
}

/// What the list of subcommands ends with.
const MORE: &str = "A MODEL is a text or an image; 'check --help'
says how one that is refused is explained. Exit status: 0 done, 1 the input is refused, or what is
compared differs, 2 not used rightly, or a file cannot be read or written.";

/// The version of all that is built here.
const VERSION: &str = env!("CARGO_PKG_VERSION");

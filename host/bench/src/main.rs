//! What calls of the proved library cost, as tables for docs/SPEED.md: `make bench`.

mod clips;
mod engine;
#[cfg(feature = "fetches")]
mod fetching;
mod figures;
mod growth;
mod keeping;
mod lending;
mod models;
mod opened;
mod peers;
mod progress;
mod reading;
mod specs;
mod stored;
mod tables;
mod timing;
mod traces;
mod ways;

use std::process::ExitCode;

const USAGE: &str = "usage: jirvuntsag-bench [--peers]
Measures calls of the proved library beside those of the reference engine, in turn, and prints tables in Markdown: medians
over many short rounds, and the quartiles of the ratios. As `make bench` builds it, it also measures a fetch of fields that takes
one bit at a time beside the library's own. Takes about two minutes.

  --peers   instead runs the same models in CLIPS (Debian's package clips), holds every step of its trace to ours, and prints
            both times and their ratios: of the whole way from a stored model to the last step, of a run call, and of a step
            alone. Takes about a minute; without CLIPS it says so, and that is all";

fn main() -> ExitCode {
    let words: Vec<String> = std::env::args().skip(1).collect();
    match words.iter().map(String::as_str).collect::<Vec<_>>()[..] {
        [] => tables::print_tables(),
        ["--peers"] => {
            if let Err(failure) = peers::print_peers() {
                eprintln!("jirvuntsag-bench: {failure}");
                return ExitCode::FAILURE;
            }
        }
        ["-h" | "--help"] => println!("{USAGE}"),
        _ => {
            eprintln!("{USAGE}");
            return ExitCode::from(2);
        }
    }
    ExitCode::SUCCESS
}

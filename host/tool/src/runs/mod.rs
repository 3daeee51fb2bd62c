//! Runs on the proved library.

mod compare;
mod difference;
mod engine;
mod explain;
mod lines;
mod misses;
mod pair;
mod progress;
mod told;
mod trace;

pub use compare::compare;
pub use explain::explain;
pub use trace::trace;

use crate::arguments::Arguments;
use crate::failure::Failure;

/// Steps that are made if none are asked.
const STEPS: u16 = 1_000;

/// The steps that are asked for by `--steps`.
fn steps_asked(arguments: &Arguments) -> Result<u16, Failure> {
    match arguments.option("--steps") {
        None => Ok(STEPS),
        Some(word) => word.parse().map_err(|_| Failure::usage(format!("'{word}' is no number of steps, 0 to 65535"))),
    }
}

//! Both engines on one model, and what is said of them.

use super::engine::{Engine, Run};
use super::pair::{compared, Pair};
use super::progress::Progress;
use super::steps_asked;
use super::told::Told;
use crate::arguments::Arguments;
use crate::failure::Failure;
use crate::files::{model_of_file, shown, write_out};

/// `compare`.
pub fn compare(arguments: Arguments) -> Result<(), Failure> {
    let steps = steps_asked(&arguments)?;
    let held = model_of_file(&arguments.input, arguments.option("--names"))?;
    let open = |engine| Run::open(&held.model, engine);
    let pair = Pair { kept: open(Engine::Kept)?, fresh: open(Engine::Fresh)? };
    let path = shown(&arguments.input);
    match compared(held.model.names(), pair, steps, &mut Progress::of(steps)) {
        Ok(told) => write_out(format!("{path}: {}", same(&told)).as_bytes()),
        Err(place) => Err(Failure::refused(format!("{path}: the engines differ {place}"))),
    }
}

/// What is said of engines that do not differ.
fn same(told: &Told) -> String {
    let steps = if told.count == 1 { "step" } else { "steps" };
    format!(
        "both engines do the same: number, state, count, every event and what is learned, step by step and in one call.
The run ended by {} after {} {steps}, at {} ms.\n",
        told.number.number(),
        told.count,
        told.state.clock
    )
}

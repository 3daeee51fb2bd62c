//! A run step by step, and its lines.

use jirvuntsag_proved::{End, Number};
use jirvuntsag_text::Model;

use super::engine::{Engine, Run, Step};
use super::lines::Lines;
use super::steps_asked;
use crate::arguments::Arguments;
use crate::failure::Failure;
use crate::files::{model_of_file, write_out};

/// `trace`.
pub fn trace(arguments: Arguments) -> Result<(), Failure> {
    let steps = steps_asked(&arguments)?;
    let held = model_of_file(&arguments.input, arguments.option("--names"))?;
    write_out(Traced::new(&held.model, Engine::asked(&arguments), steps)?.text.as_bytes())
}

/// A run that was made.
pub struct Traced {
    /// The lines of its trace.
    pub text: String,
    /// Why it made no more steps.
    pub number: Number,
    /// The steps made.
    pub made: u16,
    /// How often each rule fired.
    pub fired: Vec<u16>,
    /// The clock after the step that learned each fact of the store.
    pub learned_at: Vec<u32>,
    /// The run, at its end.
    pub run: Run,
}

impl Traced {
    /// Runs a model on an engine, for at most so many steps.
    pub fn new(model: &Model, engine: Engine, steps: u16) -> Result<Traced, Failure> {
        let mut run = Run::open(model, engine)?;
        let mut lines = Lines::opening(model, &run.state);
        let mut fired = vec![0; model.spec().rules.len()];
        let mut learned_at = Vec::new();
        let mut made = 0;
        let number = loop {
            if made == steps {
                break Number::Ended(End::Done);
            }
            let before = run.state;
            lines.decision(before.clock);
            let step = match run.step() {
                Ok(step) => step,
                Err(number) => break number,
            };
            lines.step(&before, &run.state, step);
            learned_at.resize(run.store.len(), run.state.clock);
            if let Step::Fire { rule } = step {
                fired[usize::from(rule)] += 1;
            }
            made += 1;
        };
        lines.stop(run.state.clock, number);
        Ok(Traced { text: lines.text, number, made, fired, learned_at, run })
    }
}

//! A run, how it ended, and what kept each rule from matching.

use std::fmt::Write;

use jirvuntsag_proved::{End, Number};
use jirvuntsag_text::{Model, Names, CHUNK};

use super::engine::{Buffer, Engine, State};
use super::misses::first_miss;
use super::steps_asked;
use super::trace::Traced;
use crate::arguments::Arguments;
use crate::failure::Failure;
use crate::files::{model_of_file, write_out};
use crate::hints::hints;

/// `explain`.
pub fn explain(arguments: Arguments) -> Result<(), Failure> {
    let steps = steps_asked(&arguments)?;
    let held = model_of_file(&arguments.input, arguments.option("--names"))?;
    let traced = Traced::new(&held.model, Engine::asked(&arguments), steps)?;
    let text = format!(
        "{}\n{}\n{}\n{}{}{}",
        traced.text,
        end(&traced),
        buffers(&held.model, &traced.run.state),
        learned(held.model.names(), &traced),
        rules(&held.model, &traced),
        hints(&arguments.input, &held.lone).map(|hints| format!("\n{hints}")).unwrap_or_default()
    );
    write_out(text.as_bytes())
}

/// Why the run ended.
fn end(traced: &Traced) -> String {
    let clock = traced.run.state.clock;
    let why = match traced.number {
        Number::Ended(End::Done) => "the steps asked are made".into(),
        Number::Ended(End::Halted) => "no rule matches, and nothing is on its way".into(),
        other @ (Number::Ended(End::Stale | End::ClockFull | End::StoreFull) | Number::Refused(_)) => other.to_string(),
    };
    let steps = if traced.made == 1 { "step" } else { "steps" };
    format!("The run ended by {} after {} {steps}, at {clock} ms: {why}.\n", traced.number.number(), traced.made)
}

/// What the buffers hold.
fn buffers(model: &Model, state: &State) -> String {
    let names = model.names();
    let width = widest(names.buffers.iter());
    let lines = names.buffers.iter().zip(&state.buffers).map(|(name, buffer)| {
        let chunk = chunk(names, buffer);
        format!("  {name:width$}  {chunk}\n")
    });
    format!("The buffers hold at the end:\n{}", lines.collect::<String>())
}

/// What the run learned, each fact with the time of the step that cleared it; nothing if it learned nothing.
fn learned(names: &Names, traced: &Traced) -> String {
    if traced.run.store.is_empty() {
        return String::new();
    }
    let lines = traced.run.store.facts().zip(&traced.learned_at).map(|(fact, clock)| {
        let chunk = names.chunk(fact.isa, &fact.slots);
        format!("  at {clock} ms  {chunk}\n")
    });
    format!("The run learned, in this order:\n{}\n", lines.collect::<String>())
}

/// A chunk with its slots, that it is the answer to a failed request, and when it can be seen.
fn chunk(names: &Names, buffer: &Buffer) -> String {
    let mut text = match (buffer.isa, buffer.error) {
        (0, false) => format!("{CHUNK} (empty)"),
        (0, true) => format!("{CHUNK} (empty, error)"),
        (isa, _) => names.chunk(isa, &buffer.slots),
    };
    if buffer.delay > 0 {
        // Writing to a string cannot fail.
        let _ = write!(text, ", which rules see in {} ms", buffer.delay);
    }
    text
}

/// How often each rule fired, and why it does not match.
fn rules(model: &Model, traced: &Traced) -> String {
    let names = model.names();
    let width = widest(names.rules.iter().map(|rule| &rule.name));
    let matching = traced.run.matching();
    let line = |number: usize| {
        let name = &names.rules[number].name;
        // Whether it matches is the word of the library's table, and only why not is found out here.
        let now = match first_miss(model, number, &traced.run.state) {
            _ if matching[number] => "matches".into(),
            Some(miss) => format!("does not match: {miss}"),
            None => "does not match, by the library's table".into(),
        };
        format!("  {name:width$}  fired {}; {now}\n", times(traced.fired[number]))
    };
    format!("The rules, and how they stand at the end:\n{}", (0..names.rules.len()).map(line).collect::<String>())
}

/// `never`, `once`, `3 times`.
fn times(count: u16) -> String {
    match count {
        0 => "never".into(),
        1 => "once".into(),
        count => format!("{count} times"),
    }
}

/// The letters of the longest name.
fn widest<'n>(names: impl Iterator<Item = &'n String>) -> usize {
    names.map(|name| name.chars().count()).max().unwrap_or_default()
}

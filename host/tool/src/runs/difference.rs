//! Where what two engines told differs first.

use std::fmt;

use jirvuntsag_proved::{Buffer, Chunk, Event, Number, Step};
use jirvuntsag_text::Names;

use super::told::Told;

/// Where two differ first, and what each has there.
pub struct Difference {
    what: String,
    kept: String,
    fresh: String,
}

impl Difference {
    /// The first difference in what the engine that keeps matches and the one that keeps none told, if they differ at all;
    /// so many steps were made before.
    pub fn first(names: &Names, before: u16, kept: &Told, fresh: &Told) -> Option<Difference> {
        let event = |at: usize| {
            let shown = |event: &Event| shown_event(names, event);
            let step = usize::from(before) + at + 1;
            Difference::of(format_args!("event {step}"), &kept.events[at], &fresh.events[at], shown)
        };
        let buffer = |at: usize| {
            let name = names.buffers.get(at).cloned().unwrap_or_else(|| at.to_string());
            let (kept, fresh) = (&kept.state.buffers[at], &fresh.state.buffers[at]);
            Difference::of(format_args!("buffer {name}"), kept, fresh, shown_buffer)
        };
        let fact = |at: usize| {
            let (kept, fresh) = (&kept.learned.get(at), &fresh.learned.get(at));
            Difference::of(format_args!("learned fact {}", at + 1), kept, fresh, shown_fact)
        };
        let (told, told_too) = (kept.events.len(), fresh.events.len());
        (0..told.min(told_too))
            .find_map(event)
            .or_else(|| Difference::of("the number", &kept.number, &fresh.number, shown_number))
            .or_else(|| Difference::of("the steps made", &kept.count, &fresh.count, u16::to_string))
            .or_else(|| Difference::of("the events told", &told, &told_too, usize::to_string))
            .or_else(|| Difference::of("the clock", &kept.state.clock, &fresh.state.clock, u32::to_string))
            .or_else(|| (0..kept.state.buffers.len()).find_map(buffer))
            .or_else(|| (0..kept.learned.len().max(fresh.learned.len())).find_map(fact))
    }

    /// A difference in one thing, if there is one.
    fn of<T: PartialEq>(
        what: impl fmt::Display,
        kept: &T,
        fresh: &T,
        shown: impl Fn(&T) -> String,
    ) -> Option<Difference> {
        (kept != fresh).then(|| Difference { what: what.to_string(), kept: shown(kept), fresh: shown(fresh) })
    }
}

/// What differs, and in a line of its own what each engine has.
impl fmt::Display for Difference {
    fn fmt(&self, to: &mut fmt::Formatter) -> fmt::Result {
        write!(to, "{}:\n  kept   {}\n  fresh  {}", self.what, self.kept, self.fresh)
    }
}

/// A number and what it means.
fn shown_number(number: &Number) -> String {
    format!("{} ({number})", number.number())
}

/// An event as a line of the printing program, with the name of a rule that is there.
fn shown_event(names: &Names, event: &Event) -> String {
    match event.step {
        Step::Fire { rule } => {
            let named = names.rules.get(usize::from(rule)).map(|rule| rule.name.clone());
            format!("{} fire {}", event.clock, named.unwrap_or_else(|| format!("rule {rule}")))
        }
        Step::Wait { ms } => format!("{} wait {ms}", event.clock),
    }
}

/// All words of a learned fact, by number; an engine may have learned less.
fn shown_fact(fact: &Option<&Chunk>) -> String {
    fact.map_or("none".into(), Chunk::to_string)
}

/// All words of a buffer, by number: what an engine left need not have a name.
fn shown_buffer(buffer: &Buffer) -> String {
    let slots = buffer.slots.map(|value| value.to_string()).join(" ");
    let error = if buffer.error { ", error" } else { "" };
    format!("type {}, slots {slots}, delay {}{error}", buffer.isa, buffer.delay)
}

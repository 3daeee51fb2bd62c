//! Two engines held against each other.

use jirvuntsag_proved::{End, Number};
use jirvuntsag_text::Names;

use super::difference::Difference;
use super::progress::Progress;
use super::told::{Steps, Told};

/// Both engines, at one place of a run.
#[derive(Clone)]
pub struct Pair<S> {
    /// The one that keeps the matches of all rules.
    pub kept: S,
    /// The one that keeps nothing.
    pub fresh: S,
}

impl<S: Steps> Pair<S> {
    /// Asks both for so many steps after those made before; gives what both told, or where that differs first.
    fn ask(
        &mut self,
        call: fn(&mut S, u16) -> Told,
        steps: u16,
        names: &Names,
        before: u16,
    ) -> Result<Told, Difference> {
        let (kept, fresh) = (call(&mut self.kept, steps), call(&mut self.fresh, steps));
        match Difference::first(names, before, &kept, &fresh) {
            Some(difference) => Err(difference),
            None => Ok(kept),
        }
    }
}

/// Compares a pair from where it stands, one step at a time and then in one call; gives what both told of the whole run, or
/// the place where they differ first.
pub fn compared<S: Steps + Clone>(
    names: &Names,
    pair: Pair<S>,
    steps: u16,
    progress: &mut Progress,
) -> Result<Told, String> {
    step_by_step(names, pair.clone(), steps, progress)?;
    progress.all_at_once();
    let at_once = |call| {
        let asked = pair.clone().ask(call, steps, names, 0);
        asked.map_err(|difference| format!("where {steps} steps are asked in one call, in {difference}"))
    };
    at_once(S::trace)?;
    at_once(S::run)
}

/// Compares a pair after each step, up to so many or to the first that is not made.
fn step_by_step<S: Steps>(names: &Names, mut pair: Pair<S>, steps: u16, progress: &mut Progress) -> Result<(), String> {
    for made in 0..steps {
        progress.at(made);
        let asked = pair.ask(S::trace, 1, names, made);
        let told = asked.map_err(|difference| format!("at step {}, in {difference}", made + 1))?;
        if told.number != Number::Ended(End::Done) {
            break;
        }
    }
    Ok(())
}

#[cfg(test)]
mod tests {
    use super::{compared, Pair};
    use crate::runs::progress::Progress;
    use crate::runs::told::{Steps, Told};
    use jirvuntsag_proved::{Chunk, End, Event, Number, State, Step};
    use jirvuntsag_text::Model;

    /// An engine that is made up: rule 0 fires at each step, and a fault may spoil what is told.
    #[derive(Clone)]
    struct MadeUp {
        state: State,
        /// Spoils what is told of a call for so many steps.
        fault: fn(u16, &mut Told),
    }

    impl Steps for MadeUp {
        fn run(&mut self, steps: u16) -> Told {
            Told { events: Vec::new(), ..self.trace(steps) }
        }

        fn trace(&mut self, steps: u16) -> Told {
            let event = |at: u16| Event { clock: self.state.clock + 50 * u32::from(at), step: Step::Fire { rule: 0 } };
            let events: Vec<Event> = (1..=steps).map(event).collect();
            self.state.clock += 50 * u32::from(steps);
            let mut told =
                Told { number: Number::Ended(End::Done), state: self.state, count: steps, events, learned: Vec::new() };
            (self.fault)(steps, &mut told);
            told
        }
    }

    /// Where a faultless engine and one with a fault differ within four steps; nothing if they do the same.
    fn place(fault: fn(u16, &mut Told)) -> Option<String> {
        let model = Model::from_text("buffer goal\nrule go\n=goal> chunk\n==>\n").expect("a model");
        let made_up = |fault| MadeUp { state: State::default(), fault };
        let pair = Pair { kept: made_up(|_, _| ()), fresh: made_up(fault) };
        compared(model.names(), pair, 4, &mut Progress::of(4)).err()
    }

    /// Whether what is told is that of the third step.
    fn is_third(told: &Told) -> bool {
        told.state.clock == 150
    }

    #[test]
    fn engines_that_do_the_same() {
        assert_eq!(place(|_, _| ()), None);
    }

    #[test]
    fn the_first_step_that_differs_is_told() {
        let found = place(|_, told| {
            if is_third(told) {
                told.events[0].step = Step::Wait { ms: 7 };
                told.number = Number::Ended(End::Halted);
            }
        });
        assert_eq!(found.expect("a place"), "at step 3, in event 3:\n  kept   150 fire go\n  fresh  150 wait 7");
    }

    #[test]
    fn a_rule_that_is_not_there_is_told_by_its_number() {
        let found = place(|_, told| told.events[0].step = Step::Fire { rule: 9 });
        assert_eq!(found.expect("a place"), "at step 1, in event 1:\n  kept   50 fire go\n  fresh  50 fire rule 9");
    }

    #[test]
    fn a_step_that_is_not_made() {
        let found = place(|_, told| {
            if is_third(told) {
                (told.number, told.count) = (Number::Ended(End::Halted), 0);
                told.events.clear();
            }
        });
        let number = "kept   0 (all that was asked is done)\n  fresh  9 (halted before the steps asked were made)";
        assert_eq!(found.expect("a place"), format!("at step 3, in the number:\n  {number}"));
    }

    #[test]
    fn a_count_that_is_made_up() {
        let found = place(|_, told| told.count += 1);
        assert_eq!(found.expect("a place"), "at step 1, in the steps made:\n  kept   1\n  fresh  2");
    }

    #[test]
    fn a_clock_and_a_buffer() {
        let found = place(|_, told| told.state.clock += u32::from(is_third(told)));
        assert_eq!(found.expect("a place"), "at step 3, in the clock:\n  kept   150\n  fresh  151");
        let found = place(|_, told| told.state.buffers[0].slots[1] = 4);
        let empty = "type 0, slots 0 0 0 0 0 0 0 0, delay 0";
        let other = "type 0, slots 0 4 0 0 0 0 0 0, delay 0";
        assert_eq!(found.expect("a place"), format!("at step 1, in buffer goal:\n  kept   {empty}\n  fresh  {other}"));
        let found = place(|_, told| told.state.buffers[0].error = true);
        let failed = format!("{empty}, error");
        assert_eq!(found.expect("a place"), format!("at step 1, in buffer goal:\n  kept   {empty}\n  fresh  {failed}"));
        let found = place(|_, told| told.state.buffers[7].delay = 1).expect("a place");
        assert!(found.starts_with("at step 1, in buffer 7:\n"), "{found}");
    }

    #[test]
    fn a_fact_that_one_engine_alone_has_learned() {
        let found = place(|_, told| told.learned.push(Chunk { isa: 1, ..Chunk::default() })).expect("a place");
        let fact = "learned fact 1:\n  kept   none\n  fresh  type 1, slots 0 0 0 0 0 0 0 0";
        assert_eq!(found, format!("at step 1, in {fact}"));
    }

    #[test]
    fn a_fault_of_longer_calls_alone() {
        let found = place(|steps, told| {
            if steps > 1 {
                told.number = Number::Ended(End::ClockFull);
            }
        });
        assert!(found.expect("a place").starts_with("where 4 steps are asked in one call, in the number:\n"));
        let found = place(|steps, told| {
            if steps > 1 && told.events.len() == 4 {
                told.events[2].clock = 0;
            }
        });
        let event = "event 3:\n  kept   150 fire go\n  fresh  0 fire go";
        assert_eq!(found.expect("a place"), format!("where 4 steps are asked in one call, in {event}"));
    }
}

//! What is measured: models under a name, and the steps of a run.

use std::fmt::Display;

use jirvuntsag_packing::{largest, model_a, pack, ModelSpec};

use crate::specs::{
    all_match, asking, counting, few_of_many, notes, pairs, pending, resting, tests_a_rule, tokens, touching, Noted,
    FIRST, LAST,
};

/// Rules of the models with as many as an image can have.
const RULES: u16 = 256;
/// Steps of a long run.
const STEPS: u16 = 1_000;
/// Steps of the runs that learn: three for each of 250 facts.
const NOTES: u16 = 750;
/// Steps of a run in which a step's own cost counts, and reading the image hardly does.
const MANY: u16 = 10_000;

/// Bits of the fields whose fetch is timed by itself: from the narrowest to the widest.
pub const WIDTHS: [usize; 8] = [1, 3, 4, 6, 8, 12, 13, 16];

/// A model and the steps of a measured run.
pub struct Measured {
    /// What the table calls it.
    pub name: String,
    /// Its image.
    pub image: Vec<u8>,
    /// Steps asked of a run.
    pub steps: u16,
    /// First steps of a short run that are measured apart and taken off, so that the others alone count.
    apart: u16,
}

impl Measured {
    /// The same model with a run of so many steps.
    pub fn with_steps(&self, steps: u16) -> Measured {
        Measured { name: self.name.clone(), image: self.image.clone(), steps, apart: self.apart }
    }

    /// How many of so many steps are measured apart and taken off: a tenth of a long run; 0 where a run is measured whole.
    pub fn apart(&self, steps: u16) -> u16 {
        if steps < STEPS {
            self.apart
        } else {
            steps / 10
        }
    }
}

/// A model under a name; a short run is measured whole.
fn model(name: &str, steps: u16, spec: &ModelSpec) -> Measured {
    Measured { name: name.to_string(), image: pack(spec), steps, apart: 0 }
}

/// The steps of model A's run but for its first.
fn steps_of_model_a() -> Measured {
    Measured { apart: 1, ..model("model A, steps 2 to 7", 7, &model_a()) }
}

/// Those that the engines are compared on.
pub fn models() -> Vec<Measured> {
    vec![
        model("model A, one step", 1, &model_a()),
        model("counting, 500 facts", STEPS, &counting(500)),
        model("256 rules, first test differs", STEPS, &tokens(RULES, FIRST)),
        model("256 rules, last test differs", STEPS, &tokens(RULES, LAST)),
        model("32 of 256 rules, others fail late", STEPS, &few_of_many(32, RULES)),
        model("16 x 16 rules, two constants", STEPS, &pairs(16)),
        model("256 rules touched, all match", STEPS, &all_match(RULES)),
        model("254 rules match and rest, two take turns", STEPS, &resting(RULES)),
        model("eight buffers, many pending", STEPS, &pending()),
        model("24 x 3 rules, two thirds ask", STEPS, &asking(24)),
        model("largest image", 1, &largest()),
    ]
}

/// Models that clear a chunk in every third step: one that is known, a new one, and a new one that is asked for again.
pub fn learning() -> Vec<Measured> {
    vec![
        model("clears what is known", NOTES, &notes(Noted::Known)),
        model("learns 250 facts", NOTES, &notes(Noted::New)),
        model("learns 250 facts, and recalls each", NOTES, &notes(Noted::Recalled)),
    ]
}

/// One model in several sizes, with the size in its name.
fn sizes<T: Copy + Display>(name: &str, sizes: &[T], spec: impl Fn(T) -> ModelSpec) -> Vec<Measured> {
    sizes.iter().map(|&size| model(&name.replace("{}", &size.to_string()), MANY, &spec(size))).collect()
}

/// Models with more and more of one thing: facts, rules, buffers that a step touches, tests of a rule, or steps.
pub fn growing() -> Vec<Vec<Measured>> {
    let rules = &[32, 128, RULES];
    let steps = |asked| model(&format!("counting, 500 facts, steps asked: {asked}"), asked, &counting(500));
    vec![
        vec![steps_of_model_a()],
        sizes("counting, {} facts", &[32, 128, 500], counting),
        sizes("all of {} rules touched", &[1, 2, 4, 8, 16, 32, 128, RULES], |all| tokens(all, FIRST)),
        sizes("all of {} rules touched, last test differs", rules, |all| tokens(all, LAST)),
        sizes("32 of {} rules touched", rules, |all| few_of_many(32, all)),
        sizes("256 rules, buffers touched by a step: {}", &[1, 2, 8], touching),
        sizes("256 rules, tests a rule: {}", &[1, 3, 8], |tests| tests_a_rule(RULES, tests)),
        [1, 10, 100].map(steps).into(),
    ]
}

#[cfg(test)]
mod tests {
    use super::*;
    use jirvuntsag_reference::{Event, Kind, Model};

    #[test]
    fn every_measured_run_makes_all_its_steps() {
        for measured in models().into_iter().chain(growing().into_iter().flatten()) {
            let model = Model::decode(&measured.image).expect("a valid model");
            let from = model.open_state();
            let (number, _, made) = model.run(from, &mut model.fresh_table(&from), measured.steps);
            assert_eq!((number, made), (0, measured.steps), "{}", measured.name);
        }
    }

    /// Of two numbers one is asked for and found, the other asked for and not: each time a firing, a wait and a firing.
    #[test]
    fn every_other_request_of_the_rules_that_ask_is_an_error() {
        let model = Model::decode(&pack(&asking(24))).expect("a valid model");
        let from = model.open_state();
        let (_, _, events) = model.trace(from, &mut model.fresh_table(&from), 12);
        let fired = |step: &Event| if let Kind::Fire(rule) = step.kind { Some(rule) } else { None };
        let rules = [Some(0), None, Some(1), Some(3), None, Some(5), Some(6), None, Some(7), Some(9), None, Some(11)];
        assert_eq!(events.iter().map(fired).collect::<Vec<_>>(), rules);
        assert_eq!(events.iter().map(|step| step.clock).take(6).collect::<Vec<_>>(), [50, 150, 200, 250, 400, 450]);
    }

    #[test]
    fn where_all_rules_match_each_step_changes_all_entries() {
        let model = Model::decode(&pack(&all_match(RULES))).expect("a valid model");
        let mut state = model.open_state();
        let mut table = model.fresh_table(&state);
        for values in [[1, 7], [7, 1], [1, 7]] {
            assert!(table.chunks_exact(9).all(|entry| entry[0] == 1 && entry[1..3] == values), "{values:?}");
            state = model.run(state, &mut table, 1).1;
        }
    }
}

//! The run that keeps nothing: against the kept run that is handed the fresh table, and by hand.

mod common;

use common::{buffer, failed, model, rule, state, P1, V0, V1};
use jirvuntsag_generate::{case, each_seed, Case};
use jirvuntsag_packing::{model_a, pack, ActionSpec, Term, TestSpec};
use jirvuntsag_reference::{run_fresh, trace, trace_fresh, Event, Kind, Model, State};

/// The number, the position, the state and each step of the kept run that is handed the fresh table.
fn kept(case: &Case) -> (u8, u32, State, Vec<Event>) {
    let mut table = Model::decode(&case.image).map_or(Vec::new(), |model| model.fresh_table(&case.state));
    trace(&case.image, case.state, &mut table, case.steps)
}

#[test]
fn a_fresh_run_is_the_kept_run_with_the_fresh_table() {
    let mut numbers = std::collections::BTreeSet::new();
    each_seed(190_000, 6_000, |seed, _| {
        let case = case(seed);
        let told = trace_fresh(&case.image, case.state, case.steps);
        assert_eq!(told, kept(&case));
        let (number, at, after, events) = told;
        assert_eq!(run_fresh(&case.image, case.state, case.steps), (number, at, after, events.len() as u16));
        numbers.insert(number);
    });
    assert!([0, 2, 3, 4, 6, 8, 9, 11, 12, 13].iter().all(|number| numbers.contains(number)), "{numbers:?}");
    assert!([5, 7, 10].iter().all(|number| !numbers.contains(number)), "{numbers:?}");
}

#[test]
fn a_fresh_run_on_a_decoded_model_is_the_one_on_its_image() {
    each_seed(200_000, 2_000, |seed, _| {
        let case = case(seed);
        let Ok(model) = Model::decode(&case.image) else { return };
        let (state, steps) = (case.state, case.steps);
        let (number, after, events) = model.trace_fresh(state, steps);
        assert_eq!(model.run_fresh(state, steps), (number, after, events.len() as u16));
        assert_eq!(run_fresh(&case.image, state, steps), (number, 0, after, events.len() as u16));
        assert_eq!(trace_fresh(&case.image, state, steps), (number, 0, after, events));
    });
}

#[test]
fn model_a_is_told_step_by_step() {
    let image = pack(&model_a());
    let from = Model::decode(&image).expect("model A").open_state();
    let (number, at, after, events) = trace_fresh(&image, from, 1_000);
    let told: Vec<(u32, Kind)> = events.iter().map(|event| (event.clock, event.kind)).collect();
    let (fire, wait) = (Kind::Fire, Kind::Wait);
    let by_hand = [(50, fire(0)), (150, wait(100)), (200, fire(1)), (300, wait(100)), (350, fire(1)), (400, fire(2))];
    assert_eq!(told, [&by_hand[..], &[(550, wait(150))]].concat());
    assert_eq!((number, at, after), (9, 0, state(550, &[buffer(0, 0, 0, 0), failed(0)])));
}

#[test]
fn an_image_is_refused_before_a_state() {
    let mut unfit = state(7, &[]);
    unfit.buffers[7].delay = 1;
    let follows = [&P1[..], &[0]].concat();
    let images: [(&[u8], u8, u32); 5] =
        [(&[0; 65_537], 1, 0), (&P1[..7], 2, 53), (&[1, 0], 3, 8), (&follows, 4, 0), (&P1, 6, 0)];
    for (image, number, at) in images {
        for steps in [0, 1, 65_535] {
            assert_eq!(run_fresh(image, unfit, steps), (number, at, unfit, 0));
            assert_eq!(trace_fresh(image, unfit, steps), (number, at, unfit, vec![]));
        }
    }
}

#[test]
fn a_run_of_nothing_halts_and_no_steps_are_done_whatever_would_stop_them() {
    assert_eq!(run_fresh(&P1, State::default(), 5), (9, 0, State::default(), 0));
    assert_eq!(run_fresh(&P1, State::default(), 0), (0, 0, State::default(), 0));
    let always = model(1, &[], vec![rule(0, 0, vec![TestSpec::new(0, 0, &[])], vec![])]);
    let full = state(u32::MAX, &[]);
    assert_eq!(always.run_fresh(full, 0), (0, full, 0));
    assert_eq!(always.run_fresh(full, 1), (8, full, 0));
    assert_eq!(always.run_fresh(state(0, &[]), 65_535), (0, state(50 * 65_535, &[]), 65_535));
}

/// Rule 0 matches a goal of two equal values, rule 1 any full one, and writes what its variables hold.
#[test]
fn values_of_a_rule_that_is_given_up_or_not_chosen_reach_no_other() {
    let test = |named: &[(usize, Term)]| vec![TestSpec::new(0, 1, named)];
    let equal = rule(5, 1, test(&[(0, V0), (1, V0)]), vec![]);
    let swaps = rule(0, 2, test(&[(0, V1), (1, V0)]), vec![ActionSpec::modify(0, &[(0, V0), (1, V1)])]);
    let after = rule(0, 1, test(&[(0, V0)]), vec![ActionSpec::modify(0, &[(1, V0)])]);
    let model = model(1, &[], vec![equal, swaps, after]);
    let from = state(0, &[buffer(1, 3, 4, 0)]);
    assert_eq!(model.run_fresh(from, 1), (0, state(50, &[buffer(1, 4, 3, 0)]), 1));
    assert_eq!(model.run_fresh(from, 2), (0, state(100, &[buffer(1, 3, 4, 0)]), 2));
}

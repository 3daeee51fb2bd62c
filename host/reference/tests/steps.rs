//! Single steps with answers worked out by hand, among them the plausible and wrong ones of document 01.

mod common;

use common::{buffer, failed, model, rule, state, V0, V1};
use jirvuntsag_packing::{model_a, pack, ActionSpec, RuleSpec, Term, TestSpec};
use jirvuntsag_reference::{Buffer, Model, State};

const S1: Term = Term::Symbol(1);
const LAST_CLOCK: u32 = 4_294_967_295;

/// One step from a state, by the kept run with its fresh table and by the fresh run.
fn step(model: &Model, from: State) -> (u8, State) {
    let mut table = model.fresh_table(&from);
    let (number, after, made) = model.run(from, &mut table, 1);
    assert_eq!(made, u16::from(number == 0));
    assert_eq!(model.run_fresh(from, 1), (number, after, made));
    (number, after)
}

/// A rule that fires on buffer 0 and asks buffer 1 for a fact of type 1.
fn asks(named: &[(usize, Term)]) -> RuleSpec {
    rule(0, 1, vec![TestSpec::new(0, 2, &[(0, V0)])], vec![ActionSpec::request(1, 1, named)])
}

const GOAL: Buffer = Buffer { isa: 2, slots: [1, 9, 0, 0, 0, 0, 0, 0], delay: 0, error: false };

/// What buffer 1 gets when asked for type 1 with first slot v0 = 1.
fn answer(facts: &[(u8, [u16; 2], u16, u16)]) -> Buffer {
    let model = model(2, facts, vec![asks(&[(0, V0)])]);
    let (number, after) = step(&model, state(0, &[GOAL]));
    assert_eq!((number, after.clock), (0, 50));
    after.buffers[1]
}

#[test]
fn requests_prefer_activation_then_the_lowest_number() {
    let best = [(1, [1, 5], 9, 100), (1, [1, 6], 10, 100), (1, [1, 7], 10, 60), (1, [2, 8], 99, 1), (2, [1, 4], 99, 1)];
    assert_eq!(answer(&best), buffer(1, 1, 6, 100));
    assert_eq!(answer(&[(1, [1, 5], 0x7fff, 1), (1, [1, 6], 0x8000, 2)]), buffer(1, 1, 6, 2));
    assert_eq!(answer(&[(1, [1, 5], 0, 65_535), (1, [1, 6], 0, 2)]), buffer(1, 1, 5, 65_535));
}

#[test]
fn a_request_that_nothing_fits_gives_nil_late_and_sets_the_flag() {
    assert_eq!(answer(&[]), failed(200));
    assert_eq!(answer(&[(1, [2, 1], 5, 1), (2, [1, 1], 5, 1)]), failed(200));
}

#[test]
fn a_request_without_slots_takes_any_fact_of_the_type() {
    let model = model(2, &[(2, [1, 1], 99, 1), (1, [3, 4], 0, 7)], vec![asks(&[])]);
    assert_eq!(step(&model, state(0, &[GOAL])).1.buffers[1], buffer(1, 3, 4, 7));
}

#[test]
fn a_requested_delay_does_not_lose_50() {
    assert_eq!(answer(&[(1, [1, 2], 0, 50)]).delay, 50);
    assert_eq!(answer(&[(1, [1, 2], 0, 49)]).delay, 49);
    assert_eq!(answer(&[(1, [1, 2], 0, 0)]).delay, 0);
}

#[test]
fn a_request_replaces_a_pending_chunk() {
    let model = model(2, &[(1, [1, 2], 0, 70)], vec![asks(&[(0, V0)])]);
    let from = state(0, &[GOAL, buffer(2, 8, 8, 60)]);
    assert_eq!(step(&model, from).1.buffers[1], buffer(1, 1, 2, 70));
}

#[test]
fn latency_0_is_visible_at_once_and_marked() {
    let arrived = rule(1, 0, vec![TestSpec::new(1, 1, &[])], vec![]);
    let model = model(2, &[(1, [1, 2], 0, 0)], vec![asks(&[(0, V0)]), arrived]);
    let from = state(0, &[GOAL]);
    let mut table = model.fresh_table(&from);
    assert_eq!(table[9], 0);
    model.run(from, &mut table, 1);
    assert_eq!(table[9], 1);
}

#[test]
fn a_chunk_that_arrives_within_the_firing_is_marked() {
    let idle = rule(0, 0, vec![TestSpec::new(0, 2, &[])], vec![]);
    let arrived = rule(1, 0, vec![TestSpec::new(1, 1, &[])], vec![]);
    let model = model(2, &[], vec![idle, arrived]);
    for (delay, word) in [(49, 1), (50, 1), (51, 0)] {
        let from = state(0, &[GOAL, buffer(1, 1, 2, delay)]);
        let mut table = model.fresh_table(&from);
        model.run(from, &mut table, 1);
        assert_eq!(table[9], word, "delay {delay}");
    }
}

#[test]
fn actions_read_the_state_before_the_step() {
    let tests = vec![TestSpec::new(0, 1, &[(0, V0), (1, V1)]), TestSpec::new(1, 1, &[])];
    let actions = vec![ActionSpec::modify(0, &[(0, V1), (1, V0)]), ActionSpec::modify(1, &[(0, V0), (1, V1)])];
    let model = model(2, &[], vec![rule(0, 2, tests, actions)]);
    let (_, after) = step(&model, state(0, &[buffer(1, 3, 4, 0), buffer(1, 7, 7, 0)]));
    assert_eq!(after.buffers[..2], [buffer(1, 4, 3, 0), buffer(1, 3, 4, 0)]);
}

#[test]
fn a_cleared_buffer_keeps_nothing() {
    let clear = rule(0, 0, vec![TestSpec::new(0, 2, &[])], vec![ActionSpec::clear(0), ActionSpec::clear(1)]);
    let model = model(2, &[], vec![clear]);
    let (_, after) = step(&model, state(7, &[GOAL, buffer(1, 1, 1, 90)]));
    assert_eq!(after, state(57, &[]));
}

#[test]
fn a_variable_has_one_value_throughout() {
    let tests = vec![TestSpec::new(0, 1, &[(0, V0), (1, V0)]), TestSpec::new(1, 1, &[(0, V0)])];
    let model = model(2, &[], vec![rule(0, 1, tests, vec![])]);
    let entry = |a, b, c| model.fresh_table(&state(0, &[buffer(1, a, b, 0), buffer(1, c, 5, 0)]));
    assert_eq!(entry(4, 4, 4), [1, 4, 0, 0, 0, 0, 0, 0, 0]);
    assert_eq!(entry(4, 5, 4), [0; 9]);
    assert_eq!(entry(4, 4, 5), [0; 9]);
    assert_eq!(entry(5, 4, 4), [0; 9]);
}

#[test]
fn empty_masks_test_type_and_visibility() {
    let model = model(1, &[], vec![rule(0, 0, vec![TestSpec::new(0, 0, &[])], vec![])]);
    let word = |from: Buffer| model.fresh_table(&state(0, &[from]))[0];
    assert_eq!(word(buffer(0, 0, 0, 0)), 1);
    assert_eq!(word(buffer(0, 0, 0, 1)), 0);
    assert_eq!(word(buffer(1, 0, 0, 0)), 0);
}

#[test]
fn the_highest_utility_then_the_lowest_number() {
    let tests = || vec![TestSpec::new(0, 2, &[])];
    let set = |value| vec![ActionSpec::modify(0, &[(1, Term::Symbol(value))])];
    let fired = |utilities: &[i16]| {
        let rules = (1..).zip(utilities).map(|(value, &utility)| rule(utility, 0, tests(), set(value))).collect();
        step(&model(1, &[], rules), state(0, &[GOAL])).1.buffers[0].slots[1] - 1
    };
    assert_eq!(fired(&[0, 1]), 1);
    assert_eq!(fired(&[-1, 0, 0]), 1);
    assert_eq!(fired(&[-32_768, 32_767, 32_767]), 1);
    assert_eq!(fired(&[-32_768, -32_768]), 0);
    assert_eq!(fired(&[-2, -1]), 1);
}

#[test]
fn waits_take_the_least_delay_from_all() {
    let model = model(3, &[], vec![]);
    let from = state(5, &[buffer(1, 1, 1, 30), buffer(1, 1, 1, 80), buffer(0, 0, 0, 0)]);
    assert_eq!(step(&model, from), (0, state(35, &[buffer(1, 1, 1, 0), buffer(1, 1, 1, 50)])));
    let nil_pending = state(5, &[buffer(0, 0, 0, 65_535), buffer(1, 1, 1, 65_535)]);
    assert_eq!(step(&model, nil_pending), (0, state(65_540, &[buffer(0, 0, 0, 0), buffer(1, 1, 1, 0)])));
}

#[test]
fn the_clock_in_waits_and_halts() {
    let model = model(1, &[], vec![]);
    let pending = |clock| state(clock, &[buffer(1, 1, 1, 100)]);
    assert_eq!(step(&model, pending(LAST_CLOCK - 100)).0, 0);
    assert_eq!(step(&model, pending(LAST_CLOCK - 99)), (8, pending(LAST_CLOCK - 99)));
    assert_eq!(step(&model, state(LAST_CLOCK, &[])).0, 9);
}

#[test]
fn seven_comes_before_eight() {
    let model = model(1, &[], vec![rule(0, 1, vec![TestSpec::new(0, 2, &[(0, V0)])], vec![])]);
    let from = state(LAST_CLOCK, &[GOAL]);
    for (entry, number) in [([1, 1, 0], 8), ([1, 2, 0], 7), ([1, 1, 1], 7), ([0, 0, 0], 9), ([2, 1, 0], 9)] {
        let mut table = [0; 9];
        table[..3].copy_from_slice(&entry);
        assert_eq!(model.run(from, &mut table, 3), (number, from, 0), "{entry:?}");
    }
}

#[test]
fn every_word_of_the_chosen_entry_counts() {
    let model = model(1, &[], vec![rule(0, 1, vec![TestSpec::new(0, 2, &[(0, V0)])], vec![])]);
    let from = state(0, &[GOAL]);
    for word in 1..9 {
        let mut table = model.fresh_table(&from);
        table[word] += 1;
        let before = table.clone();
        assert_eq!(model.run(from, &mut table, 1), (7, from, 0));
        assert_eq!(table, before);
    }
}

#[test]
fn only_a_first_word_of_1_counts_as_matching() {
    let model = model(1, &[], vec![rule(0, 0, vec![TestSpec::new(0, 2, &[])], vec![])]);
    for first in [0, 2, 257, 65_535] {
        let mut table = [first, 0, 0, 0, 0, 0, 0, 0, 0];
        assert_eq!(model.run(state(0, &[GOAL]), &mut table, 1).0, 9);
        assert_eq!(table[0], first);
    }
}

#[test]
fn a_stale_entry_that_is_not_chosen_stays() {
    let modify = rule(1, 0, vec![TestSpec::new(0, 2, &[])], vec![ActionSpec::modify(0, &[(0, S1)])]);
    let other = rule(0, 0, vec![TestSpec::new(1, 1, &[])], vec![]);
    let model = model(2, &[], vec![modify, other]);
    let from = state(0, &[GOAL]);
    let stale = [1, 9, 9, 9, 9, 9, 9, 9, 9];
    let mut table = model.fresh_table(&from);
    table[9..].copy_from_slice(&stale);
    assert_eq!(model.run(from, &mut table, 3).0, 0);
    assert_eq!(table[9..], stale);
}

#[test]
fn a_modify_that_changes_nothing_marks() {
    let idle = rule(0, 0, vec![TestSpec::new(0, 0, &[])], vec![ActionSpec::modify(0, &[])]);
    let other = rule(-1, 0, vec![TestSpec::new(0, 0, &[])], vec![]);
    let model = model(1, &[], vec![idle, other]);
    let mut table = model.fresh_table(&State::default());
    table[9..].fill(3);
    assert_eq!(model.run(State::default(), &mut table, 1).0, 0);
    assert_eq!(table[9..], [1, 0, 0, 0, 0, 0, 0, 0, 0]);
}

#[test]
fn a_run_that_ends_where_the_model_halts() {
    let image = pack(&model_a());
    let model = Model::decode(&image).expect("model A");
    for (steps, number, made) in [(6, 0, 6), (7, 0, 7), (8, 9, 7), (65_535, 9, 7)] {
        let from = model.open_state();
        let mut table = model.fresh_table(&from);
        let ran = model.run(from, &mut table, steps);
        assert_eq!((ran.0, ran.2), (number, made));
        assert_eq!(model.run_fresh(from, steps), ran);
    }
}

#[test]
fn states_that_are_not_well_formed() {
    let model = model(2, &[], vec![]);
    let answer = |from: State| {
        let (number, after, made) = model.run(from, &mut [], 0);
        assert_eq!(model.run_fresh(from, 0), (number, after, made));
        number
    };
    assert_eq!(answer(state(LAST_CLOCK, &[buffer(2, 4_095, 4_095, 65_535), buffer(0, 0, 0, 1)])), 0);
    assert_eq!(answer(state(0, &[buffer(3, 0, 0, 0)])), 6);
    assert_eq!(answer(state(0, &[buffer(1, 4_096, 0, 0)])), 6);
    assert_eq!(answer(state(0, &[buffer(0, 1, 0, 0)])), 6);
    assert_eq!(answer(state(0, &[buffer(65_535, 0, 0, 0)])), 6);
    let mut past = buffer(1, 1, 1, 0);
    past.slots[2] = 1;
    assert_eq!(answer(state(0, &[past])), 6);
    assert_eq!(answer(state(0, &[GOAL, GOAL, buffer(0, 0, 0, 1)])), 6);
    assert_eq!(answer(state(0, &[GOAL, GOAL, buffer(1, 0, 0, 0)])), 6);
    assert_eq!(answer(state(0, &[GOAL, GOAL, buffer(0, 0, 1, 0)])), 6);
}

#[test]
fn checks_come_in_order() {
    let image = pack(&model_a());
    let mut broken = State::default();
    broken.buffers[7].delay = 1;
    let model = Model::decode(&image).expect("model A");
    let mut long = vec![0; 28];
    assert_eq!(model.open(&mut long), (5, State::default()));
    assert_eq!(model.run(broken, &mut long, 1), (5, broken, 0));
    assert_eq!(model.refresh(&broken, 4, &mut long), (5, 0));
    assert_eq!(model.run(broken, &mut long[..27], 1), (6, broken, 0));
    assert_eq!(model.refresh(&broken, 4, &mut long[..27]), (6, 0));
    assert_eq!(model.refresh(&State::default(), 4, &mut long[..27]), (10, 0));
    assert_eq!(model.run_fresh(broken, 1), (6, broken, 0));
}

#[test]
fn with_eight_buffers_a_mark_of_256_is_the_first_too_large() {
    let model = model(8, &[], vec![rule(0, 0, vec![TestSpec::new(7, 0, &[])], vec![])]);
    let refresh = |mark| model.refresh(&State::default(), mark, &mut [0; 9]);
    assert_eq!(refresh(255), (0, 1));
    assert_eq!(refresh(127), (0, 0));
    assert_eq!(refresh(128), (0, 1));
    for mark in [256, 257, 32_768, 65_535] {
        assert_eq!(refresh(mark), (10, 0));
    }
}

#[test]
fn more_than_64_rules_are_chosen_in_order() {
    // Rule n matches when the slot is n, and moves on; the utilities fall, rise or tie.
    for utility in [|n: u16| n as i16, |n: u16| -(n as i16), |_: u16| 0] {
        let hand_on = |n: u16| {
            let next = Term::Symbol(n * 7 % 256);
            let tests = vec![TestSpec::new(0, 1, &[(0, Term::Symbol(n)), (1, V0)])];
            rule(utility(n), 1, tests, vec![ActionSpec::modify(0, &[(0, next)])])
        };
        let model = model(1, &[], (0..256).map(hand_on).collect());
        let mut from = state(0, &[buffer(1, 3, 77, 0)]);
        let mut table = model.fresh_table(&from);
        for _ in 0..100 {
            let slot = from.buffers[0].slots[0];
            let (number, after, events) = model.trace(from, &mut table, 1);
            assert_eq!((number, events.len()), (0, 1));
            assert_eq!(events[0].kind, jirvuntsag_reference::Kind::Fire(slot));
            assert_eq!(table, model.fresh_table(&after));
            from = after;
        }
    }
}

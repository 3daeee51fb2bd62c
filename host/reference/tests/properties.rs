//! Properties on random models, states and tables.

mod common;

use common::{entry_by_definition, spec_of};
use jirvuntsag_generate::{case, each_seed, mark, model, state, steps, table, Rng};
use jirvuntsag_packing::{pack, ModelSpec, RuleSpec};
use jirvuntsag_reference::{open, refresh, run, table_len, trace, Kind, Model, State};

/// A valid model with its specification.
fn valid(rng: &mut Rng) -> (ModelSpec, Model) {
    let spec = model(rng);
    let model = Model::decode(&pack(&spec)).expect("a valid model");
    (spec, model)
}

/// A run made one step at a time, each with a table from `renew`; 0 and 9 as a single run has them.
fn stepwise(model: &Model, mut state: State, table: &mut Vec<u16>, steps: u16, renew: bool) -> (u8, State, u16) {
    for made in 0..steps {
        if renew {
            *table = model.fresh_table(&state);
        }
        let (number, after, one) = model.run(state, table, 1);
        if number != 0 {
            assert_eq!((after, one), (state, 0));
            return (number, state, made);
        }
        assert_eq!(one, 1);
        state = after;
    }
    (0, state, steps)
}

#[test]
fn decoding_gives_the_packed_model_back() {
    each_seed(100_000, 3_000, |_, mut rng| {
        let (spec, model) = valid(&mut rng);
        assert_eq!(spec_of(&model), spec);
        assert_eq!(model.table_len(), 9 * spec.rules.len());
    });
}

#[test]
fn fresh_tables_follow_the_definition() {
    each_seed(110_000, 3_000, |_, mut rng| {
        let (spec, model) = valid(&mut rng);
        for _ in 0..4 {
            let state = state(&mut rng, &spec);
            let table = model.fresh_table(&state);
            for (rule, entry) in table.chunks_exact(9).enumerate() {
                assert_eq!(entry, entry_by_definition(&spec, rule, &state));
                assert_eq!(entry, model.fresh_entry(rule, &state));
            }
        }
        assert_eq!(model.fresh_entry(spec.rules.len(), &State::default()), [0; 9]);
    });
}

#[test]
fn a_kept_run_is_a_run_with_a_fresh_table_at_each_step() {
    each_seed(120_000, 4_000, |_, mut rng| {
        let (spec, model) = valid(&mut rng);
        let (state, steps) = (state(&mut rng, &spec), steps(&mut rng).min(200));
        let mut kept = model.fresh_table(&state);
        let answer = model.run(state, &mut kept, steps);
        assert_eq!(answer, stepwise(&model, state, &mut Vec::new(), steps, true));
        assert_eq!(answer, model.run_fresh(state, steps));
        assert_ne!(answer.0, 7);
        assert_eq!(kept, model.fresh_table(&answer.1));
        assert!(model.is_well_formed(&answer.1));
    });
}

#[test]
fn a_chain_of_runs_keeps_the_table_fresh() {
    each_seed(130_000, 2_000, |_, mut rng| {
        let (spec, model) = valid(&mut rng);
        let start = state(&mut rng, &spec);
        let (mut state, mut table) = (start, model.fresh_table(&start));
        let mut total = 0;
        for _ in 0..6 {
            let (number, after, made) = model.run(state, &mut table, rng.from_to(0, 9) as u16);
            state = after;
            total += made;
            assert_eq!(table, model.fresh_table(&state));
            if number != 0 {
                break;
            }
        }
        let mut whole = model.fresh_table(&start);
        assert_eq!(model.run(start, &mut whole, total), (0, state, total));
        assert_eq!(whole, table);
    });
}

#[test]
fn a_run_on_any_table_is_its_steps_one_by_one() {
    each_seed(140_000, 4_000, |_, mut rng| {
        let (spec, model) = valid(&mut rng);
        let state = state(&mut rng, &spec);
        let (_, before) = table(&mut rng, &spec, &model, &state);
        let steps = rng.from_to(0, 40) as u16;
        let (mut at_once, mut one_by_one) = (before.clone(), before.clone());
        let answer = model.run(state, &mut at_once, steps);
        if before.len() != model.table_len() {
            assert_eq!((answer, at_once), ((5, state, 0), before));
            return;
        }
        assert_eq!(answer, stepwise(&model, state, &mut one_by_one, steps, false));
        assert_eq!(at_once, one_by_one);
    });
}

#[test]
fn a_refresh_writes_the_touched_entries_and_no_others() {
    each_seed(150_000, 4_000, |_, mut rng| {
        let (spec, model) = valid(&mut rng);
        let state = state(&mut rng, &spec);
        let (_, before) = table(&mut rng, &spec, &model, &state);
        let mark = mark(&mut rng, model.buffers());
        let mut after = before.clone();
        let (number, count) = model.refresh(&state, mark, &mut after);
        if number != 0 {
            let length_is_right = before.len() == model.table_len();
            assert_eq!((number, count), (if length_is_right { 10 } else { 5 }, 0));
            assert_eq!(after, before);
            return;
        }
        let watched = |rule: &RuleSpec| {
            let tested = rule.tests.iter().map(|test| test.buffer);
            tested.chain(rule.queries.iter().map(|query| query.buffer)).collect::<Vec<u8>>()
        };
        let touched = |rule: usize| watched(&spec.rules[rule]).iter().any(|buffer| mark >> buffer & 1 == 1);
        assert_eq!(usize::from(count), (0..spec.rules.len()).filter(|&rule| touched(rule)).count());
        for (rule, (new, old)) in after.chunks_exact(9).zip(before.chunks_exact(9)).enumerate() {
            if touched(rule) {
                assert_eq!(new, entry_by_definition(&spec, rule, &state));
            } else {
                assert_eq!(new, old);
            }
        }
    });
}

#[test]
fn a_trace_tells_the_run() {
    each_seed(160_000, 3_000, |seed, _| {
        let case = case(seed);
        let (mut told, mut silent) = (case.table.clone(), case.table.clone());
        let (number, at, state, events) = trace(&case.image, case.state, &mut told, case.steps);
        assert_eq!((number, at, state, events.len() as u16), run(&case.image, case.state, &mut silent, case.steps));
        assert_eq!(told, silent);
        let mut clock = case.state.clock;
        for event in &events {
            let ms = match event.kind {
                Kind::Fire(_) => 50,
                Kind::Wait(ms) => ms,
            };
            clock += u32::from(ms);
            assert_eq!(event.clock, clock);
        }
        assert_eq!(state.clock, clock);
    });
}

/// Whether the image is refused by this number.
fn is_of_image(number: u8) -> bool {
    matches!(number, 1..=4 | 11..=13)
}

/// Holds a position to its number: it lies within the image where there is one, and is 0 where there is none.
fn assert_placed(image: &[u8], number: u8, at: u32) {
    let bits = 8 * image.len();
    match number {
        // A field that is wholly missing begins at the image's end, and a rule's last test may end there.
        2 | 12 => assert!(at as usize <= bits, "{at} of {bits}"),
        3 | 11 | 13 => assert!((at as usize) < bits, "{at} of {bits}"),
        _ => assert_eq!(at, 0, "{number}"),
    }
}

#[test]
fn refused_calls_change_nothing_and_all_tell_one_position() {
    each_seed(170_000, 6_000, |seed, _| {
        let case = case(seed);
        let refused = Model::decode(&case.image).err().map(|refusal| (refusal.number, refusal.at));
        let hold = |number, at| {
            assert_placed(&case.image, number, at);
            assert_eq!(refused, is_of_image(number).then_some((number, at)));
        };
        let mut table = case.table.clone();
        let (number, at, state) = open(&case.image, &mut table);
        hold(number, at);
        assert!(is_of_image(number) || matches!(number, 0 | 5));
        if number != 0 {
            assert_eq!((state, &table), (State::default(), &case.table));
        }
        let mut table = case.table.clone();
        let (number, at, state, made) = run(&case.image, case.state, &mut table, case.steps);
        hold(number, at);
        match number {
            0 => assert_eq!(made, case.steps),
            7..=9 => assert!(made < case.steps),
            _ => {
                assert!(is_of_image(number) || matches!(number, 5 | 6));
                assert_eq!((state, made, &table), (case.state, 0, &case.table));
            }
        }
        let mut table = case.table.clone();
        let (number, at, count) = refresh(&case.image, &case.state, case.mark, &mut table);
        hold(number, at);
        if number != 0 {
            assert!(is_of_image(number) || matches!(number, 5 | 6 | 10));
            assert_eq!((count, &table), (0, &case.table));
        }
        let (number, at, _) = table_len(&case.image);
        hold(number, at);
        assert!(is_of_image(number) || number == 0);
    });
}

#[test]
fn the_calls_on_a_decoded_model_are_those_on_its_image() {
    each_seed(180_000, 2_000, |seed, _| {
        let case = case(seed);
        let Ok(model) = Model::decode(&case.image) else { return };
        let (mut one, mut other) = (case.table.clone(), case.table.clone());
        let (number, state) = model.open(&mut other);
        assert_eq!(open(&case.image, &mut one), (number, 0, state));
        assert_eq!(one, other);
        let (mut one, mut other) = (case.table.clone(), case.table.clone());
        let (number, state, made) = model.run(case.state, &mut other, case.steps);
        assert_eq!(run(&case.image, case.state, &mut one, case.steps), (number, 0, state, made));
        assert_eq!(one, other);
        let (number, count) = model.refresh(&case.state, case.mark, &mut other);
        assert_eq!(refresh(&case.image, &case.state, case.mark, &mut one), (number, 0, count));
        assert_eq!(one, other);
        assert_eq!(table_len(&case.image), (0, 0, model.table_len()));
    });
}

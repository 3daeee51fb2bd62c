//! The types say what the library's numbers say, for each number, and nothing panics.

use std::collections::BTreeSet;

use jirvuntsag_proved::{calls, Buffer, Chunk, End, Model, Number, Refusal, State, Store, Table};

/// A model of version 2: one buffer, and a rule without tests that asks whether that is in error, and does nothing.
const ASKS: [u8; 12] = [2, 0x10, 0, 0x20, 0, 0, 0, 0, 0, 0, 0, 0x22];

/// The shipped model that counts from 1 to 3.
fn counting() -> Vec<u8> {
    let path = concat!(env!("CARGO_MANIFEST_DIR"), "/../../examples/counting.image");
    std::fs::read(path).expect("examples/counting.image")
}

#[test]
fn a_model_is_opened_run_and_refreshed() {
    let image = counting();
    let (model, state, mut table) = Model::open(&image).expect("an accepted image");
    assert_eq!((model.image(), table.rules(), state.clock), (&image[..], 3, 0));
    let matching: Vec<(bool, u16)> = table.entries().map(|entry| (entry.matches, entry.values[0])).collect();
    assert_eq!(matching, [(true, 1), (false, 0), (false, 0)]);
    let ran = model.run(state, &mut table, 1).expect("a run");
    assert_eq!((ran.end, ran.made), (End::Done, 1));
    let retrieval = ran.state.buffers[1];
    assert_eq!((retrieval.isa, &retrieval.slots[..2], retrieval.delay), (1, &[1, 2][..], 100));
    assert!(!retrieval.is_visible());
    assert_eq!(model.refresh(&ran.state, 2, &mut table), Ok(2));
    assert_eq!(model.refresh(&ran.state, 4, &mut table), Err(Refusal::Mark));
}

/// An image with one bit flipped.
fn flipped(image: &[u8], bit: usize) -> Vec<u8> {
    let mut flipped = image.to_vec();
    flipped[bit / 8] ^= 0x80 >> (bit % 8);
    flipped
}

/// Images that are refused and what for, each kind of rule broken once: the counting model cut, longer, or with bits flipped.
fn refused() -> Vec<(Vec<u8>, Refusal)> {
    let image = counting();
    vec![
        (vec![0; 65_537], Refusal::TooLong),
        (vec![], Refusal::Missing { at: 0 }),
        (image[..70].to_vec(), Refusal::Missing { at: 558 }),
        (vec![4], Refusal::Broken { at: 0 }),
        // Six tests in rule 0, where there are two buffers; its action of kind 3.
        (flipped(&image, 238), Refusal::Broken { at: 237 }),
        (flipped(&image, 299), Refusal::Broken { at: 299 }),
        ([&image[..], &[0]].concat(), Refusal::Follows),
        // The first test of rule 0 with the last of eight slots, where the type has two.
        (flipped(&image, 265), Refusal::Mask { at: 258 }),
        // Its term variable 1, where the rule has one; the rule with two variables more, which no test has.
        (flipped(&image, 278), Refusal::Variable { at: 266 }),
        (flipped(&image, 247), Refusal::Variable { at: 296 }),
        // Its first test of buffer 2, where there are two; of buffer 1, which the second tests too.
        (flipped(&image, 250), Refusal::Buffer { at: 249 }),
        (flipped(&image, 251), Refusal::Buffer { at: 279 }),
        // The action of rule 2 as a modify of buffer 1, which the rule does not test.
        (flipped(&flipped(&image, 560), 561), Refusal::Buffer { at: 561 }),
        // A rule without tests and without queries; a query of buffer 1, where there is one; a query of kind 3.
        (flipped(&ASKS, 90), Refusal::Broken { at: 87 }),
        (flipped(&ASKS, 93), Refusal::Buffer { at: 91 }),
        (flipped(&ASKS, 95), Refusal::Broken { at: 94 }),
    ]
}

#[test]
fn each_refusal_of_an_image_is_told() {
    for (image, refusal) in refused() {
        assert_eq!(Model::open(&image).err(), Some(refusal));
        assert_eq!(calls::table_length(&image), Err(refusal));
    }
}

#[test]
fn a_refused_call_leaves_the_table_as_it_was() {
    let image = counting();
    let (model, state, _) = Model::open(&image).expect("an accepted image");
    let mut short = Table::from_words(vec![7; 26]);
    assert_eq!(model.run(state, &mut short, 1), Err(Refusal::TableLength));
    assert_eq!(model.refresh(&state, 1, &mut short), Err(Refusal::TableLength));
    assert_eq!(short.words(), [7; 26]);
    let mut unfit = state;
    unfit.buffers[0].isa = 3;
    let mut table = Table::from_words(vec![7; 27]);
    assert_eq!(model.trace(unfit, &mut table, 1), Err(Refusal::State));
    assert_eq!(table.words(), [7; 27]);
}

#[test]
fn a_refused_image_is_told_by_each_call_that_takes_a_table() {
    let state = State { clock: 7, ..State::default() };
    for (image, refusal) in refused() {
        let number = Number::Refused(refusal);
        let mut table = [7; 26];
        assert_eq!(calls::open(&image, &mut table), (number, State::default()));
        assert_eq!(calls::run(&image, &state, &mut table, 1), (number, state, 0));
        assert_eq!(calls::trace(&image, &state, &mut table, 1), (number, state, vec![]));
        assert_eq!(calls::refresh(&image, &state, 1, &mut table), (number, 0));
        assert_eq!(table, [7; 26]);
    }
}

#[test]
fn an_image_without_rules_needs_no_words_and_is_not_refused() {
    let nothing = [1, 0x10, 0, 0, 0, 0, 0, 0];
    assert_eq!(calls::table_length(&nothing), Ok(0));
    assert_eq!(calls::table_length(&nothing[..7]), Err(Refusal::Missing { at: 53 }));
    assert_eq!(calls::table_length(&counting()), Ok(27));
    let (_, state, table) = Model::open(&nothing).expect("an accepted image");
    assert_eq!((state, table.rules()), (State::default(), 0));
}

#[test]
fn each_end_of_a_run_is_told() {
    let image = counting();
    let (model, state, table) = Model::open(&image).expect("an accepted image");
    let end = |state: State, table: &Table, steps| model.run(state, &mut table.clone(), steps).map(|ran| ran.end);
    assert_eq!(end(state, &table, 7), Ok(End::Done));
    assert_eq!(end(state, &table, 8), Ok(End::Halted));
    assert_eq!(end(State { clock: u32::MAX, ..state }, &table, 1), Ok(End::ClockFull));
    let mut stale = table.clone();
    stale.words_mut()[1] = 2;
    assert_eq!(end(state, &stale, 1), Ok(End::Stale));
}

#[test]
fn a_fresh_run_gives_what_the_kept_run_gives() {
    let image = counting();
    let (model, state, table) = Model::open(&image).expect("an accepted image");
    for steps in [0, 1, 6, 7, 8, u16::MAX] {
        assert_eq!(model.run_fresh(state, steps), model.run(state, &mut table.clone(), steps));
        assert_eq!(model.trace_fresh(state, steps), model.trace(state, &mut table.clone(), steps));
    }
}

#[test]
fn each_refusal_of_a_fresh_run_is_told() {
    let image = counting();
    let (model, state, _) = Model::open(&image).expect("an accepted image");
    let mut unfit = state;
    unfit.buffers[0].isa = 3;
    assert_eq!(model.run_fresh(unfit, 1), Err(Refusal::State));
    assert_eq!(model.trace_fresh(unfit, 1), Err(Refusal::State));
    for (image, refusal) in refused() {
        assert_eq!(calls::run_fresh(&image, &unfit, 1), (Number::Refused(refusal), unfit, 0));
        assert_eq!(calls::trace_fresh(&image, &unfit, 1), (Number::Refused(refusal), unfit, vec![]));
    }
}

#[test]
fn each_end_of_a_fresh_run_is_told() {
    let image = counting();
    let (model, state, _) = Model::open(&image).expect("an accepted image");
    let end = |state: State, steps| model.run_fresh(state, steps).map(|ran| (ran.end, ran.made));
    assert_eq!(end(state, 7), Ok((End::Done, 7)));
    assert_eq!(end(state, 8), Ok((End::Halted, 7)));
    assert_eq!(end(State { clock: u32::MAX, ..state }, 1), Ok((End::ClockFull, 0)));
    assert_eq!(end(State { clock: u32::MAX, ..state }, 0), Ok((End::Done, 0)));
    assert_eq!(end(State { clock: u32::MAX - 200, ..state }, 7), Ok((End::ClockFull, 3)));
}

/// The chunk that the counting model clears at its end: count 3, 3.
const COUNTED: Chunk = Chunk { isa: 2, slots: [3, 3, 0, 0, 0, 0, 0, 0] };

#[test]
fn a_run_learns_where_a_store_is_lent() {
    let image = counting();
    let (model, state, table) = Model::open(&image).expect("an accepted image");
    let plain = model.run(state, &mut table.clone(), 1_000);
    let mut store = Store::new();
    assert_eq!(model.run_lent(state, &mut table.clone(), 1_000, Some(&mut store)), plain);
    assert_eq!(store.facts().collect::<Vec<_>>(), [COUNTED]);
    assert_eq!(store, Store::from_facts(&[COUNTED]).expect("one fact"));
    // By each way of running, and the same store handed on learns it once.
    let kept = store.clone();
    let traced = model.trace_lent(state, &mut table.clone(), 1_000, Some(&mut store)).expect("a run");
    assert_eq!((Ok(traced.0), &store), (plain, &kept));
    let fresh = model.trace_fresh_lent(state, 1_000, Some(&mut store)).expect("a run");
    assert_eq!((fresh, &store), (traced, &kept));
    let mut fresh_store = Store::new();
    assert_eq!((model.run_fresh_lent(state, 1_000, Some(&mut fresh_store)), &fresh_store), (plain, &kept));
    // Without one nothing is learned.
    assert_eq!(model.run_lent(state, &mut table.clone(), 1_000, None), plain);
    assert_eq!(model.run_fresh_lent(state, 1_000, None), plain);
}

#[test]
fn a_store_that_is_full_ends_a_run_and_one_that_does_not_fit_is_refused() {
    let image = counting();
    let (model, state, table) = Model::open(&image).expect("an accepted image");
    let facts = |count: u16| {
        let other = |first| Chunk { isa: 1, slots: [first, 9, 0, 0, 0, 0, 0, 0] };
        Store::from_facts(&(0..count).map(|number| other(100 + number)).collect::<Vec<_>>()).expect("facts")
    };
    let mut full = facts(256);
    let ran = model.run_lent(state, &mut table.clone(), 1_000, Some(&mut full)).expect("a run");
    assert_eq!((ran.end, ran.made, full == facts(256)), (End::StoreFull, 5, true));
    assert_eq!(model.run_fresh_lent(state, 1_000, Some(&mut full)), Ok(ran));
    assert_eq!(ran.end.to_string(), "the store would have more than 256 facts");
    let mut nearly = facts(255);
    let ran = model.run_lent(state, &mut table.clone(), 1_000, Some(&mut nearly)).expect("a run");
    assert_eq!((ran.end, nearly.len(), nearly.facts().last()), (End::Halted, 256, Some(COUNTED)));
    let unfit = [Chunk { isa: 0, ..COUNTED }, Chunk { isa: 3, ..COUNTED }, Chunk { slots: [4_096; 8], ..COUNTED }];
    for chunk in unfit {
        let mut store = Store::from_facts(&[COUNTED, chunk]).expect("two facts");
        let before = store.clone();
        assert_eq!(model.run_lent(state, &mut table.clone(), 1, Some(&mut store)), Err(Refusal::Store));
        assert_eq!(model.trace_fresh_lent(state, 1, Some(&mut store)), Err(Refusal::Store));
        assert_eq!(store, before);
    }
    let mut short = Store::from_words(vec![0; 2_304]);
    assert_eq!(model.run_fresh_lent(state, 0, Some(&mut short)), Err(Refusal::Store));
}

#[test]
fn a_rule_that_asks_for_an_error_fires_once_it_is_seen() {
    let (model, mut state, mut table) = Model::open(&ASKS).expect("an accepted image");
    assert!(!state.buffers[0].error && table.entries().all(|entry| !entry.matches));
    assert_eq!(model.run(state, &mut table, 1).expect("a run").end, End::Halted);
    state.buffers[0] = Buffer { delay: 60, error: true, ..Buffer::default() };
    assert!(!state.buffers[0].has_failed());
    assert_eq!(model.refresh(&state, 1, &mut table), Ok(1));
    // A wait of 60 ms, and then the rule fires as often as it is asked.
    let ran = model.run(state, &mut table, 3).expect("a run");
    assert_eq!((ran.end, ran.state.clock, ran.state.buffers[0].has_failed()), (End::Done, 160, true));
    assert_eq!(model.run_fresh(state, 3), Ok(ran));
}

#[test]
fn an_error_flag_beside_a_chunk_or_past_the_count_is_refused() {
    let image = counting();
    let (model, opening, table) = Model::open(&image).expect("an accepted image");
    for buffer in [0, 2, 7] {
        let mut state = opening;
        state.buffers[buffer].error = true;
        assert_eq!(model.run(state, &mut table.clone(), 1), Err(Refusal::State), "buffer {buffer}");
        assert_eq!(model.run_fresh(state, 1), Err(Refusal::State), "buffer {buffer}");
        assert_eq!(model.refresh(&state, 1, &mut table.clone()), Err(Refusal::State), "buffer {buffer}");
        assert_eq!(calls::run_fresh(&image, &state, 1), (Number::Refused(Refusal::State), state, 0));
    }
    let mut state = opening;
    state.buffers[1].error = true;
    // The first step asks the retrieval buffer again, and a fact is found.
    let after = model.run_fresh(state, 1).expect("a run").state;
    assert_eq!((after.buffers[1].isa, after.buffers[1].error), (1, false));
}

#[test]
fn each_number_has_its_own_words() {
    let at = 0;
    let refusals = [
        Refusal::TooLong,
        Refusal::Missing { at },
        Refusal::Broken { at },
        Refusal::Follows,
        Refusal::TableLength,
        Refusal::State,
        Refusal::Mark,
        Refusal::Mask { at },
        Refusal::Variable { at },
        Refusal::Buffer { at },
        Refusal::Store,
    ];
    let ends = [End::Done, End::Stale, End::ClockFull, End::Halted, End::StoreFull].map(Number::Ended);
    let all = [&refusals.map(Number::Refused)[..], &ends].concat();
    let numbers: BTreeSet<u8> = all.iter().map(|number| number.number()).collect();
    assert_eq!(numbers, (0..=15).collect());
    let words: BTreeSet<String> = all.iter().map(Number::to_string).collect();
    assert_eq!(words.len(), 16);
    assert!(refusals.iter().all(|refusal| refusal.to_string().starts_with(refusal.words())));
}

#[test]
fn an_error_carries_number_position_and_words() {
    let refusal = Model::open(&flipped(&counting(), 265)).expect_err("a mask with a slot too many");
    assert_eq!((refusal.number(), refusal.position()), (11, 258));
    assert_eq!(refusal.words(), "a mask has a bit past the type's slots");
    assert_eq!(refusal.to_string(), "a mask has a bit past the type's slots, at bit 258");
    let refusal = Model::open(&[&counting()[..], &[0]].concat()).expect_err("a byte too many");
    assert_eq!((refusal.number(), refusal.position()), (4, 0));
    assert_eq!(refusal.to_string(), refusal.words());
}

/// What a program prints whose `main` gives up a refused call by `?`.
#[test]
fn a_main_that_gives_it_up_prints_the_sentence() {
    let refused = || -> Result<(), Box<dyn std::error::Error>> {
        Model::open(&[4])?;
        Ok(())
    };
    let printed = format!("Error: {:?}", refused().expect_err("another version"));
    assert_eq!(printed, "Error: a version, count, type or kind breaks its rule, at bit 0 (number 3)");
}

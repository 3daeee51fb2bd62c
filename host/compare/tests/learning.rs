//! Runs that are lent a store, on both engines: cases by hand, and random ones, fresh and kept.

use std::collections::BTreeMap;

use jirvuntsag_compare::{buffer, failed, hold_lent, state, Told, BOTH};
use jirvuntsag_generate::{case, each_seed};
use jirvuntsag_packing::{model_a, pack, ActionSpec, ChunkSpec, FactSpec, ModelSpec, RuleSpec, Term, TestSpec};
use jirvuntsag_reference::{Buffer, Event, Kind, State, PLACES, STORE_WORDS};

/// The words of a store with these facts of two slots.
fn store(facts: &[(u16, u16, u16)]) -> Vec<u16> {
    let mut words = vec![0; STORE_WORDS];
    words[0] = facts.len() as u16;
    for (place, &(isa, first, second)) in words[1..].chunks_exact_mut(9).zip(facts) {
        place[..3].copy_from_slice(&[isa, first, second]);
    }
    words
}

/// So many facts of type 1 that no test below has anything to do with.
fn filled(count: u16) -> Vec<u16> {
    store(&(0..count).map(|number| (1, 1_000 + number, 0)).collect::<Vec<_>>())
}

/// Three buffers, two types of two slots, one fact of type 1, (7, 8), and these rules.
fn image(rules: Vec<RuleSpec>) -> Vec<u8> {
    let fact = FactSpec { chunk: ChunkSpec::new(1, &[7, 8]), activation: 10, latency: 100 };
    let opening = vec![ChunkSpec::nil(); 3];
    pack(&ModelSpec { failure: 200, types: vec![2, 2], opening, facts: vec![fact], rules, ..ModelSpec::default() })
}

/// A rule that fires while its first buffer holds type 1, and does these actions.
fn rule(actions: Vec<ActionSpec>) -> RuleSpec {
    RuleSpec { tests: vec![TestSpec::new(0, 1, &[])], actions, ..RuleSpec::default() }
}

/// One step of a rule with these actions.
fn step(actions: Vec<ActionSpec>, from: State, lent: &[u16]) -> (Told, Vec<u16>) {
    hold_lent(&image(vec![rule(actions)]), from, 1, lent)
}

/// Clears of the first two buffers.
fn clear_two() -> Vec<ActionSpec> {
    vec![ActionSpec::clear(0), ActionSpec::clear(1)]
}

/// The first two buffers with these chunks, at clock 0.
fn two(one: Buffer, other: Buffer) -> State {
    state(0, &[one, other])
}

#[test]
fn random_models_states_and_stores() {
    let mut numbers: BTreeMap<u8, u32> = BTreeMap::new();
    let mut learned = 0;
    each_seed(80_000, 12_000, |seed, _| {
        let case = case(seed);
        let (told, left) = hold_lent(&case.image, case.state, case.steps, &case.store);
        *numbers.entry(told.0).or_default() += 1;
        learned += u32::from(left != case.store);
    });
    println!("{numbers:?}, {learned} learned");
    let met: Vec<u8> = numbers.keys().copied().collect();
    assert_eq!(met, [0, 1, 2, 3, 4, 6, 8, 9, 11, 12, 13, 14, 15]);
    assert!(learned > 300 && numbers[&14] > 50, "{learned} {numbers:?}");
}

#[test]
fn a_chunk_that_is_cleared_is_learned() {
    let (told, left) = step(vec![ActionSpec::clear(0)], state(0, &[buffer(1, 3, 4, 0)]), &store(&[]));
    assert_eq!((told.0, told.2), (0, state(50, &[])));
    assert!(left == store(&[(1, 3, 4)]));
    // After what was learned before.
    let (_, left) = step(vec![ActionSpec::clear(0)], state(0, &[buffer(1, 3, 4, 0)]), &store(&[(2, 5, 5)]));
    assert!(left == store(&[(2, 5, 5), (1, 3, 4)]));
}

#[test]
fn what_is_known_nil_or_pending_or_replaced_is_not_learned() {
    let goal = buffer(1, 3, 4, 0);
    let known = step(vec![ActionSpec::clear(0)], state(0, &[goal]), &store(&[(1, 3, 4)]));
    assert!(known.0 .0 == 0 && known.1 == store(&[(1, 3, 4)]));
    let of_the_image = step(vec![ActionSpec::clear(0)], state(0, &[buffer(1, 7, 8, 0)]), &store(&[]));
    assert!(of_the_image.0 .0 == 0 && of_the_image.1 == store(&[]));
    let clear_other = || vec![ActionSpec::clear(1)];
    for other in [buffer(0, 0, 0, 0), buffer(2, 5, 6, 1), buffer(2, 5, 6, 50), buffer(0, 0, 0, 9)] {
        let (told, left) = step(clear_other(), two(goal, other), &store(&[]));
        assert!(told.2 == state(50, &[goal]) && left == store(&[]), "{other:?}");
    }
    let (_, left) = step(vec![ActionSpec::request(1, 1, &[])], two(goal, buffer(2, 5, 6, 0)), &store(&[]));
    assert!(left == store(&[]), "a request stores nothing");
    let (_, left) = step(vec![ActionSpec::modify(0, &[(0, Term::Symbol(9))])], state(0, &[goal]), &store(&[]));
    assert!(left == store(&[]), "a modify stores nothing");
}

#[test]
fn several_clears_go_by_rising_buffer_and_equal_chunks_are_learned_once() {
    let (_, left) = step(clear_two(), two(buffer(1, 3, 4, 0), buffer(2, 3, 4, 0)), &store(&[]));
    assert!(left == store(&[(1, 3, 4), (2, 3, 4)]));
    let (_, left) = step(clear_two(), two(buffer(1, 3, 4, 0), buffer(1, 3, 4, 0)), &store(&[]));
    assert!(left == store(&[(1, 3, 4)]));
    let (_, left) = step(clear_two(), two(buffer(1, 3, 4, 0), buffer(1, 4, 3, 0)), &store(&[]));
    assert!(left == store(&[(1, 3, 4), (1, 4, 3)]));
}

/// The first rule clears its goal; the second, when that is nil, asks for a fact of type 1 that begins with 3.
fn clears_then_asks() -> Vec<u8> {
    let ask = RuleSpec {
        tests: vec![TestSpec::new(0, 0, &[]), TestSpec::new(1, 0, &[])],
        actions: vec![ActionSpec::request(1, 1, &[(0, Term::Symbol(3))])],
        ..RuleSpec::default()
    };
    image(vec![rule(vec![ActionSpec::clear(0)]), ask])
}

#[test]
fn a_chunk_is_cleared_and_then_retrieved() {
    let from = state(0, &[buffer(1, 3, 4, 0)]);
    let (told, left) = hold_lent(&clears_then_asks(), from, 3, &store(&[]));
    let kinds: Vec<(u32, Kind)> = told.3.iter().map(|event| (event.clock, event.kind)).collect();
    assert_eq!(kinds, [(50, Kind::Fire(0)), (100, Kind::Fire(1)), (150, Kind::Wait(50))]);
    assert_eq!((told.0, told.2), (0, state(150, &[buffer(0, 0, 0, 0), buffer(1, 3, 4, 0)])));
    assert!(left == store(&[(1, 3, 4)]));
    // Without a store it is not there, and the answer is nil after the failure latency.
    for engine in BOTH {
        let (number, _, after, _) = (engine.trace_fresh_lent)(&clears_then_asks(), from, 2, None);
        assert_eq!((number, after), (0, state(100, &[buffer(0, 0, 0, 0), failed(200)])), "{}", engine.name);
    }
}

#[test]
fn a_request_in_the_step_that_clears_reads_the_memory_before_it() {
    let actions = || vec![ActionSpec::clear(0), ActionSpec::request(1, 1, &[(0, Term::Symbol(3))])];
    let from = state(0, &[buffer(1, 3, 4, 0)]);
    let (told, left) = step(actions(), from, &store(&[]));
    assert_eq!(told.2, state(50, &[buffer(0, 0, 0, 0), failed(200)]));
    assert!(left == store(&[(1, 3, 4)]));
    let (told, _) = step(actions(), from, &store(&[(1, 3, 9)]));
    assert_eq!(told.2, state(50, &[buffer(0, 0, 0, 0), buffer(1, 3, 9, 50)]));
}

#[test]
fn facts_of_the_image_come_before_learned_ones_and_those_in_their_order() {
    let ask = |slot, value| vec![ActionSpec::request(1, 1, &[(slot, Term::Symbol(value))])];
    let from = state(0, &[buffer(1, 1, 1, 0)]);
    let lent = store(&[(2, 7, 1), (1, 7, 1), (1, 7, 2), (1, 6, 8)]);
    let brought = |actions, lent: &[u16]| step(actions, from, lent).0 .2.buffers[1];
    assert_eq!(brought(ask(0, 7), &lent), buffer(1, 7, 8, 100));
    assert_eq!(brought(ask(1, 8), &lent), buffer(1, 7, 8, 100));
    assert_eq!(brought(ask(1, 1), &lent), buffer(1, 7, 1, 50));
    assert_eq!(brought(ask(0, 6), &lent), buffer(1, 6, 8, 50));
    // Of activation 0 too: the lowest number among equals.
    let fact = FactSpec { chunk: ChunkSpec::new(1, &[7, 8]), activation: 0, latency: 100 };
    let spec = ModelSpec {
        failure: 200,
        types: vec![2, 2],
        opening: vec![ChunkSpec::nil(); 3],
        facts: vec![fact],
        rules: vec![rule(ask(0, 7))],
        ..ModelSpec::default()
    };
    assert_eq!(hold_lent(&pack(&spec), from, 1, &lent).0 .2.buffers[1], buffer(1, 7, 8, 100));
}

#[test]
fn a_full_store_and_a_step_that_would_learn_one_none_or_two() {
    let one = state(0, &[buffer(1, 3, 4, 0)]);
    let clear = || vec![ActionSpec::clear(0)];
    let (told, left) = step(clear(), one, &filled(256));
    assert!((told.0, told.1, told.2, told.3.len()) == (14, 0, one, 0) && left == filled(256));
    let (told, left) = step(clear(), one, &filled(255));
    assert!(told.0 == 0 && left[0] == 256);
    let known = state(0, &[buffer(1, 1_100, 0, 0)]);
    let (told, left) = step(clear(), known, &filled(256));
    assert!((told.0, told.2) == (0, state(50, &[])) && left == filled(256));
    let different = two(buffer(1, 3, 4, 0), buffer(2, 3, 4, 0));
    for (count, number, after) in [(254, 0, 256), (255, 14, 255), (256, 14, 256)] {
        let (told, left) = step(clear_two(), different, &filled(count));
        assert_eq!((told.0, left[0]), (number, after), "{count}");
        assert!(number == 0 || (told.2 == different && left == filled(count)));
    }
    // Two equal chunks need one place.
    let (told, left) = step(clear_two(), two(buffer(1, 3, 4, 0), buffer(1, 3, 4, 0)), &filled(255));
    assert_eq!((told.0, left[0]), (0, 256));
}

#[test]
fn a_full_clock_is_told_before_a_full_store_and_a_stale_entry_before_both() {
    let clear = image(vec![rule(vec![ActionSpec::clear(0)])]);
    let at = |clock| state(clock, &[buffer(1, 3, 4, 0)]);
    for (clock, number) in [(u32::MAX - 50, 14), (u32::MAX - 49, 8), (u32::MAX, 8)] {
        assert_eq!(hold_lent(&clear, at(clock), 1, &filled(256)).0 .0, number, "{clock}");
    }
    for engine in BOTH {
        let (mut table, mut lent) = (vec![1, 5, 0, 0, 0, 0, 0, 0, 0], filled(256));
        let (number, ..) = (engine.run_lent)(&clear, at(u32::MAX), &mut table, 1, Some(&mut lent));
        assert_eq!(number, 7, "{}", engine.name);
    }
}

/// The places below the count alone are looked at, and duplicates are taken.
#[test]
fn a_store_is_refused_for_what_its_count_covers() {
    let clear = image(vec![rule(vec![ActionSpec::clear(0)])]);
    let from = state(0, &[buffer(1, 3, 4, 0)]);
    let spoiled = |at: usize, value: u16| {
        let mut words = store(&[(1, 5, 6), (2, 5, 6), (1, 5, 6)]);
        words[at] = value;
        words
    };
    let fit = [
        store(&[]),
        spoiled(1 + 27, 65_535),
        spoiled(STORE_WORDS - 1, 9),
        spoiled(2, 4_095),
        spoiled(0, 0),
        filled(256),
    ];
    for words in fit {
        assert_eq!(hold_lent(&clear, from, 0, &words).0 .0, 0);
    }
    let unfit = [
        spoiled(0, 4),
        spoiled(0, 257),
        spoiled(0, 65_535),
        spoiled(1, 0),
        spoiled(10, 3),
        spoiled(10, 65),
        spoiled(19, 257),
        spoiled(2, 4_096),
        spoiled(21, 65_535),
        spoiled(4, 1),
        spoiled(9, 65_535),
        spoiled(27, 1),
        vec![],
        vec![0],
        vec![0; STORE_WORDS - 1],
        vec![0; STORE_WORDS + 1],
        vec![0; 1 + 9 * (PLACES + 44)],
    ];
    for words in unfit {
        for steps in [0, 1, 65_535] {
            let (told, left) = hold_lent(&clear, from, steps, &words);
            assert!((told.0, told.1, told.2) == (15, 0, from) && left == words);
        }
    }
    let mut broken = from;
    broken.buffers[0].isa = 3;
    assert_eq!(hold_lent(&clear, broken, 1, &[0]).0 .0, 6, "6 before 15");
    assert_eq!(hold_lent(&[4], from, 1, &[0]).0 .0, 3);
}

#[test]
fn what_is_past_the_count_stays_word_for_word() {
    let mut words = store(&[(1, 5, 6)]);
    words[10..].fill(65_535);
    let (_, left) = step(vec![ActionSpec::clear(0)], state(0, &[buffer(1, 3, 4, 0)]), &words);
    assert_eq!((&left[..2], &left[10..19]), (&[2, 1][..], &[1, 3, 4, 0, 0, 0, 0, 0, 0][..]));
    assert!(left[19..].iter().all(|&word| word == 65_535));
}

/// Four rules that take turns by the goal's first slot: the second buffer is cleared, asked for again, changed, and cleared.
fn clears_recalls_and_changes() -> Vec<u8> {
    let turn = |number: u16| (0, Term::Symbol(number));
    let rule = |number: u16, other: u8, action: ActionSpec| RuleSpec {
        tests: vec![TestSpec::new(0, 1, &[turn(number)]), TestSpec::new(1, other, &[])],
        actions: vec![ActionSpec::modify(0, &[turn(number + 1)]), action],
        ..RuleSpec::default()
    };
    image(vec![
        rule(1, 2, ActionSpec::clear(1)),
        rule(2, 0, ActionSpec::request(1, 2, &[])),
        rule(3, 2, ActionSpec::modify(1, &[(1, Term::Symbol(9))])),
        rule(4, 2, ActionSpec::clear(1)),
    ])
}

#[test]
fn what_is_learned_is_recalled_changed_and_learned_anew() {
    let (image, from) = (clears_recalls_and_changes(), two(buffer(1, 1, 1, 0), buffer(2, 5, 6, 0)));
    let (told, left) = hold_lent(&image, from, 9, &store(&[]));
    let kinds: Vec<Kind> = told.3.iter().map(|event| event.kind).collect();
    assert_eq!(kinds, [Kind::Fire(0), Kind::Fire(1), Kind::Wait(50), Kind::Fire(2), Kind::Fire(3)]);
    assert_eq!((told.0, told.2), (9, state(250, &[buffer(1, 5, 1, 0)])));
    assert!(left == store(&[(2, 5, 6), (2, 5, 9)]));
    // With one place the last step is not made, and all before it are.
    let (told, left) = hold_lent(&image, from, 9, &filled(255));
    assert_eq!((told.0, told.3.len(), left[0]), (14, 4, 256));
    assert_eq!(told.2, state(200, &[buffer(1, 4, 1, 0), buffer(2, 5, 9, 0)]));
    // One step at a time, each lent what the one before it left.
    let (mut at, mut lent) = (from, store(&[]));
    for _ in 0..5 {
        let (told, left) = hold_lent(&image, at, 1, &lent);
        (at, lent) = (told.2, left);
    }
    assert!(at == state(250, &[buffer(1, 5, 1, 0)]) && lent == store(&[(2, 5, 6), (2, 5, 9)]));
}

/// 512 facts of type 1 whose first slot is this, and two rules: one clears the second buffer, the other then asks for a fact.
fn large(first: impl Fn(u16) -> u16, wanted: &[(usize, Term)]) -> Vec<u8> {
    let fact = |number| FactSpec { chunk: ChunkSpec::new(1, &[first(number), number]), activation: 10, latency: 100 };
    let turn = |number: u16| (0, Term::Symbol(number));
    let rule = |number: u16, action: ActionSpec| RuleSpec {
        tests: vec![TestSpec::new(0, 2, &[turn(number)])],
        actions: vec![ActionSpec::modify(0, &[turn(number + 1)]), action],
        ..RuleSpec::default()
    };
    pack(&ModelSpec {
        failure: 200,
        types: vec![2, 2],
        opening: vec![ChunkSpec::nil(); 3],
        facts: (0..512).map(fact).collect(),
        rules: vec![rule(1, ActionSpec::clear(1)), rule(2, ActionSpec::request(1, 1, wanted))],
        ..ModelSpec::default()
    })
}

/// The largest memory: 512 facts of the image and 256 that are learned, of which the last is asked for, whether slot 0 tells it
/// from the others, tells nothing, or is not named.
#[test]
fn the_last_of_768_facts_is_found() {
    let from = |first| two(buffer(2, 1, 0, 0), buffer(1, first, 999, 0));
    let learned = |first| store(&(0..255).map(|number| (1, first, 1_000 + number)).collect::<Vec<_>>());
    let (slot_0, slot_1) = ((0, Term::Symbol(7)), (1, Term::Symbol(999)));
    let cases = [
        (large(|_| 7, &[slot_0, slot_1]), 7),
        (large(|_| 7, &[slot_1]), 7),
        (large(|number| number, &[slot_0, slot_1]), 7),
        (large(|number| 2_000 + number, &[slot_0]), 7),
        (large(|_| 0, &[(0, Term::Symbol(0)), slot_1]), 0),
        (large(|_| 0, &[slot_1]), 0),
    ];
    for (at, (image, first)) in cases.iter().enumerate() {
        let others = if at == 3 { 6 } else { *first };
        let (told, left) = hold_lent(image, from(*first), 9, &learned(others));
        assert_eq!((told.0, left[0], told.3.len()), (9, 256, 3), "{at}");
        assert_eq!(told.2, state(150, &[buffer(2, 3, 0, 0), buffer(1, *first, 999, 0)]), "{at}");
        assert_eq!(left[2_296..2_299], [1, *first, 999], "{at}");
    }
}

/// A chunk of a type without slots, and one of eight, of which the last is filled.
#[test]
fn chunks_of_no_slot_and_of_eight_are_learned_once() {
    let clear = RuleSpec { tests: vec![TestSpec::new(0, 1, &[])], actions: clear_two(), ..RuleSpec::default() };
    let opening = vec![ChunkSpec::nil(); 2];
    let image = pack(&ModelSpec { types: vec![0, 8], opening, rules: vec![clear], ..ModelSpec::default() });
    let last = Buffer { isa: 2, slots: [0, 0, 0, 0, 0, 0, 0, 4_095], ..Buffer::default() };
    let mut wanted = store(&[(1, 0, 0), (2, 0, 0)]);
    wanted[18] = 4_095;
    let (told, left) = hold_lent(&image, two(buffer(1, 0, 0, 0), last), 1, &store(&[]));
    assert!(told.0 == 0 && left == wanted);
    let (_, left) = hold_lent(&image, two(buffer(1, 0, 0, 0), last), 1, &wanted);
    assert!(left == wanted);
    // The last slot alone tells one from another.
    let other = Buffer { slots: [0, 0, 0, 0, 0, 0, 0, 4_094], ..last };
    assert_eq!(hold_lent(&image, two(buffer(1, 0, 0, 0), other), 1, &wanted).1[0], 3);
}

#[test]
fn model_a_prints_the_same_lines_and_learns_its_goal() {
    let image = pack(&model_a());
    let (_, _, from) = (BOTH[1].open)(&image, &mut [0; 27]);
    let (told, left) = hold_lent(&image, from, 1_000, &store(&[]));
    assert_eq!((told.0, told.3.len()), (9, 7));
    for engine in BOTH {
        let plain: (u8, u32, State, Vec<Event>) = (engine.trace_fresh)(&image, from, 1_000);
        assert_eq!(plain, told, "{}", engine.name);
    }
    // The goal holds count 3, 3 when it is cleared.
    assert!(left == store(&[(2, 3, 3)]));
}

/// The first rule clears a chunk and the second asks for it. The printing program lends an empty store: it comes back, 50 ms later,
/// and is cleared again. With nothing lent there would be nil, after the 70 ms of a failure.
#[test]
fn a_printed_run_learns() {
    let forget =
        RuleSpec { tests: vec![TestSpec::new(1, 2, &[])], actions: vec![ActionSpec::clear(1)], ..RuleSpec::default() };
    let recall = RuleSpec {
        tests: vec![TestSpec::new(0, 1, &[]), TestSpec::new(1, 0, &[])],
        actions: vec![ActionSpec::clear(0), ActionSpec::request(1, 2, &[(0, Term::Symbol(1))])],
        ..RuleSpec::default()
    };
    let opening = vec![ChunkSpec::new(1, &[]), ChunkSpec::new(2, &[1])];
    let rules = vec![forget, recall];
    let image = pack(&ModelSpec { failure: 70, types: vec![0, 1], opening, rules, ..ModelSpec::default() });
    for engine in BOTH {
        let printed = (engine.print)(&image);
        assert_eq!(printed, "50 fire 0\n100 fire 1\n150 wait 50\n200 fire 0\nend 9 4\n", "{}", engine.name);
    }
}

//! The run that keeps nothing: the kept run handed the fresh table, on both engines, for everything that it can be handed.

use std::collections::BTreeSet;

use jirvuntsag_compare::{always_fires, failed, hold_fresh, hold_fresh_to, Told, BOTH, P1, REFERENCE};
use jirvuntsag_generate::{case, each_seed};
use jirvuntsag_packing::{largest, largest_asking, model_a, pack, ChunkSpec, ModelSpec};
use jirvuntsag_reference::{Buffer, Event, Kind, State};

/// A state at this clock, with empty buffers.
fn at(clock: u32) -> State {
    State { clock, ..State::default() }
}

/// A buffer that holds a chunk with these values in its first slots.
fn chunk(isa: u16, [first, second, third]: [u16; 3], delay: u16) -> Buffer {
    Buffer { isa, slots: [first, second, third, 0, 0, 0, 0, 0], delay, error: false }
}

/// A state with another chunk in one of its buffers.
fn with(mut state: State, number: usize, buffer: Buffer) -> State {
    state.buffers[number] = buffer;
    state
}

/// The opening state of model A with its image.
fn opened_a() -> (Vec<u8>, State) {
    let image = pack(&model_a());
    let (_, _, state) = (REFERENCE.open)(&image, &mut [0; 27]);
    (image, state)
}

/// Holds both engines, kept and fresh, to a number that has no position, and so many steps.
fn assert_ends(image: &[u8], state: State, steps: u16, number: u8, made: usize) -> Told {
    let told = hold_fresh(image, state, steps);
    assert_eq!((told.0, told.1, told.3.len()), (number, 0, made), "{steps} steps from clock {}", state.clock);
    told
}

#[test]
fn random_models_and_states() {
    let mut numbers = BTreeSet::new();
    each_seed(70_000, 20_000, |seed, _| {
        let case = case(seed);
        numbers.insert(hold_fresh(&case.image, case.state, case.steps).0);
    });
    assert_eq!(numbers, BTreeSet::from([0, 1, 2, 3, 4, 6, 8, 9, 11, 12, 13]));
}

#[test]
fn an_image_is_refused_by_its_number_whatever_the_state() {
    let follows = [&P1[..], &[0]].concat();
    let padded = [&P1[..7], &[0x10]].concat();
    let too_long = vec![0; 65_537];
    let version_and_too_long = [&[4][..], &[0; 65_536]].concat();
    let mut masked = pack(&model_a());
    masked[33] |= 0x40;
    let refused: [(&[u8], u8, u32); 9] = [
        (&too_long, 1, 0),
        (&version_and_too_long, 1, 0),
        (&[], 2, 0),
        (&P1[..7], 2, 53),
        (&[4], 3, 0),
        (&[1, 0], 3, 8),
        (&follows, 4, 0),
        (&padded, 4, 0),
        (&masked, 11, 258),
    ];
    let late = chunk(0, [0; 3], 1);
    for (image, number, position) in refused {
        for state in [at(0), with(at(0), 7, late), with(at(u32::MAX), 7, late)] {
            for steps in [0, 1, 65_535] {
                assert_eq!(hold_fresh(image, state, steps), (number, position, state, vec![]));
            }
        }
    }
}

#[test]
fn a_state_that_is_not_well_formed_is_refused_before_any_step() {
    let (image, opening) = opened_a();
    let full = State { clock: u32::MAX, ..opening };
    let late = chunk(0, [0; 3], 1);
    let flagged = |buffer: Buffer| Buffer { error: true, ..buffer };
    let cases = [
        (0, flagged(opening.buffers[0])),
        (1, flagged(chunk(1, [1, 2, 0], 100))),
        (2, failed(0)),
        (0, chunk(3, [0; 3], 0)),
        (1, chunk(1, [4_096, 0, 0], 0)),
        (0, chunk(2, [1, 1, 1], 0)),
        (1, chunk(0, [1, 0, 0], 0)),
        (2, late),
        (7, late),
    ];
    for (number, buffer) in cases {
        for steps in [0, 1, 65_535] {
            assert_ends(&image, with(full, number, buffer), steps, 6, 0);
        }
    }
    assert_ends(&image, with(full, 1, chunk(1, [4_095, 4_095, 0], 65_535)), 0, 0, 0);
    assert_ends(&image, with(full, 1, failed(1)), 0, 0, 0);
}

#[test]
fn the_clock_is_filled_and_not_passed() {
    let fires = always_fires();
    assert_ends(&fires, at(u32::MAX - 50), 1, 0, 1);
    assert_ends(&fires, at(u32::MAX - 49), 1, 8, 0);
    assert_ends(&fires, at(u32::MAX - 100), 9, 8, 2);
    assert_ends(&fires, at(u32::MAX), 0, 0, 0);
    let waits = |clock| with(at(clock), 0, chunk(0, [0; 3], 65_535));
    assert_ends(&P1, waits(u32::MAX - 65_535), 1, 0, 1);
    assert_ends(&P1, waits(u32::MAX - 65_534), 1, 8, 0);
}

#[test]
fn a_halt_is_told_only_if_a_step_is_still_asked() {
    let (image, opening) = opened_a();
    for (steps, number, made) in [(0, 0, 0), (6, 0, 6), (7, 0, 7), (8, 9, 7), (65_535, 9, 7)] {
        assert_ends(&image, opening, steps, number, made);
    }
    assert_ends(&P1, at(0), 0, 0, 0);
    assert_ends(&P1, at(u32::MAX), 1, 9, 0);
}

#[test]
fn model_a_is_told_step_by_step() {
    let (image, opening) = opened_a();
    let (fire, wait) = (Kind::Fire, Kind::Wait);
    let kinds = [fire(0), wait(100), fire(1), wait(100), fire(1), fire(2), wait(150)];
    let clocks = [50, 150, 200, 300, 350, 400, 550];
    let events = clocks.into_iter().zip(kinds).map(|(clock, kind)| Event { clock, kind });
    // The last request asks for what follows 3, and finds no fact.
    let told = (9, 0, with(at(550), 1, failed(0)), events.collect());
    for engine in BOTH {
        hold_fresh_to(engine, &image, opening, 1_000, &told);
    }
}

#[test]
fn the_most_steps_that_can_be_asked() {
    let (_, _, after, _) = assert_ends(&always_fires(), at(0), 65_535, 0, 65_535);
    assert_eq!(after, at(50 * 65_535));
}

#[test]
fn the_largest_images_and_one_without_rules() {
    for spec in [largest(), largest_asking()] {
        let image = pack(&spec);
        let (_, _, state) = (REFERENCE.open)(&image, &mut REFERENCE.zeros(&image));
        assert_ends(&image, state, 1, 0, 1);
    }
    let empty = pack(&ModelSpec { opening: vec![ChunkSpec::nil(); 8], ..ModelSpec::default() });
    let mut pending = at(0);
    pending.buffers.iter_mut().zip(1..).for_each(|(buffer, ms)| buffer.delay = ms);
    assert_ends(&empty, pending, 9, 9, 8);
}

//! Document 01's cases "On both sides of the line", with positions, on both engines.

use jirvuntsag_compare::{always_fires, Engine, BOTH, P1};
use jirvuntsag_packing::{model_a, pack};
use jirvuntsag_reference::State;

/// Model A opened by an engine: image, state, table.
fn opened_a(engine: &Engine) -> (Vec<u8>, State, Vec<u16>) {
    let image = pack(&model_a());
    assert_eq!((engine.table_len)(&image), (0, 0, 27), "{}", engine.name);
    let mut table = vec![7; 27];
    let (number, at, state) = (engine.open)(&image, &mut table);
    assert_eq!((number, at), (0, 0), "{}", engine.name);
    (image, state, table)
}

#[test]
fn openings() {
    let with_last = |last: u8| [&P1[..7], &[last]].concat();
    let with_first = |first: u8| [&[first], &P1[1..]].concat();
    let cases: [(&[u8], u8, u32); 9] = [
        (&P1, 0, 0),
        (&P1[..7], 2, 53),
        (&[&P1[..], &[0]].concat(), 4, 0),
        (&with_last(0x10), 4, 0),
        (&with_last(0x20), 3, 53),
        (&[], 2, 0),
        (&[4], 3, 0),
        (&with_first(2), 0, 0),
        (&with_first(4), 3, 0),
    ];
    for engine in BOTH {
        for (image, number, at) in cases {
            assert_eq!((engine.open)(image, &mut []), (number, at, State::default()), "{} {image:02x?}", engine.name);
            // No rule is in any of them: the words tell nothing of a refusal, the number does.
            assert_eq!((engine.table_len)(image), (number, at, 0), "{} {image:02x?}", engine.name);
        }
    }
}

#[test]
fn a_run_of_nothing_halts_and_a_run_of_no_steps_is_done() {
    for engine in BOTH {
        assert_eq!((engine.run)(&P1, State::default(), &mut [], 5), (9, 0, State::default(), 0), "{}", engine.name);
        assert_eq!((engine.run)(&P1, State::default(), &mut [], 0), (0, 0, State::default(), 0), "{}", engine.name);
    }
}

#[test]
fn no_steps_are_done_where_the_model_would_be_stopped_and_refused_where_the_state_is_unfit() {
    for engine in BOTH {
        let full = State { clock: u32::MAX, ..State::default() };
        for table in [[1, 0], [1, 5], [0, 0]].map(|first| [&first[..], &[0; 7]].concat()) {
            assert_eq!((engine.run)(&always_fires(), full, &mut table.clone(), 0), (0, 0, full, 0), "{}", engine.name);
        }
        let mut unfit = full;
        unfit.buffers[2].delay = 1;
        assert_eq!((engine.run)(&always_fires(), unfit, &mut [0; 9], 0), (6, 0, unfit, 0), "{}", engine.name);
    }
}

#[test]
fn a_pending_delay_of_50_is_visible_after_a_firing_and_51_leaves_1() {
    for engine in BOTH {
        for (before, after) in [(1, 0), (49, 0), (50, 0), (51, 1), (100, 50), (65_535, 65_485)] {
            let mut state = State::default();
            state.buffers[1].delay = before;
            let (number, _, state, made) = (engine.run)(&always_fires(), state, &mut [1, 0, 0, 0, 0, 0, 0, 0, 0], 1);
            assert_eq!((number, made, state.buffers[1].delay), (0, 1, after), "{}", engine.name);
        }
    }
}

#[test]
fn the_largest_clock_is_reached_and_not_passed() {
    let at = |clock| State { clock, ..State::default() };
    let cases = [(4_294_967_245, 1, 0, 4_294_967_295, 1), (4_294_967_246, 1, 8, 4_294_967_246, 0)];
    for engine in BOTH {
        for (from, steps, number, to, made) in cases.into_iter().chain([(4_294_967_195, 9, 8, 4_294_967_295, 2)]) {
            let ran = (engine.run)(&always_fires(), at(from), &mut [1, 0, 0, 0, 0, 0, 0, 0, 0], steps);
            assert_eq!(ran, (number, 0, at(to), made), "{} from {from}", engine.name);
        }
    }
}

#[test]
fn model_a_step_by_step() {
    for engine in BOTH {
        let (image, state, mut table) = opened_a(engine);
        assert_eq!(table[..9], [1, 1, 0, 0, 0, 0, 0, 0, 0], "{}", engine.name);
        assert_eq!(table[9..], [0; 18], "{}", engine.name);
        let (_, _, state, _) = (engine.run)(&image, state, &mut table, 1);
        let retrieval = state.buffers[1];
        assert_eq!((state.clock, retrieval.isa, &retrieval.slots[..2], retrieval.delay), (50, 1, &[1, 2][..], 100));
        let (_, _, state, _) = (engine.run)(&image, state, &mut table, 4);
        assert_eq!(state.clock, 350);
        assert_eq!((&table[..18], &table[18..]), (&[0; 18][..], &[1, 3, 0, 0, 0, 0, 0, 0, 0][..]), "{}", engine.name);
    }
}

#[test]
fn the_utility_field_is_signed() {
    // Of two rules that match, the second fires exactly if its utility is the higher.
    for (utilities, second) in [([0x8000, 0xffff], true), ([0xffff, 0x8000], false), ([0xffff, 0], true)] {
        let mut spec = model_a();
        let mut other = spec.rules[0].clone();
        spec.rules[0].utility = utilities[0];
        other.utility = utilities[1];
        spec.rules[1] = other;
        for engine in BOTH {
            let line = if second { "50 fire 1\n" } else { "50 fire 0\n" };
            assert!((engine.print)(&pack(&spec)).starts_with(line), "{} {utilities:x?}", engine.name);
        }
    }
}

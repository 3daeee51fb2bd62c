//! What a run that keeps nothing is held to: the other engine's, and the kept run that is handed the fresh table.

use jirvuntsag_reference::{Model, State};

use crate::{Engine, Told, BOTH, PROVED};

/// The fresh table of a state, as an engine's refresh of all rules makes it; words of 0 if image or state is refused.
pub fn fresh_table(engine: &Engine, image: &[u8], state: &State) -> Vec<u16> {
    let mut table = engine.zeros(image);
    let buffers = Model::decode(image).map_or(0, |model| model.buffers());
    (engine.refresh)(image, state, (1 << buffers) - 1, &mut table);
    table
}

/// Holds the fresh run of an engine, told and not told, to what is wanted.
pub fn hold_fresh_to(engine: &Engine, image: &[u8], state: State, steps: u16, wanted: &Told) {
    let ran = (wanted.0, wanted.1, wanted.2, wanted.3.len() as u16);
    assert_eq!((engine.run_fresh)(image, state, steps), ran, "{} run_fresh", engine.name);
    assert_eq!((engine.trace_fresh)(image, state, steps), *wanted, "{} trace_fresh", engine.name);
}

/// Holds the kept run of an engine, told and not told, handed this table, to what is wanted.
fn hold_kept_to(engine: &Engine, image: &[u8], state: State, table: &[u16], steps: u16, wanted: &Told) {
    let ran = (wanted.0, wanted.1, wanted.2, wanted.3.len() as u16);
    assert_eq!((engine.run)(image, state, &mut table.to_vec(), steps), ran, "{} run", engine.name);
    assert_eq!((engine.trace)(image, state, &mut table.to_vec(), steps), *wanted, "{} trace", engine.name);
}

/// Holds the runs of both engines that are lent a store to each other, fresh and kept, handed the fresh table: all that they
/// answer, and every word of the store that they leave. Gives what all answer, and that store.
pub fn hold_lent(image: &[u8], state: State, steps: u16, store: &[u16]) -> (Told, Vec<u16>) {
    let mut left = store.to_vec();
    let told = (PROVED.trace_fresh_lent)(image, state, steps, Some(&mut left));
    let ran = (told.0, told.1, told.2, told.3.len() as u16);
    for engine in BOTH {
        let table = fresh_table(engine, image, &state);
        let mut lent = [(); 4].map(|()| store.to_vec());
        let [fresh, kept, fresh_told, kept_told] = &mut lent;
        let name = engine.name;
        assert_eq!((engine.run_fresh_lent)(image, state, steps, Some(fresh)), ran, "{name} run_fresh_lent");
        assert_eq!((engine.run_lent)(image, state, &mut table.clone(), steps, Some(kept)), ran, "{name} run_lent");
        let fresh_told = (engine.trace_fresh_lent)(image, state, steps, Some(fresh_told));
        assert_eq!(fresh_told, told, "{name} trace_fresh_lent");
        let kept_told = (engine.trace_lent)(image, state, &mut table.clone(), steps, Some(kept_told));
        assert_eq!(kept_told, told, "{name} trace_lent");
        assert!(lent.iter().all(|words| *words == left), "{name}: the stores differ");
    }
    hold_store(&told, store, &left);
    (told, left)
}

/// What every run leaves of a store: refused nothing is changed; otherwise it grows, and what was there stays, as do the places
/// past the count, word for word.
fn hold_store((number, _, _, events): &Told, store: &[u16], left: &[u16]) {
    if matches!(number, 1..=6 | 11..=13 | 15) {
        assert!(events.is_empty() && left == store, "refused by {number}");
        return;
    }
    assert!(store.len() == 2_305 && left[0] >= store[0] && left[0] <= 256, "{number}");
    let (before, after) = (1 + 9 * usize::from(store[0]), 1 + 9 * usize::from(left[0]));
    assert!(left[1..before] == store[1..before] && left[after..] == store[after..], "{number}");
}

/// Holds the fresh runs of both engines to each other, and to both kept runs handed the fresh table; gives what all answer.
pub fn hold_fresh(image: &[u8], state: State, steps: u16) -> Told {
    let told = (PROVED.trace_fresh)(image, state, steps);
    for engine in BOTH {
        hold_fresh_to(engine, image, state, steps, &told);
        hold_kept_to(engine, image, state, &fresh_table(engine, image, &state), steps, &told);
    }
    let (number, position, after, events) = &told;
    match number {
        0 => assert_eq!((*position, events.len()), (0, usize::from(steps))),
        1 | 4 | 6 => assert_eq!((*position, *after, events.len()), (0, state, 0), "refused by {number}"),
        2 | 3 | 11..=13 => assert_eq!((*after, events.len()), (state, 0), "refused by {number}"),
        8 | 9 => assert!(*position == 0 && events.len() < usize::from(steps)),
        _ => panic!("a fresh run answered {number}"),
    }
    told
}

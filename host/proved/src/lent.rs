//! What runs leave of the words that they are lent: tests below the types, which never lend such words.

use crate::linked::{self, Lent};
use crate::store::Store;
use crate::words::{BUFFER, EVENT, STATE};

/// What a word holds that is not to be written.
const UNTOUCHED: u32 = 0xdead_beef;

/// The shipped model that counts from 1 to 3, with its opening state.
fn counting() -> (Vec<u8>, [u32; STATE]) {
    let path = concat!(env!("CARGO_MANIFEST_DIR"), "/../../examples/counting.image");
    let image = std::fs::read(path).expect("examples/counting.image");
    let mut state = [0; STATE];
    assert_eq!(linked::open(&image, &mut [0; 27], &mut state), 0);
    (image, state)
}

/// Holds both runs to a refusal at this position that leaves every word of state and events as it was.
fn assert_refused(image: &[u8], state: &[u32; STATE], number: u64, position: u64) {
    let answer = position << 32 | number;
    for steps in [0, 1, u16::MAX] {
        let (mut ran, mut traced, mut events) = (*state, *state, [UNTOUCHED; 9]);
        assert_eq!(linked::run_fresh(image, &mut ran, steps), answer);
        assert_eq!(linked::trace_fresh(image, &mut traced, steps, &mut events), answer);
        assert_eq!((&ran, &traced, events), (state, state, [UNTOUCHED; 9]));
    }
}

#[test]
fn a_refused_image_leaves_every_word() {
    let (image, mut state) = counting();
    // Words that no state has: what is refused by its image is not looked at.
    state[1..].fill(UNTOUCHED);
    let follows = [&image[..], &[0]].concat();
    // The mask of the first test lies at bit 258, so that its last bit, which is past the type's slots, is bit 265.
    let mut masked = image.clone();
    masked[33] |= 0x40;
    let images = [(&[0; 65_537][..], 1, 0), (&image[..70], 2, 558), (&[4], 3, 0), (&follows, 4, 0), (&masked, 11, 258)];
    for (image, number, position) in images {
        assert_refused(image, &state, number, position);
    }
}

#[test]
fn a_word_too_large_for_its_field_is_an_unfit_state() {
    let (image, opening) = counting();
    for word in 1..STATE {
        // An error flag, the last word of a buffer, is one bit; the others are sixteen.
        let bits = if word % BUFFER == 0 { 1 } else { 16 };
        for bit in bits..32 {
            let mut state = opening;
            state[word] |= 1 << bit;
            assert_refused(&image, &state, 6, 0);
        }
    }
}

#[test]
fn a_flag_is_taken_beside_nil_alone() {
    let (image, opening) = counting();
    for buffer in 0..8 {
        let mut state = opening;
        state[BUFFER * (buffer + 1)] = 1;
        if buffer == 1 {
            let (mut ran, mut events) = (state, []);
            assert_eq!(linked::trace_fresh(&image, &mut ran, 0, &mut events), 0);
            assert_eq!(ran, state);
        } else {
            // The first holds the goal, and those from the third on are not the model's.
            assert_refused(&image, &state, 6, 0);
        }
    }
}

#[test]
fn steps_are_noted_as_far_as_there_is_room() {
    let (image, opening) = counting();
    let (mut after, mut all) = (opening, [UNTOUCHED; 8 * EVENT]);
    let answer = linked::trace_fresh(&image, &mut after, 8, &mut all);
    assert_eq!((answer, all[7 * EVENT..].to_vec()), (7 << 16 | 9, vec![UNTOUCHED; EVENT]));
    for room in 0..=all.len() {
        let (mut state, mut events) = (opening, all);
        events.fill(UNTOUCHED);
        assert_eq!(linked::trace_fresh(&image, &mut state, 8, &mut events[..room]), answer);
        let (noted, past) = events.split_at((room / EVENT * EVENT).min(7 * EVENT));
        assert_eq!((state, noted), (after, &all[..noted.len()]));
        assert!(past.iter().all(|&word| word == UNTOUCHED), "room for {room} words");
    }
}

#[test]
fn a_run_ends_as_it_does_when_it_is_told() {
    let (image, opening) = counting();
    for steps in [0, 1, 7, 8, u16::MAX] {
        let (mut ran, mut traced) = (opening, opening);
        let answer = linked::run_fresh(&image, &mut ran, steps);
        assert_eq!(linked::trace_fresh(&image, &mut traced, steps, &mut []), answer);
        assert_eq!(ran, traced);
    }
}

/// Both runs that may be lent a store: the answer of each, and that they leave the same in state, events and store.
fn lend(image: &[u8], state: &mut [u32; STATE], steps: u16, events: &mut [u32], word: u16, store: &mut [u16]) -> u64 {
    let (mut kept_state, mut kept_events, mut kept_store) = (*state, events.to_vec(), store.to_vec());
    let mut table = vec![0; (linked::table_len(image) >> 16) as u16 as usize];
    linked::refresh(image, state, 3, &mut table);
    let lent = Lent { word, store: &mut kept_store };
    let kept = linked::run_lent(image, &mut kept_state, &mut table, steps, &mut kept_events, lent);
    let fresh = linked::run_fresh_lent(image, state, steps, events, Lent { word, store });
    assert_eq!((kept, kept_state, &kept_events[..], &kept_store[..]), (fresh, *state, &events[..], &store[..]));
    fresh
}

#[test]
fn what_is_not_lent_is_neither_read_nor_written_whatever_its_length() {
    let (image, opening) = counting();
    let mut after = opening;
    let answer = linked::run_fresh(&image, &mut after, 8);
    // The other bits of the word say nothing yet.
    for word in [0, 2, 4, 6, 0xfffe] {
        for length in [0, 1, 10, 2_304, Store::WORDS, 2_306] {
            let (mut state, mut store) = (opening, vec![0xdead; length]);
            assert_eq!(lend(&image, &mut state, 8, &mut [], word, &mut store), answer, "{word} {length}");
            assert!(state == after && store.iter().all(|&one| one == 0xdead), "{word} {length}");
        }
    }
}

#[test]
fn a_store_that_is_lent_is_written_as_far_as_it_is_counted() {
    let (image, opening) = counting();
    for word in [1, 3, 5, 0xffff] {
        let (mut state, mut store) = (opening, vec![0xdead; Store::WORDS]);
        store[0] = 0;
        let mut events = [UNTOUCHED; 8 * EVENT];
        assert_eq!(lend(&image, &mut state, 8, &mut events, word, &mut store), 7 << 16 | 9);
        assert_eq!((&store[..10], events[7 * EVENT]), (&[1, 2, 3, 3, 0, 0, 0, 0, 0, 0][..], UNTOUCHED));
        assert!(store[10..].iter().all(|&one| one == 0xdead));
        // What is known is not learned again.
        let (mut again, before) = (opening, store.clone());
        assert_eq!(lend(&image, &mut again, 8, &mut [], word, &mut store), 7 << 16 | 9);
        assert!(again == state && store == before);
    }
}

#[test]
fn a_refused_run_leaves_every_word_of_the_store() {
    let (image, opening) = counting();
    let mut large = opening;
    large[5] = 65_536;
    let fit = vec![0; Store::WORDS];
    let mut over = fit.clone();
    over[0] = 257;
    let other: &[u8] = &[4];
    let cases = [
        (other, opening, fit.clone(), 3),
        (&image, large, fit.clone(), 6),
        (&image, large, over.clone(), 6),
        (&image, opening, over, 15),
        (&image, opening, vec![0; 2_304], 15),
        (&image, opening, vec![], 15),
    ];
    for (image, from, store, answer) in cases {
        for steps in [0, 1, u16::MAX] {
            let (mut state, mut lent, mut events) = (from, store.clone(), [UNTOUCHED; 9]);
            assert_eq!(lend(image, &mut state, steps, &mut events, 1, &mut lent), answer);
            assert!(state == from && lent == store && events == [UNTOUCHED; 9]);
        }
    }
}

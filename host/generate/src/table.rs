//! Random tables: fresh, stale, and wrong in several ways.

use jirvuntsag_packing::ModelSpec;
use jirvuntsag_reference::{Model, State};

use crate::places::variable_places;
use crate::rng::Rng;
use crate::state::state;

/// How a table came about.
#[derive(Clone, Copy, PartialEq, Eq, Debug)]
pub enum TableKind {
    /// The fresh table of the state.
    Fresh,
    /// The fresh table of another state.
    Stale,
    /// Entries partly fresh, partly of another state.
    Mixed,
    /// All zeros.
    Zeros,
    /// Fresh, with some first words that are neither 0 nor 1.
    FirstWord,
    /// Fresh, with one word off.
    OneOff,
    /// Partly as kept from before a variable took no empty slot: a used variable is nil.
    Nil,
    /// Any words.
    Junk,
    /// Not 9 words for each rule.
    WrongLength,
}

const KINDS: [TableKind; 16] = [
    TableKind::Fresh,
    TableKind::Fresh,
    TableKind::Fresh,
    TableKind::Fresh,
    TableKind::Fresh,
    TableKind::Fresh,
    TableKind::Stale,
    TableKind::Stale,
    TableKind::Mixed,
    TableKind::Zeros,
    TableKind::FirstWord,
    TableKind::OneOff,
    TableKind::Nil,
    TableKind::Nil,
    TableKind::Junk,
    TableKind::WrongLength,
];

/// A table for an accepted model and a state.
pub fn table(rng: &mut Rng, spec: &ModelSpec, model: &Model, at: &State) -> (TableKind, Vec<u16>) {
    let kind = rng.pick(&KINDS);
    let mut table = model.fresh_table(at);
    match kind {
        TableKind::Fresh => (),
        TableKind::Stale => table = model.fresh_table(&state(rng, spec)),
        TableKind::Mixed => {
            let other = model.fresh_table(&state(rng, spec));
            mix(rng, &mut table, &other);
        }
        TableKind::Zeros => table.fill(0),
        TableKind::FirstWord => spoil_first_words(rng, &mut table),
        TableKind::OneOff => spoil_one_word(rng, &mut table),
        TableKind::Nil => keep_nil(rng, spec, at, &mut table),
        TableKind::Junk => table.iter_mut().for_each(|word| *word = rng.pick(&[0, 1, 1, 2, 3, 65_535])),
        TableKind::WrongLength => wrong_length(rng, &mut table),
    }
    (kind, table)
}

/// A table for an image that may be refused: about the length that the model had.
pub fn guessed_table(rng: &mut Rng, spec: &ModelSpec) -> Vec<u16> {
    let mut table = vec![0; 9 * spec.rules.len()];
    table.iter_mut().for_each(|word| *word = rng.pick(&[0, 1, 65_535]));
    if rng.chance(20) {
        wrong_length(rng, &mut table);
    }
    table
}

/// Takes every other entry or so from another table.
fn mix(rng: &mut Rng, table: &mut [u16], other: &[u16]) {
    for (entry, from) in table.chunks_exact_mut(9).zip(other.chunks_exact(9)) {
        if rng.chance(50) {
            entry.copy_from_slice(from);
        }
    }
}

/// First words that count as not matching though they are not 0.
fn spoil_first_words(rng: &mut Rng, table: &mut [u16]) {
    for entry in table.chunks_exact_mut(9) {
        if rng.chance(50) {
            entry[0] = rng.pick(&[2, 3, 256, 257, 32_769, 65_535]);
        }
    }
}

/// One word that differs, mostly in an entry that matches.
fn spoil_one_word(rng: &mut Rng, table: &mut [u16]) {
    let entries = table.len() / 9;
    let matching: Vec<usize> = (0..entries).filter(|entry| table[9 * entry] == 1).collect();
    let entry = match matching.len() {
        0 => rng.below(entries),
        count => matching[rng.below(count)],
    };
    let at = 9 * entry + rng.below(9);
    if let Some(word) = table.get_mut(at) {
        *word = word.wrapping_add(rng.pick(&[1, 65_535, 256, 32_768]));
    }
}

/// Some entries that match by the values in the state, but for a nil.
fn keep_nil(rng: &mut Rng, spec: &ModelSpec, at: &State, table: &mut [u16]) {
    for (rule, entry) in spec.rules.iter().zip(table.chunks_exact_mut(9)) {
        if rule.variables > 0 && rng.chance(30) {
            entry[0] = 1;
            for place in variable_places(rule) {
                entry[1 + usize::from(place.variable)] = at.buffers[usize::from(place.buffer)].slots[place.slot];
            }
            entry[1 + rng.below(usize::from(rule.variables))] = 0;
        }
    }
}

/// A length that is near the right one, or nothing.
fn wrong_length(rng: &mut Rng, table: &mut Vec<u16>) {
    let length = table.len();
    let wrong = match rng.below(5) {
        0 => length + 1,
        1 => length + 9,
        2 if length > 0 => length - 1,
        3 if length > 0 => length - 9,
        _ if length > 0 => 0,
        _ => length + 8,
    };
    table.resize(wrong, 1);
}

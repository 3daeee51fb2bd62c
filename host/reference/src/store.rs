//! The lent store of learned facts (request 2026-05) as words: the count, then nine words for each of 256 places, type and
//! eight slots.

use crate::parts::{Chunk, Types};
use crate::{PLACES, SLOTS, STORE_WORDS};

/// Words of a place: type and slots.
const PLACE: usize = 1 + SLOTS;
/// Milliseconds until a learned fact is visible that was asked for.
pub(crate) const LEARNED_LATENCY: u16 = 50;
/// The step's new facts would make more than 256.
pub(crate) const FULL: u8 = 14;
/// Not 256 places, a count over 256, or a fact that the image could not hold.
pub(crate) const UNFIT: u8 = 15;

/// The facts of a store, in the order learned; nothing if it is not one of this image. Of the places below the count alone
/// anything is asked, and two may hold the same.
pub(crate) fn facts_in(types: &Types, words: &[u16]) -> Option<Vec<Chunk>> {
    let (&count, places) = words.split_first()?;
    if words.len() != STORE_WORDS || usize::from(count) > PLACES {
        return None;
    }
    places.chunks_exact(PLACE).take(usize::from(count)).map(|place| fact(types, place)).collect()
}

/// The fact at a place, if an image of these types could hold it: of a type from 1 to T, each value at most 4,095, and none
/// past the type's slots.
fn fact(types: &Types, place: &[u16]) -> Option<Chunk> {
    let (&isa, values) = place.split_first()?;
    if isa == 0 || isa > u16::from(types.count) {
        return None;
    }
    let isa = isa as u8;
    let (own, past) = values.split_at(types.slots(isa));
    let fits = own.iter().all(|&value| value <= 4_095) && past.iter().all(|&value| value == 0);
    fits.then_some(Chunk { isa, slots: values.try_into().ok()? })
}

/// Writes a fact to the first place past the count, and counts it; the other places stay as they are.
pub(crate) fn add(words: &mut [u16], fact: &Chunk) {
    let at = 1 + PLACE * usize::from(words[0]);
    words[at] = u16::from(fact.isa);
    words[at + 1..at + PLACE].copy_from_slice(&fact.slots);
    words[0] += 1;
}

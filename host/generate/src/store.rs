//! Random stores of learned facts, fit and unfit.

use jirvuntsag_packing::ModelSpec;
use jirvuntsag_reference::{State, PLACES, STORE_WORDS};

use crate::rng::Rng;
use crate::state::value;

/// Words of a place: type and slots.
const PLACE: usize = 9;

/// What a store is like.
#[derive(Clone, Copy, PartialEq, Eq, PartialOrd, Ord, Debug)]
pub enum StoreKind {
    /// Nothing was learned.
    Empty,
    /// A few facts, some of them the image's, the state's or twice the same.
    Some,
    /// 254 or 255 facts.
    NearlyFull,
    /// 256 facts.
    Full,
    /// Not 2,305 words.
    WrongLength,
    /// A count over 256.
    Count,
    /// A fact of type 0.
    Nil,
    /// A fact of a type above T.
    Type,
    /// A value above 4,095.
    Value,
    /// A value past the type's slots.
    Past,
}

const KINDS: [StoreKind; 20] = [
    StoreKind::Empty,
    StoreKind::Empty,
    StoreKind::Empty,
    StoreKind::Empty,
    StoreKind::Some,
    StoreKind::Some,
    StoreKind::Some,
    StoreKind::Some,
    StoreKind::NearlyFull,
    StoreKind::NearlyFull,
    StoreKind::NearlyFull,
    StoreKind::Full,
    StoreKind::Full,
    StoreKind::Full,
    StoreKind::WrongLength,
    StoreKind::Count,
    StoreKind::Nil,
    StoreKind::Type,
    StoreKind::Value,
    StoreKind::Past,
];

impl StoreKind {
    /// Whether a run takes it.
    pub fn fits(self) -> bool {
        matches!(self, StoreKind::Empty | StoreKind::Some | StoreKind::NearlyFull | StoreKind::Full)
    }
}

/// A store for a model and a state, and what it is like. A model without types has no fact to learn: there it is empty, or
/// unfit by its length, its count or a type.
pub fn store(rng: &mut Rng, spec: &ModelSpec, state: &State) -> (StoreKind, Vec<u16>) {
    let kind = match rng.pick(&KINDS) {
        kind if kind.fits() && spec.types.is_empty() => StoreKind::Empty,
        StoreKind::Nil | StoreKind::Value | StoreKind::Past if spec.types.is_empty() => StoreKind::Type,
        kind => kind,
    };
    let mut store = vec![0; STORE_WORDS];
    if rng.chance(50) {
        // What stands past the count is neither looked at nor changed.
        store.fill_with(|| rng.pick(&[0, 1, 2, 4_096, 65_535]));
    }
    let count = match kind {
        StoreKind::Empty => 0,
        StoreKind::NearlyFull => rng.from_to(PLACES - 2, PLACES - 1),
        StoreKind::Full => PLACES,
        StoreKind::WrongLength if spec.types.is_empty() => 0,
        _ => rng.from_to(1, 12),
    };
    // Many facts of few symbols would leave nothing to be learned.
    let far = rng.chance(70);
    let facts: Vec<[u16; PLACE]> = (0..count).map(|_| fact(rng, spec, state, far)).collect();
    store[0] = count as u16;
    store[1..][..PLACE * count].copy_from_slice(facts.as_flattened());
    if !kind.fits() {
        spoil(rng, spec, kind, &mut store);
    }
    (kind, store)
}

/// A fact that the image could hold: one of its own, a chunk of the state, or any; seldom the first two if it is to be far off.
fn fact(rng: &mut Rng, spec: &ModelSpec, state: &State, far: bool) -> [u16; PLACE] {
    let mut words = [0; PLACE];
    let types = spec.types.len();
    if types == 0 {
        words[0] = 1;
        return words;
    }
    let buffer = &state.buffers[rng.below(spec.opening.len())];
    let count = spec.types.get(usize::from(buffer.isa).wrapping_sub(1)).map(|&slots| usize::from(slots));
    let well = count.is_some_and(|count| {
        buffer.slots[..count].iter().all(|&value| value <= 4_095)
            && buffer.slots[count..].iter().all(|&value| value == 0)
    });
    let far = far && rng.chance(99);
    match rng.below(10) {
        0..=1 if well && !far => {
            words[0] = buffer.isa;
            words[1..].copy_from_slice(&buffer.slots);
        }
        2 if !spec.facts.is_empty() && !far => {
            let chunk = &spec.facts[rng.below(spec.facts.len())].chunk;
            words[0] = u16::from(chunk.isa);
            words[1..][..chunk.slots.len()].copy_from_slice(&chunk.slots);
        }
        _ => {
            let isa = rng.from_to(1, types) as u8;
            words[0] = u16::from(isa);
            for slot in 0..spec.slot_count(isa) {
                words[1 + slot] = if far { rng.from_to(100, 4_095) as u16 } else { value(rng, spec) };
            }
        }
    }
    words
}

/// Makes a store unfit in one way; in the last places below the count as often as in the first.
fn spoil(rng: &mut Rng, spec: &ModelSpec, kind: StoreKind, store: &mut Vec<u16>) {
    let place = 1 + PLACE * rng.below(usize::from(store[0]).max(1));
    let above = spec.types.len() as u16 + 1;
    let types = &spec.types;
    // A type with a slot, or one with room past its slots, if there is one.
    let with = |fits: fn(u8) -> bool| types.iter().position(|&slots| fits(slots)).map(|at| (at as u16 + 1, types[at]));
    match kind {
        StoreKind::WrongLength => {
            let length = rng.pick(&[0, 1, 10, 2_296, 2_304, 2_306, 2_314, 2_701]);
            store.resize(length, 0);
        }
        StoreKind::Count => store[0] = rng.pick(&[257, 258, 300, 512, 65_535]),
        StoreKind::Nil => store[place..][..PLACE].fill(0),
        StoreKind::Value => match with(|slots| slots > 0) {
            Some((isa, slots)) => {
                store[place..][..PLACE].fill(0);
                store[place] = isa;
                store[place + rng.from_to(1, usize::from(slots))] = rng.pick(&[4_096, 4_097, 8_192, 65_535]);
            }
            None => store[place] = 0,
        },
        StoreKind::Past => match with(|slots| slots < 8) {
            Some((isa, slots)) => {
                store[place..][..PLACE].fill(0);
                store[place] = isa;
                store[place + rng.from_to(1 + usize::from(slots), 8)] = rng.pick(&[1, 4_095, 65_535]);
            }
            None => store[place] = 0,
        },
        _ => {
            store[0] = store[0].max(1);
            store[place] = rng.pick(&[above, above + 1, above | 64, above | 256, 65_535]);
        }
    }
}

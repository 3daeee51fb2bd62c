//! What runs have learned: a value that can be kept, copied, compared, printed, and lent to the next run.

use std::fmt;

/// Words of a place: type and eight slots.
const PLACE: usize = 9;

/// A chunk of a store: a fact that was learned, with activation 0 and a latency of 50 ms.
#[derive(Clone, Copy, PartialEq, Eq, Hash, Debug, Default)]
pub struct Chunk {
    /// Its type, never 0 in a store that a run takes.
    pub isa: u16,
    /// Slot values, 0 past the type's slots.
    pub slots: [u16; 8],
}

/// A store of learned facts. A run that is lent one adds each chunk that a rule clears from a visible buffer, unless a fact of
/// the same type and slots is in the image or in the store, and its requests find what is there after the facts of the image.
/// Two stores are equal if all their words are.
#[derive(Clone, PartialEq, Eq, Hash, Debug)]
pub struct Store {
    words: Vec<u16>,
}

impl Store {
    /// Facts that there are places for.
    pub const PLACES: usize = 256;
    /// Words of a store: the count, then type and eight slots of each place.
    pub const WORDS: usize = 1 + PLACE * Store::PLACES;

    /// A store in which nothing is.
    pub fn new() -> Store {
        Store { words: vec![0; Store::WORDS] }
    }

    /// A store of these words; each run that is lent it says if they are not those of a store.
    pub fn from_words(words: Vec<u16>) -> Store {
        Store { words }
    }

    /// A store of these facts, in the order learned; nothing if they are more than there are places for.
    /// Each run that is lent it says if one of them could not be a fact of its image.
    pub fn from_facts(facts: &[Chunk]) -> Option<Store> {
        let mut store = Store::new();
        let (count, places) = store.words.split_first_mut()?;
        if facts.len() > Store::PLACES {
            return None;
        }
        *count = facts.len() as u16;
        for (place, fact) in places.chunks_exact_mut(PLACE).zip(facts) {
            place[0] = fact.isa;
            place[1..].copy_from_slice(&fact.slots);
        }
        Some(store)
    }

    /// Its words.
    pub fn words(&self) -> &[u16] {
        &self.words
    }

    /// Its words, to be changed.
    pub fn words_mut(&mut self) -> &mut [u16] {
        &mut self.words
    }

    /// The facts that the count covers, in the order learned.
    pub fn facts(&self) -> impl Iterator<Item = Chunk> + '_ {
        let (count, places) = self.words.split_first().map_or((0, &[][..]), |(&count, places)| (count, places));
        let fact = |place: &[u16]| Chunk { isa: place[0], slots: std::array::from_fn(|slot| place[1 + slot]) };
        places.chunks_exact(PLACE).take(usize::from(count)).map(fact)
    }

    /// How many facts it has.
    pub fn len(&self) -> usize {
        self.facts().count()
    }

    /// Whether it has none.
    pub fn is_empty(&self) -> bool {
        self.len() == 0
    }
}

impl Default for Store {
    fn default() -> Store {
        Store::new()
    }
}

/// Type and slots, as `Names::store` of `jirvuntsag-text` takes them.
impl From<Chunk> for (u16, [u16; 8]) {
    fn from(chunk: Chunk) -> (u16, [u16; 8]) {
        (chunk.isa, chunk.slots)
    }
}

/// Type and slots by number; `Names::chunk` of `jirvuntsag-text` prints them by the names of a model.
impl fmt::Display for Chunk {
    fn fmt(&self, to: &mut fmt::Formatter) -> fmt::Result {
        write!(to, "type {}, slots", self.isa)?;
        self.slots.iter().try_for_each(|slot| write!(to, " {slot}"))
    }
}

/// A line for each fact, in the order learned, by number; `Names::store` of `jirvuntsag-text` prints them by the names of a model.
impl fmt::Display for Store {
    fn fmt(&self, to: &mut fmt::Formatter) -> fmt::Result {
        self.facts().try_for_each(|fact| writeln!(to, "{fact}"))
    }
}

#[cfg(test)]
mod tests {
    use super::{Chunk, Store};

    /// A fact of two slots.
    fn fact(isa: u16, first: u16, second: u16) -> Chunk {
        Chunk { isa, slots: [first, second, 0, 0, 0, 0, 0, 0] }
    }

    #[test]
    fn facts_go_into_words_and_come_back() {
        let facts = [fact(1, 2, 3), fact(2, 4, 0)];
        let store = Store::from_facts(&facts).expect("two facts");
        assert_eq!(
            (store.words()[..13].to_vec(), store.words().len()),
            (vec![2, 1, 2, 3, 0, 0, 0, 0, 0, 0, 2, 4, 0], 2_305)
        );
        assert!(store.words()[12..].iter().all(|&word| word == 0));
        assert_eq!((store.facts().collect::<Vec<_>>(), store.len(), store.is_empty()), (facts.to_vec(), 2, false));
        assert_eq!(Store::from_words(store.words().to_vec()), store);
        assert_eq!(store.to_string(), "type 1, slots 2 3 0 0 0 0 0 0\ntype 2, slots 4 0 0 0 0 0 0 0\n");
    }

    #[test]
    fn there_are_places_for_256_facts() {
        assert_eq!(Store::from_facts(&[fact(1, 2, 3); 256]).map(|store| store.len()), Some(256));
        assert_eq!(Store::from_facts(&[fact(1, 2, 3); 257]), None);
        assert!(Store::new().is_empty() && Store::default() == Store::new());
    }

    #[test]
    fn words_that_are_no_store_have_the_facts_that_are_there() {
        assert_eq!(Store::from_words(vec![]).len(), 0);
        assert_eq!(Store::from_words(vec![7]).len(), 0);
        assert_eq!(Store::from_words([&[300][..], &[1; 27]].concat()).len(), 3);
    }
}

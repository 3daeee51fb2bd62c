//! The kept matches of a model's rules.

/// Words of one rule's entry.
const ENTRY: usize = 9;

/// The kept table: nine words for each rule. Runs and refreshes write it; a caller may, too, and no call relies on it.
#[derive(Clone, PartialEq, Eq, Hash, Debug, Default)]
pub struct Table {
    words: Vec<u16>,
}

/// The entry of one rule.
#[derive(Clone, Copy, PartialEq, Eq, Hash, Debug)]
pub struct Entry<'a> {
    /// Whether the rule counts as matching: its first word is 1.
    pub matches: bool,
    /// The values of variables 0 to 7; of a rule that matches, 0 for those alone that it does not have.
    pub values: &'a [u16],
}

impl Table {
    /// A table of these words; each call that takes it says if they are too few or too many.
    pub fn from_words(words: Vec<u16>) -> Table {
        Table { words }
    }

    /// Its words.
    pub fn words(&self) -> &[u16] {
        &self.words
    }

    /// Its words, to be changed.
    pub fn words_mut(&mut self) -> &mut [u16] {
        &mut self.words
    }

    /// The rules that it has entries for.
    pub fn rules(&self) -> usize {
        self.words.len() / ENTRY
    }

    /// The entry of each rule, by number.
    pub fn entries(&self) -> impl Iterator<Item = Entry<'_>> {
        self.words.chunks_exact(ENTRY).map(|words| Entry { matches: words[0] == 1, values: &words[1..] })
    }
}

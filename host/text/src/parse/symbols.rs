//! Numbers for symbols: declared ones, and the lowest that is free for every other.

use std::collections::{BTreeMap, HashMap};

use super::lone::{near, Lone};
use super::words::{name, Word};
use crate::error::TextError;
use crate::limits::SYMBOL;
use crate::names::NIL;
use crate::shown::Shown;

/// Symbols for which a like name is looked for, so that a text of thousands does not wait for it.
const GUESSES: usize = 100;

/// The symbols so far.
pub struct Symbols {
    numbers: HashMap<String, u16>,
    names: BTreeMap<u16, String>,
    /// No number below this one is free.
    lowest: u16,
    /// Where each symbol first stood as a value, and in how many places it stands.
    places: BTreeMap<u16, (usize, usize, usize)>,
}

impl Symbols {
    /// `nil` alone.
    pub fn new() -> Symbols {
        let mut symbols =
            Symbols { numbers: HashMap::new(), names: BTreeMap::new(), lowest: 1, places: BTreeMap::new() };
        symbols.insert(NIL, 0);
        symbols
    }

    /// The names by number.
    pub fn into_names(self) -> BTreeMap<u16, String> {
        self.names
    }

    /// The symbols that stand in one place only; nil never is one of them.
    pub fn lone(&self) -> Vec<Lone> {
        let once = self.places.iter().filter(|(number, (_, _, count))| **number != 0 && *count == 1);
        let lone = once.enumerate().map(|(at, (number, &(line, column, _)))| {
            let name = &self.names[number];
            let near = if at < GUESSES { near(name, self.names.values()) } else { None };
            Lone { name: name.clone(), line, column, near }
        });
        lone.collect()
    }

    /// The number of a symbol that stands as a value; a new symbol gets the lowest that is free.
    pub fn number(&mut self, word: Word) -> Result<u16, TextError> {
        let number = self.known_or_new(word)?;
        self.places.entry(number).or_insert((word.line, word.column, 0)).2 += 1;
        Ok(number)
    }

    fn known_or_new(&mut self, word: Word) -> Result<u16, TextError> {
        let name = name(word)?;
        if let Some(&number) = self.numbers.get(name) {
            return Ok(number);
        }
        while self.names.contains_key(&self.lowest) {
            self.lowest += 1;
        }
        if self.lowest > SYMBOL {
            return Err(word.error(format!("more than {SYMBOL} symbols besides nil: '{word}' finds no number")));
        }
        self.insert(name, self.lowest);
        Ok(self.lowest)
    }

    /// Gives a symbol a number of the text's choice.
    pub fn declare(&mut self, word: Word, wanted: Word, number: u16) -> Result<(), TextError> {
        let name = name(word)?;
        if let Some(has) = self.numbers.get(name) {
            return Err(word.error(format!("symbol '{word}' has the number {has} already")));
        }
        if let Some(other) = self.names.get(&number) {
            return Err(wanted.error(format!("number {number} is that of the symbol '{}' already", Shown(other))));
        }
        self.insert(name, number);
        Ok(())
    }

    fn insert(&mut self, name: &str, number: u16) {
        self.numbers.insert(name.into(), number);
        self.names.insert(number, name.into());
    }
}

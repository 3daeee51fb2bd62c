//! From names to numbers, and what to say of a name that is not there.

use super::words::{Line, Word};
use super::Parser;
use crate::error::TextError;
use crate::flaw::Flaw;
use crate::names::TypeNames;
use crate::naming::ISA;
use crate::shown::{listed, Shown};

impl<'t> Parser<'t> {
    /// The number of a type; the word `isa` before it is passed over.
    pub fn take_type(&self, line: &mut Line<'t>) -> Result<(Word<'t>, u8), TextError> {
        line.passes(ISA);
        let word = line.take("a type")?;
        let position = self.names.types.iter().position(|one| one.name == word.text);
        match position {
            Some(number) => Ok((word, number as u8)),
            None => {
                let declared = listed(self.names.types.iter().map(|one| &one.name));
                Err(word.breaks(Flaw::UnknownType, format!("type '{word}' is not declared ({declared})")))
            }
        }
    }

    /// A type other than `chunk`, for what only a declared type can have.
    pub fn take_declared_type(&self, line: &mut Line<'t>, what: &str) -> Result<u8, TextError> {
        match self.take_type(line)? {
            (word, 0) => Err(word.breaks(Flaw::ChunkType, format!("{what} cannot be of type chunk"))),
            (_, number) => Ok(number),
        }
    }

    /// The number of a buffer, by the word that it stands in.
    pub fn buffer_number(&self, word: Word, name: &str) -> Result<u8, TextError> {
        let position = self.names.buffers.iter().position(|one| one == name);
        match position {
            Some(number) => Ok(number as u8),
            None => {
                let declared = listed(self.names.buffers.iter());
                let message = format!("buffer '{}' is not declared ({declared})", Shown(name));
                Err(word.breaks(Flaw::UnknownBuffer, message))
            }
        }
    }

    /// The number of a type's slot.
    pub fn slot_number(&self, word: Word, isa: u8) -> Result<usize, TextError> {
        let TypeNames { name, slots } = &self.names.types[usize::from(isa)];
        slots.iter().position(|slot| slot == word.text).ok_or_else(|| {
            word.error(format!("slot '{word}' is not a slot of type '{}' ({})", Shown(name), listed(slots.iter())))
        })
    }

    /// The number of a slot that a test or an action names, for which an image has a mask.
    pub fn masked_slot(&self, word: Word, isa: u8) -> Result<usize, TextError> {
        if word.text == "-" {
            let message = "a slot cannot be negated in an image: give the rule for the other case a higher utility";
            return Err(word.error(message));
        }
        self.slot_number(word, isa).map_err(|fault| fault.breaking(Flaw::UnknownSlot))
    }
}

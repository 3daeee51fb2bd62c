//! Lines that declare: failure latency, symbols, types, buffers and facts.

use jirvuntsag_packing::{ChunkSpec, FactSpec};

use super::words::{whole_number, Line, Word};
use super::Parser;
use crate::error::TextError;
use crate::flaw::Flaw;
use crate::limits::{BUFFERS, FACTS, SLOTS, SYMBOL, TYPES};
use crate::names::TypeNames;
use crate::naming::{buffer_name_fault, slot_name_fault, type_name_fault, ACTIVATION, LATENCY};
use crate::shown::Shown;
use crate::version::WITH_QUERIES;

impl<'t> Parser<'t> {
    /// `version 2`: the image has that version though no rule asks for it.
    pub fn version(&mut self, first: Word, mut line: Line<'t>) -> Result<(), TextError> {
        if self.version_said {
            return Err(first.error("the version is said twice"));
        }
        let word = line.take("a version")?;
        match whole_number(word, "a version", u8::MAX.into())? {
            WITH_QUERIES => self.version_said = true,
            1 => return Err(word.error("version 1 is not said: an image has it unless a rule has a query")),
            other => return Err(word.breaks(Flaw::Version, format!("version {other} is not known"))),
        }
        line.end()
    }

    /// `failure latency MS`.
    pub fn failure(&mut self, first: Word, mut line: Line<'t>) -> Result<(), TextError> {
        if self.failure_said {
            return Err(first.error("the failure latency is said twice"));
        }
        line.expect(LATENCY)?;
        self.spec.failure = whole_number(line.take("a latency in ms")?, "a latency", u16::MAX)?;
        self.failure_said = true;
        line.end()
    }

    /// `symbol NAME = NUMBER`.
    pub fn symbol(&mut self, mut line: Line<'t>) -> Result<(), TextError> {
        let word = line.take("a symbol")?;
        line.expect("=")?;
        let wanted = line.take("a symbol's number")?;
        let number = whole_number(wanted, "a symbol's number", SYMBOL)?;
        self.symbols.declare(word, wanted, number)?;
        line.end()
    }

    /// `type NAME SLOT ..`.
    pub fn type_line(&mut self, mut line: Line<'t>) -> Result<(), TextError> {
        let word = line.take("the type's name")?;
        let before = self.names.types.iter().map(|one| &one.name);
        if let Some(fault) = type_name_fault(word.text, before) {
            return Err(word.error(fault));
        }
        let own = word.text.to_owned();
        if self.spec.types.len() == TYPES {
            return Err(word.error(format!("more than {TYPES} types")));
        }
        let mut slots: Vec<String> = Vec::new();
        while let Some(word) = line.next() {
            if let Some(fault) = slot_name_fault(word.text, &slots) {
                self.note(Err(word.error(fault)));
            } else if slots.len() == SLOTS {
                let message = format!("more than {SLOTS} slots in type '{}'", Shown(&own));
                self.note(Err(word.breaks(Flaw::SlotCount, message)));
                break;
            } else {
                slots.push(word.text.into());
            }
        }
        self.spec.types.push(slots.len() as u8);
        self.names.types.push(TypeNames { name: own, slots });
        Ok(())
    }

    /// `buffer NAME` or `buffer NAME TYPE SLOT VALUE ..`.
    pub fn buffer(&mut self, mut line: Line<'t>) -> Result<(), TextError> {
        let word = line.take("the buffer's name")?;
        if let Some(fault) = buffer_name_fault(word.text, &self.names.buffers) {
            return Err(word.error(fault));
        }
        if self.spec.opening.len() == BUFFERS {
            return Err(word.breaks(Flaw::BufferCount, format!("more than {BUFFERS} buffers")));
        }
        let chunk = self.opening(line);
        self.names.buffers.push(word.text.into());
        // A buffer whose chunk is wrong is there all the same, or each rule that names it would be called wrong, too.
        let (chunk, said) = chunk.map_or_else(|fault| (ChunkSpec::nil(), Err(fault)), |chunk| (chunk, Ok(())));
        self.spec.opening.push(chunk);
        said
    }

    /// The chunk that a buffer opens with, to the line's end.
    fn opening(&mut self, mut line: Line<'t>) -> Result<ChunkSpec, TextError> {
        if line.peek().is_none() {
            return Ok(ChunkSpec::nil());
        }
        let (_, isa) = self.take_type(&mut line)?;
        let chunk = self.chunk(isa, &mut line)?;
        line.end()?;
        Ok(chunk)
    }

    /// `fact TYPE SLOT VALUE .. activation NUMBER latency MS`.
    pub fn fact(&mut self, first: Word, mut line: Line<'t>) -> Result<(), TextError> {
        if self.spec.facts.len() == FACTS {
            return Err(first.breaks(Flaw::FactCount, format!("more than {FACTS} facts")));
        }
        let isa = self.take_declared_type(&mut line, "a fact")?;
        let mut fact = FactSpec { chunk: self.chunk(isa, &mut line)?, ..FactSpec::default() };
        if line.passes(ACTIVATION) {
            fact.activation = whole_number(line.take("an activation")?, "an activation", u16::MAX)?;
        }
        if line.passes(LATENCY) {
            fact.latency = whole_number(line.take("a latency in ms")?, "a latency", u16::MAX)?;
        }
        line.end()?;
        self.spec.facts.push(fact);
        Ok(())
    }

    /// Slots with their values, up to the line's end or a fact's closing words; a slot that is not named is nil.
    fn chunk(&mut self, isa: u8, line: &mut Line<'t>) -> Result<ChunkSpec, TextError> {
        let mut slots = vec![0; self.spec.slot_count(isa)];
        let mut named = 0_u8;
        while let Some(word) = line.peek().filter(|word| word.text != ACTIVATION && word.text != LATENCY) {
            line.next();
            let slot = self.slot_number(word, isa)?;
            if named >> slot & 1 == 1 {
                return Err(word.error(format!("slot '{word}' is named twice")));
            }
            named |= 1 << slot;
            let value = line.take(&format!("the value of slot '{word}'"))?;
            slots[slot] = self.symbols.number(value)?;
        }
        Ok(ChunkSpec { isa, slots })
    }
}

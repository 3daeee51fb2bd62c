//! A rule whose lines are being read, and what it must keep to.

use jirvuntsag_packing::{ActionSpec, QuerySpec, TestSpec};

use super::query::Asked;
use super::words::{name, Line, Word};
use crate::error::TextError;
use crate::flaw::Flaw;
use crate::limits::VARIABLES;
use crate::shown::Shown;

/// A rule whose lines are being read.
pub struct Draft<'t> {
    pub head: Word<'t>,
    pub name: &'t str,
    pub utility: u16,
    /// The variables by number, with the words that they first stood in.
    pub variables: Vec<Word<'t>>,
    /// Those that stood in a test, bit v for variable v.
    tested: u8,
    /// Whether the head names the variables, so that no test can add one.
    listed: bool,
    pub tests: Vec<(Word<'t>, TestSpec)>,
    pub queries: Vec<(Word<'t>, QuerySpec)>,
    /// The buffer that the lines just read ask.
    pub asked: Option<Asked<'t>>,
    /// Whether `==>` was read.
    pub turned: bool,
    /// Whether a line of the rule was wrong: what follows from that is not told as a fault of its own.
    pub faulty: bool,
    pub actions: Vec<(Word<'t>, ActionSpec)>,
}

/// The buffer's name in `=goal>`, `?goal>`, `+goal>` or `-goal>`.
pub fn buffer_of<'t>(first: Word<'t>) -> &'t str {
    &first.text[1..first.text.len() - 1]
}

impl<'t> Draft<'t> {
    /// A rule of which no more is known than its line.
    pub fn new(head: Word<'t>) -> Draft<'t> {
        Draft {
            head,
            name: "",
            utility: 0,
            variables: Vec::new(),
            tested: 0,
            listed: false,
            tests: Vec::new(),
            queries: Vec::new(),
            asked: None,
            turned: false,
            faulty: false,
            actions: Vec::new(),
        }
    }

    /// A rule whose head is wrong.
    pub fn faulty(head: Word<'t>) -> Draft<'t> {
        Draft { faulty: true, ..Draft::new(head) }
    }

    /// The variables in the order of their numbers, to the line's end.
    pub fn list_variables(&mut self, line: &mut Line<'t>) -> Result<(), TextError> {
        while let Some(word) = line.next() {
            if !word.text.starts_with('?') {
                return Err(word.error(format!("expected a variable, as '?a', found '{word}'")));
            }
            if self.position(word).is_some() {
                return Err(word.error(format!("variable '{word}' is listed twice")));
            }
            self.add_variable(word)?;
        }
        self.listed = true;
        Ok(())
    }

    fn position(&self, word: Word) -> Option<usize> {
        self.variables.iter().position(|other| other.text == word.text)
    }

    fn add_variable(&mut self, word: Word<'t>) -> Result<usize, TextError> {
        name(Word { text: &word.text[1..], ..word })?;
        if self.variables.len() == VARIABLES {
            let message = format!("more than {VARIABLES} variables in rule '{}'", Shown(self.name));
            return Err(word.breaks(Flaw::VariableCount, message));
        }
        self.variables.push(word);
        Ok(self.variables.len() - 1)
    }

    /// The number of a variable; in a test a new one gets the next number.
    pub fn variable(&mut self, word: Word<'t>) -> Result<u16, TextError> {
        let number = match self.position(word) {
            Some(number) if !self.turned || self.tested >> number & 1 == 1 => number,
            _ if self.turned && self.faulty => return Ok(0),
            _ if self.turned => return Err(self.untested(word)),
            _ if self.listed => {
                let message = format!("variable '{word}' is not in the list of rule '{}'", Shown(self.name));
                return Err(word.breaks(Flaw::UnknownVariable, message));
            }
            _ => self.add_variable(word)?,
        };
        self.tested |= 1 << number;
        Ok(number as u16)
    }

    fn untested(&self, word: Word) -> TextError {
        let message = format!("variable '{word}' stands in no test of rule '{}'", Shown(self.name));
        word.breaks(Flaw::UntestedVariable, message)
    }

    /// The fault of a second test of a buffer, or a second action on it.
    pub fn twice(&self, what: &str, first: Word, before: Word) -> TextError {
        let (rule, buffer, line) = (Shown(self.name), Shown(buffer_of(first)), before.line);
        let message = format!("rule '{rule}' {what} buffer '{buffer}' twice, first in line {line}");
        first.breaks(Flaw::BufferOrder, message)
    }

    /// `==>`: tests and queries end here.
    pub fn turn(&mut self, first: Word, mut line: Line) -> Result<(), TextError> {
        if self.turned {
            return Err(first.error(format!("rule '{}' has two lines '==>'", Shown(self.name))));
        }
        self.turned = true;
        if self.tests.is_empty() && self.queries.is_empty() && !self.faulty {
            let message = format!("rule '{}' has no test and no query", Shown(self.name));
            return Err(first.breaks(Flaw::QueryCount, message));
        }
        line.end()
    }

    /// `-BUFFER>`.
    pub fn clear(&mut self, first: Word<'t>, buffer: u8, mut line: Line) -> Result<(), TextError> {
        line.end()?;
        self.act(first, ActionSpec::clear(buffer))
    }

    /// Adds an action, one for each buffer.
    pub fn act(&mut self, first: Word<'t>, action: ActionSpec) -> Result<(), TextError> {
        if let Some((other, _)) = self.actions.iter().find(|(_, other)| other.buffer == action.buffer) {
            return Err(self.twice("acts on", first, *other));
        }
        self.actions.push((first, action));
        Ok(())
    }

    /// What can be said only when all lines of the rule are read.
    pub fn check(&self) -> Result<(), TextError> {
        if self.faulty {
            return Ok(());
        }
        if !self.turned {
            return Err(self
                .head
                .error(format!("rule '{}' has no line '==>' between tests and actions", Shown(self.name))));
        }
        let untested = (0..self.variables.len()).find(|number| self.tested >> number & 1 == 0);
        match untested.map(|number| self.variables[number]) {
            Some(word) => Err(self.untested(word)),
            None => Ok(()),
        }
    }
}

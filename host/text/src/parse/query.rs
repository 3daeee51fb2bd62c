//! Queries: `?BUFFER> state STATE`, whose last two words may stand on a line of their own, as in ACT-R.

use jirvuntsag_packing::QuerySpec;

use super::draft::{buffer_of, Draft};
use super::words::{Line, Word};
use super::Parser;
use crate::error::TextError;
use crate::flaw::Flaw;
use crate::query::STATES;
use crate::shown::Shown;

/// A buffer that is asked, until a line begins that says nothing more of it.
pub struct Asked<'t> {
    first: Word<'t>,
    /// Nothing if the query is wrong already: what is said of it then is not told as a fault of its own.
    buffer: Option<u8>,
    /// What is wrong if nothing more is said.
    missing: Option<TextError>,
}

impl<'t> Parser<'t> {
    /// `?BUFFER>`, before `==>`, and what is asked of it if that stands on the same line.
    pub fn query(&mut self, draft: &mut Draft<'t>, first: Word<'t>, mut line: Line<'t>) -> Result<(), TextError> {
        let asked = draft.asked.insert(Asked { first, buffer: None, missing: None });
        if draft.turned {
            return Err(first.error(format!("'{first}' asks, and stands before '==>'")));
        }
        asked.buffer = Some(self.buffer_number(first, buffer_of(first))?);
        match line.next() {
            Some(item) => draft.ask(item, line),
            None => {
                asked.missing = Some(line.error_at_end(format!("nothing is asked of '{first}': {WANTED}")));
                Ok(())
            }
        }
    }

    /// Whether a line that begins so says what is asked of the buffer in the line above.
    pub fn is_asked(&self, first: &str) -> bool {
        self.draft.as_ref().is_some_and(|draft| draft.asked.is_some())
            && !super::is_rule_line(first)
            && (first == BUFFER || super::is_meant_within(first))
    }

    /// No more is said of the buffer that is asked: a fault if nothing was.
    pub fn end_query(&mut self) {
        let Some(draft) = &mut self.draft else { return };
        if let Some(fault) = draft.asked.take().and_then(|asked| asked.missing) {
            draft.faulty = true;
            self.note(Err(fault));
        }
    }
}

impl<'t> Draft<'t> {
    /// `state STATE`, of the buffer that is asked. More than one is refused: an image has one query for each buffer.
    pub fn ask(&mut self, mut item: Word<'t>, mut line: Line<'t>) -> Result<(), TextError> {
        let Some(Asked { first, buffer, missing }) = &mut self.asked else { return Ok(()) };
        *missing = None;
        let (first, Some(buffer)) = (*first, *buffer) else { return Ok(()) };
        loop {
            let kind = kind(first, item, &mut line)?;
            if let Some((other, _)) = self.queries.iter().find(|(_, query)| query.buffer == buffer) {
                let (rule, name, line) = (Shown(self.name), Shown(buffer_of(first)), other.line);
                let message = format!("rule '{rule}' queries buffer '{name}' twice, first in line {line}: {ONE}");
                return Err(item.breaks(Flaw::BufferOrder, message));
            }
            self.queries.push((first, QuerySpec { buffer, kind }));
            match line.next() {
                Some(next) => item = next,
                None => return Ok(()),
            }
        }
    }
}

/// The word of ACT-R for queries of what a buffer holds.
const BUFFER: &str = "buffer";

/// What may be asked.
const WANTED: &str = "write 'state busy', 'state free' or 'state error'";
/// Why one query is enough.
const ONE: &str = "one says it all, since an error is seen only where the buffer is free, and none where it is busy";

/// The kind of a query by its words.
fn kind(first: Word, item: Word, line: &mut Line) -> Result<u8, TextError> {
    match item.text {
        "state" => state(line.take("busy, free or error")?),
        BUFFER => Err(item.error(held(first, line.next()))),
        "-" => Err(item.error(negated(line))),
        _ => Err(item.error(format!("'{item}' cannot be asked of a buffer: {WANTED}"))),
    }
}

/// The kind of the query for a state.
fn state(word: Word) -> Result<u8, TextError> {
    let position = STATES.iter().position(|state| *state == word.text);
    let unknown = || word.error(format!("'{word}' is no state of a buffer: it is busy, free or error"));
    position.map(|kind| kind as u8).ok_or_else(unknown)
}

/// Why what a buffer holds cannot be asked, and what to write instead.
fn held(first: Word, asked: Option<Word>) -> String {
    let (asked, buffer) = (asked.map(|word| format!(" {word}")).unwrap_or_default(), Shown(buffer_of(first)));
    let instead = format!("test it with '={buffer}> TYPE', an empty one with '={buffer}> chunk'");
    format!("'buffer{asked}' cannot be asked: an image has no query of what a buffer holds; {instead}")
}

/// Why a query cannot be negated, and what to write instead.
fn negated(line: &mut Line) -> String {
    let instead = match (line.next().map(|word| word.text), line.next().map(|word| word.text)) {
        (Some("state"), Some("busy")) => "write 'state free'",
        (Some("state"), Some("free")) => "write 'state busy'",
        _ => "give the rule for the other case a higher utility",
    };
    format!("a query cannot be negated in an image: {instead}")
}

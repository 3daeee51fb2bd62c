//! From a text to a model with its names, one line after the other.

mod declare;
mod draft;
mod lisp;
mod lone;
mod lookup;
mod query;
mod rule;
mod symbols;
mod words;

use jirvuntsag_packing::ModelSpec;

use crate::error::TextError;
use crate::flaw::Flaw;
use crate::names::Names;
use crate::version::{with_version, WITH_QUERIES};
use draft::Draft;
use symbols::Symbols;
use words::{Line, Word};

pub use lone::Lone;

/// Faults that are kept at most: no reader wants more, and no text shall fill the memory with them.
const MOST_FAULTS: usize = 1_000;

/// What a text says.
pub struct Parsed {
    /// The model in numbers, and what they are called; only what holds if there is no fault.
    pub spec: ModelSpec,
    pub names: Names,
    /// All that is wrong, in the order of the text.
    pub faults: Vec<TextError>,
    /// The symbols that stand in one place only.
    pub lone: Vec<Lone>,
}

/// Reads a text whole: a line that is wrong is noted, and the next one is read.
pub fn parse(text: &str) -> Parsed {
    let mut parser = Parser::new();
    let text = text.strip_prefix('\u{feff}').unwrap_or(text);
    for (index, line) in text.lines().enumerate() {
        parser.line(Line::new(index + 1, line));
    }
    parser.finish()
}

/// What a text has said so far.
struct Parser<'t> {
    spec: ModelSpec,
    names: Names,
    symbols: Symbols,
    /// Whether the failure latency was said.
    failure_said: bool,
    /// Whether the version whose rules have queries was said.
    version_said: bool,
    /// The rule whose lines are being read.
    draft: Option<Draft<'t>>,
    faults: Vec<TextError>,
}

impl<'t> Parser<'t> {
    fn new() -> Parser<'t> {
        Parser {
            spec: ModelSpec::default(),
            names: Names::new(),
            symbols: Symbols::new(),
            failure_said: false,
            version_said: false,
            draft: None,
            faults: Vec::new(),
        }
    }

    /// Notes a fault, if there is one.
    fn note(&mut self, said: Result<(), TextError>) {
        if let Err(fault) = said {
            if self.faults.len() < MOST_FAULTS {
                self.faults.push(fault);
            }
        }
    }

    /// Takes one line; an empty one says nothing.
    fn line(&mut self, mut line: Line<'t>) {
        let Some(first) = line.next() else { return };
        let said = if self.is_asked(first.text) {
            self.in_rule(first, |_, draft| draft.ask(first, line))
        } else if is_rule_line(first.text) {
            self.end_query();
            self.in_rule(first, |parser, draft| parser.rule_part(draft, first, line))
        } else if let Some(draft) = self.draft.as_mut().filter(|_| is_meant_within(first.text)) {
            draft.faulty = true;
            Err(first.error(unknown(first, WITHIN_RULE)))
        } else {
            self.end_query();
            let ended = self.end_rule();
            self.note(ended);
            self.own_line(first, line)
        };
        self.note(said);
    }

    /// A line that belongs to no rule.
    fn own_line(&mut self, first: Word<'t>, line: Line<'t>) -> Result<(), TextError> {
        match first.text {
            "version" => self.version(first, line),
            "failure" => self.failure(first, line),
            "symbol" => self.symbol(line),
            "type" => self.type_line(line),
            "buffer" => self.buffer(line),
            "fact" => self.fact(first, line),
            "rule" => self.rule(first, line),
            _ => {
                // It may have been meant as the head of a rule, whose lines are then no faults of their own.
                self.draft = Some(Draft::faulty(first));
                Err(first.error(unknown(first, ANYWHERE)))
            }
        }
    }

    /// Reads a line that belongs to a rule.
    fn in_rule(
        &mut self,
        first: Word<'t>,
        read: impl FnOnce(&mut Self, &mut Draft<'t>) -> Result<(), TextError>,
    ) -> Result<(), TextError> {
        let Some(mut draft) = self.draft.take() else {
            return Err(first.error(format!("'{first}' stands in no rule: a 'rule' line comes first")));
        };
        let said = read(self, &mut draft);
        draft.faulty |= said.is_err();
        self.draft = Some(draft);
        said
    }

    /// What a rule must have once all its lines are read.
    fn end_rule(&mut self) -> Result<(), TextError> {
        match self.draft.take() {
            None => Ok(()),
            Some(draft) => self.add_rule(draft),
        }
    }

    /// What a model must have once the whole text is read.
    fn finish(mut self) -> Parsed {
        self.end_query();
        let ended = self.end_rule();
        self.note(ended);
        if self.spec.opening.is_empty() && self.faults.is_empty() {
            self.faults.push(TextError::whole("no buffer is declared").breaking(Flaw::BufferCount));
        }
        let lone = self.symbols.lone();
        self.names.symbols = self.symbols.into_names();
        let spec = if self.version_said { with_version(self.spec, WITH_QUERIES) } else { self.spec };
        Parsed { spec, names: self.names, faults: self.faults, lone }
    }
}

/// Whether a line that begins so is `==>`, a test, a query or an action: `=goal>`, `?goal>`, `+retrieval>`, `-goal>`.
fn is_rule_line(word: &str) -> bool {
    word == "==>" || word.len() > 2 && word.starts_with(['=', '+', '-', '?']) && word.ends_with('>')
}

/// What a line begins with.
const ANYWHERE: &str =
    "version, failure, symbol, type, buffer, fact, rule, =BUFFER>, ?BUFFER>, +BUFFER>, -BUFFER> or ==>";
/// The same, below the head of a rule.
const WITHIN_RULE: &str = "=BUFFER>, ?BUFFER>, +BUFFER>, -BUFFER> or ==> within a rule, where slots stand behind it, \
                           or else with version, failure, symbol, type, buffer, fact or rule";

/// Words that begin a line which declares something.
const DECLARING: [&str; 7] = ["version", "failure", "symbol", "type", "buffer", "fact", "rule"];

/// Whether a wrong line that begins so, below the head of a rule, is meant as one of that rule: as ACT-R writes slots and `isa` there.
fn is_meant_within(word: &str) -> bool {
    let elsewhere = DECLARING.contains(&word) || word.starts_with(['(', ')']);
    !elsewhere && lisp::answer(word).is_none_or(|_| lisp::is_within_rules(word))
}

/// Why no line begins with this word.
fn unknown(first: Word, wanted: &str) -> String {
    if let Some(answer) = lisp::answer(first.text) {
        return format!("'{first}' is ACT-R's: {answer}");
    }
    let why = match first.text.chars().next() {
        Some('(' | ')') => ": this is not Lisp;",
        Some('!') => ": a rule prints and computes nothing;",
        _ => " begins no line;",
    };
    format!("'{first}'{why} a line begins with {wanted}")
}

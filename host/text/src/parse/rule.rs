//! The lines of a rule: its head, its tests, and after `==>` its actions.

use jirvuntsag_packing::{ActionSpec, Deed, PatternSpec, RuleSpec, Term, TestSpec};

use super::draft::{buffer_of, Draft};
use super::words::{name, utility, Line, Word};
use super::Parser;
use crate::error::TextError;
use crate::flaw::Flaw;
use crate::limits::RULES;
use crate::names::RuleNames;
use crate::naming::ISA;
use crate::shown::Shown;

impl<'t> Parser<'t> {
    /// `rule NAME utility NUMBER variables ?NAME ..`; the last two parts may be missing.
    pub fn rule(&mut self, first: Word<'t>, line: Line<'t>) -> Result<(), TextError> {
        let mut draft = Draft::new(first);
        let said = self.head(&mut draft, first, line);
        draft.faulty = said.is_err();
        // A rule whose head is wrong is there all the same, or each of its lines would be called wrong, too.
        self.draft = Some(draft);
        said
    }

    /// The words of a rule's first line.
    fn head(&mut self, draft: &mut Draft<'t>, first: Word<'t>, mut line: Line<'t>) -> Result<(), TextError> {
        if self.spec.rules.len() == RULES {
            return Err(first.breaks(Flaw::RuleCount, format!("more than {RULES} rules")));
        }
        let head = line.take("the rule's name")?;
        draft.head = head;
        draft.name = name(head)?;
        if self.names.rules.iter().any(|other| other.name == draft.name) {
            return Err(head.error(format!("rule '{head}' is declared twice")));
        }
        if line.passes("utility") {
            draft.utility = utility(line.take("a utility")?)?;
        }
        if line.passes("variables") {
            draft.list_variables(&mut line)?;
        }
        line.end()
    }

    /// A line within a rule: a test, a query, `==>` or an action.
    pub fn rule_part(&mut self, draft: &mut Draft<'t>, first: Word<'t>, line: Line<'t>) -> Result<(), TextError> {
        if first.text == "==>" {
            return draft.turn(first, line);
        }
        if first.text.starts_with('?') {
            return self.query(draft, first, line);
        }
        let buffer = self.buffer_number(first, buffer_of(first))?;
        match (&first.text[..1], draft.turned) {
            ("=", false) => self.test(draft, first, buffer, line),
            ("=", true) => self.modify(draft, first, buffer, line),
            ("+", true) => self.request(draft, first, buffer, line),
            ("-", true) => draft.clear(first, buffer, line),
            _ => Err(first.error(format!("'{first}' is an action, and stands after '==>'"))),
        }
    }

    /// `=BUFFER> TYPE SLOT TERM ..`, before `==>`.
    fn test(
        &mut self,
        draft: &mut Draft<'t>,
        first: Word<'t>,
        buffer: u8,
        mut line: Line<'t>,
    ) -> Result<(), TextError> {
        if let Some((other, _)) = draft.tests.iter().find(|(_, test)| test.buffer == buffer) {
            return Err(draft.twice("tests", first, *other));
        }
        let (_, isa) = self.take_type(&mut line)?;
        let pattern = self.pattern(draft, isa, line)?;
        draft.tests.push((first, TestSpec { buffer, isa, pattern }));
        Ok(())
    }

    /// `=BUFFER> SLOT TERM ..`, after `==>`.
    fn modify(&mut self, draft: &mut Draft<'t>, first: Word<'t>, buffer: u8, line: Line<'t>) -> Result<(), TextError> {
        let Some((_, test)) = draft.tests.iter().find(|(_, test)| test.buffer == buffer) else {
            if draft.faulty {
                return Ok(());
            }
            let (rule, name) = (Shown(draft.name), Shown(buffer_of(first)));
            let asked = draft.queries.iter().any(|(_, query)| query.buffer == buffer);
            let hint = if asked { format!(": a query is no test, add '={name}> TYPE'") } else { String::new() };
            let message = format!("rule '{rule}' modifies buffer '{name}' and does not test it{hint}");
            return Err(first.breaks(Flaw::UntestedBuffer, message));
        };
        if let Some(word) = line.peek().filter(|word| word.text == ISA) {
            return Err(word.error("a modified buffer keeps its type: 'isa' stands in tests and requests"));
        }
        let pattern = self.pattern(draft, test.isa, line)?;
        draft.act(first, ActionSpec { buffer, deed: Deed::Modify(pattern) })
    }

    /// `+BUFFER> TYPE SLOT TERM ..`.
    fn request(
        &mut self,
        draft: &mut Draft<'t>,
        first: Word<'t>,
        buffer: u8,
        mut line: Line<'t>,
    ) -> Result<(), TextError> {
        let isa = self.take_declared_type(&mut line, "a request")?;
        let pattern = self.pattern(draft, isa, line)?;
        draft.act(first, ActionSpec { buffer, deed: Deed::Request(isa, pattern) })
    }

    /// Slots with their terms up to the line's end, in the order of the slots.
    fn pattern(&mut self, draft: &mut Draft<'t>, isa: u8, mut line: Line<'t>) -> Result<PatternSpec, TextError> {
        let mut named: Vec<(usize, Term)> = Vec::new();
        while let Some(word) = line.next() {
            let slot = self.masked_slot(word, isa)?;
            if named.iter().any(|(other, _)| *other == slot) {
                return Err(word.error(format!("slot '{word}' is named twice")));
            }
            let value = line.take(&format!("the term of slot '{word}'"))?;
            let term = match value.text.strip_prefix('?') {
                Some(_) => Term::Variable(draft.variable(value)?),
                None => Term::Symbol(self.symbols.number(value)?),
            };
            named.push((slot, term));
        }
        named.sort_by_key(|(slot, _)| *slot);
        Ok(PatternSpec::new(&named))
    }

    /// The rule in numbers, its tests, queries and actions by rising buffer.
    pub fn add_rule(&mut self, draft: Draft<'t>) -> Result<(), TextError> {
        draft.check()?;
        let variables: Vec<String> = draft.variables.iter().map(|word| word.text[1..].into()).collect();
        self.spec.rules.push(RuleSpec {
            utility: draft.utility,
            variables: variables.len() as u8,
            tests: rising(draft.tests, |test| test.buffer),
            queries: rising(draft.queries, |query| query.buffer),
            actions: rising(draft.actions, |action| action.buffer),
        });
        self.names.rules.push(RuleNames { name: draft.name.into(), variables });
        Ok(())
    }
}

/// What lines said, by rising buffer.
fn rising<T>(lines: Vec<(Word, T)>, buffer: impl Fn(&T) -> u8) -> Vec<T> {
    let mut said: Vec<T> = lines.into_iter().map(|(_, one)| one).collect();
    said.sort_by_key(buffer);
    said
}

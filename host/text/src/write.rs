//! From a model in numbers and its names to a text that packs to the same image.

use std::collections::BTreeSet;
use std::fmt::Write;

use jirvuntsag_packing::{ChunkSpec, Deed, ModelSpec, PatternSpec, RuleSpec, Term};

use crate::model::Model;
use crate::names::Names;

impl Model {
    /// The model as text; what it packs to is this model's image.
    pub fn to_text(&self) -> String {
        let mut body = Writer { spec: self.spec(), names: self.names(), text: String::new(), seen: Vec::new() };
        body.types();
        body.facts();
        body.buffers();
        body.rules();
        let version = self.spec().version.map(|version| format!("version {version}\n")).unwrap_or_default();
        let mut text = format!("{version}failure latency {}\n", self.spec().failure);
        for number in pinned(&body.seen) {
            let _ = writeln!(text, "symbol {} = {number}", self.names().symbol(number));
        }
        text + &body.text
    }
}

/// The symbols whose number the order of appearance would not give.
fn pinned(seen: &[u16]) -> BTreeSet<u16> {
    let mut taken = BTreeSet::from([0]);
    let mut pinned = BTreeSet::new();
    let mut lowest = 1;
    for &number in seen {
        if !taken.insert(number) {
            continue;
        }
        if number != lowest {
            pinned.insert(number);
        }
        while taken.contains(&lowest) {
            lowest += 1;
        }
    }
    pinned
}

/// The text so far, and the symbols in the order in which they stand in it. Writing to a string cannot fail.
struct Writer<'m> {
    spec: &'m ModelSpec,
    names: &'m Names,
    text: String,
    seen: Vec<u16>,
}

impl Writer<'_> {
    fn types(&mut self) {
        let declared = self.names.types.iter().skip(1);
        let lines: String = declared.map(|one| format!("type {}{}\n", one.name, spaced(&one.slots))).collect();
        self.section(&lines);
    }

    fn facts(&mut self) {
        let mut lines = String::new();
        for fact in &self.spec.facts {
            let chunk = self.chunk(&fact.chunk);
            let _ = writeln!(lines, "fact{chunk} activation {} latency {}", fact.activation, fact.latency);
        }
        self.section(&lines);
    }

    fn buffers(&mut self) {
        let mut lines = String::new();
        for (name, opening) in self.names.buffers.iter().zip(&self.spec.opening) {
            let chunk = if opening.isa == 0 { String::new() } else { self.chunk(opening) };
            let _ = writeln!(lines, "buffer {name}{chunk}");
        }
        self.section(&lines);
    }

    fn rules(&mut self) {
        for (number, rule) in self.spec.rules.iter().enumerate() {
            let mut lines = format!("rule {} utility {}", self.names.rules[number].name, utility(rule.utility));
            let variables: Vec<String> = (0..rule.variables).map(|one| self.variable(number, one.into())).collect();
            if !in_order(rule) {
                lines += &format!(" variables{}", spaced(&variables));
            }
            lines.push('\n');
            for test in &rule.tests {
                let terms = self.pattern(number, test.isa, &test.pattern);
                let _ = writeln!(lines, "  ={}> {}{terms}", self.buffer(test.buffer), self.isa(test.isa));
            }
            for query in &rule.queries {
                let _ = writeln!(lines, "  {}", self.names.query(query));
            }
            lines.push_str("  ==>\n");
            for action in &rule.actions {
                let tested = rule.tests.iter().find(|test| test.buffer == action.buffer).map_or(0, |test| test.isa);
                let line = self.action(number, action.buffer, tested, &action.deed);
                let _ = writeln!(lines, "  {line}");
            }
            self.section(&lines);
        }
    }

    /// Lines with an empty one before them.
    fn section(&mut self, lines: &str) {
        if !lines.is_empty() {
            let _ = write!(self.text, "\n{lines}");
        }
    }

    fn action(&mut self, rule: usize, buffer: u8, tested: u8, deed: &Deed) -> String {
        let name = self.buffer(buffer).to_owned();
        match deed {
            Deed::Modify(pattern) => format!("={name}>{}", self.pattern(rule, tested, pattern)),
            Deed::Request(isa, pattern) => {
                let terms = self.pattern(rule, *isa, pattern);
                format!("+{name}> {}{terms}", self.isa(*isa))
            }
            Deed::Clear => format!("-{name}>"),
            Deed::Forbidden => unreachable!("a model that was checked has no action of kind 3"),
        }
    }

    /// Type and slots that are not nil, each with a blank before it.
    fn chunk(&mut self, chunk: &ChunkSpec) -> String {
        let mut words = format!(" {}", self.isa(chunk.isa));
        for (slot, &value) in chunk.slots.iter().enumerate() {
            if value != 0 {
                let value = self.symbol(value);
                let _ = write!(words, " {} {value}", self.slot(chunk.isa, slot));
            }
        }
        words
    }

    /// Named slots with their terms, each with a blank before it.
    fn pattern(&mut self, rule: usize, isa: u8, pattern: &PatternSpec) -> String {
        let mut words = String::new();
        for (slot, term) in pattern.named() {
            let term = match term {
                Term::Symbol(number) => self.symbol(number),
                Term::Variable(number) => self.variable(rule, number),
            };
            let _ = write!(words, " {} {term}", self.slot(isa, slot));
        }
        words
    }

    fn symbol(&mut self, number: u16) -> String {
        self.seen.push(number);
        self.names.symbol(number)
    }

    fn variable(&self, rule: usize, number: u16) -> String {
        format!("?{}", self.names.rules[rule].variables[usize::from(number)])
    }

    fn buffer(&self, number: u8) -> &str {
        &self.names.buffers[usize::from(number)]
    }

    fn isa(&self, number: u8) -> &str {
        &self.names.types[usize::from(number)].name
    }

    fn slot(&self, isa: u8, slot: usize) -> &str {
        &self.names.types[usize::from(isa)].slots[slot]
    }
}

/// Words, each with a blank before it.
fn spaced(words: &[String]) -> String {
    words.iter().map(|word| format!(" {word}")).collect()
}

/// Whether the variables first stand in the tests in the order of their numbers.
fn in_order(rule: &RuleSpec) -> bool {
    let mut next = 0;
    let terms = rule.tests.iter().flat_map(|test| &test.pattern.terms);
    for term in terms {
        match *term {
            Term::Variable(number) if number > next => return false,
            Term::Variable(number) if number == next => next += 1,
            _ => (),
        }
    }
    true
}

/// The utility's field as a decimal number.
fn utility(field: u16) -> String {
    let thousandths = i32::from(field as i16);
    let (sign, size) = (if thousandths < 0 { "-" } else { "" }, thousandths.abs());
    let decimals = format!(".{:03}", size % 1_000);
    let decimals = decimals.trim_end_matches('0').trim_end_matches('.');
    format!("{sign}{}{decimals}", size / 1_000)
}

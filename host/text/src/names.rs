//! The names of a model, which its image does not hold, and the JSON file that keeps them.

use std::collections::BTreeMap;

use jirvuntsag_packing::{ModelSpec, QuerySpec};

use crate::error::TextError;
use crate::json::{parse, quote, Json};
use crate::limits::SYMBOL;
use crate::query::STATES;
use crate::shown::Shown;

/// The names of everything in a model, each by its number.
#[derive(Clone, PartialEq, Eq, Debug, Default)]
pub struct Names {
    /// Buffers.
    pub buffers: Vec<String>,
    /// Types; the first is `chunk`, which has no slots.
    pub types: Vec<TypeNames>,
    /// Symbols that are used; 0 is `nil`.
    pub symbols: BTreeMap<u16, String>,
    /// Rules.
    pub rules: Vec<RuleNames>,
}

/// The names of a type.
#[derive(Clone, PartialEq, Eq, Debug, Default)]
pub struct TypeNames {
    /// The type's own name.
    pub name: String,
    /// Its slots.
    pub slots: Vec<String>,
}

/// The names of a rule.
#[derive(Clone, PartialEq, Eq, Debug, Default)]
pub struct RuleNames {
    /// The rule's own name.
    pub name: String,
    /// Its variables, without the question mark.
    pub variables: Vec<String>,
}

/// The name of type 0.
pub const CHUNK: &str = "chunk";
/// The name of symbol 0.
pub const NIL: &str = "nil";

impl Names {
    /// Names of a model before anything is declared: type 0 and symbol 0.
    pub fn new() -> Names {
        let chunk = TypeNames { name: CHUNK.into(), slots: Vec::new() };
        Names { types: vec![chunk], symbols: BTreeMap::from([(0, NIL.into())]), ..Names::default() }
    }

    /// Names for a model that has none: `b0`, `t1`, `s0`, `r0`, `v0`; a symbol is called as `symbol` says.
    pub fn invented(spec: &ModelSpec) -> Names {
        let mut names = Names::new();
        names.buffers = numbered("b", spec.opening.len());
        for (number, &slots) in spec.types.iter().enumerate() {
            names.types.push(TypeNames { name: format!("t{}", number + 1), slots: numbered("s", slots.into()) });
        }
        for (number, rule) in spec.rules.iter().enumerate() {
            let variables = numbered("v", rule.variables.into());
            names.rules.push(RuleNames { name: format!("r{number}"), variables });
        }
        names
    }

    /// A symbol's name; `x17` for symbol 17 if it has none.
    pub fn symbol(&self, number: u16) -> String {
        self.symbols.get(&number).cloned().unwrap_or_else(|| format!("x{number}"))
    }

    /// A chunk by its names: its type, and each slot with its value; what has no name is called by its number. Of nil it is the
    /// type alone.
    pub fn chunk(&self, isa: u16, slots: &[u16]) -> String {
        let Some(names) = self.types.get(usize::from(isa)) else { return format!("t{isa}") };
        let values = names.slots.iter().zip(slots).map(|(slot, &value)| format!(" {slot}={}", self.symbol(value)));
        format!("{}{}", names.name, values.collect::<String>())
    }

    /// A query of a model that these names fit, as a text has it: `?retrieval> state busy`.
    pub fn query(&self, query: &QuerySpec) -> String {
        format!("?{}> state {}", self.buffers[usize::from(query.buffer)], STATES[usize::from(query.kind)])
    }

    /// The facts of a store by their names, in the order learned: a line for each, as [`Names::chunk`] prints it. They are what
    /// `Store::facts` of `jirvuntsag-proved` gives, or types with eight slots each.
    ///
    /// ```
    /// use jirvuntsag_proved::{Model, Store};
    ///
    /// # let text = std::fs::read_to_string(concat!(env!("CARGO_MANIFEST_DIR"), "/../../examples/pupil.model"))?;
    /// let pupil = jirvuntsag_text::Model::from_text(&text)?;
    /// let image = pupil.image();
    /// let (model, state, mut table) = Model::open(&image)?;
    /// let mut store = Store::new();
    /// model.run_lent(state, &mut table, 1_000, Some(&mut store))?;
    /// assert_eq!(pupil.names().store(store.facts()), "sum first=3 second=2 result=5\n");
    /// # Ok::<(), Box<dyn std::error::Error>>(())
    /// ```
    pub fn store(&self, facts: impl IntoIterator<Item = impl Into<(u16, [u16; 8])>>) -> String {
        let line = |(isa, slots): (u16, [u16; 8])| self.chunk(isa, &slots) + "\n";
        facts.into_iter().map(|fact| line(fact.into())).collect()
    }

    /// The names as a JSON file.
    pub fn to_json(&self) -> String {
        let types = self.types.iter().map(|one| named(&one.name, "slots", &one.slots));
        let rules = self.rules.iter().map(|one| named(&one.name, "variables", &one.variables));
        let symbols = self.symbols.iter().map(|(number, name)| format!("\"{number}\": {}", quote(name)));
        format!(
            "{{\n  \"buffers\": {},\n  \"types\": [{}],\n  \"symbols\": {{{}}},\n  \"rules\": [{}]\n}}\n",
            list(&self.buffers),
            lines(types),
            lines(symbols),
            lines(rules)
        )
    }

    /// The names that a JSON file holds; members that are not known are passed over.
    pub fn from_json(text: &str) -> Result<Names, TextError> {
        let json = parse(text)?;
        let mut names = Names { buffers: texts(member(&json, "buffers")?, "buffers")?, ..Names::default() };
        for one in items(member(&json, "types")?, "types")? {
            let (name, slots) = (text_of(member(one, "name")?, "name")?, texts(member(one, "slots")?, "slots")?);
            names.types.push(TypeNames { name, slots });
        }
        for (number, name) in members(member(&json, "symbols")?, "symbols")? {
            names.symbols.insert(symbol_number(number)?, text_of(name, "symbols")?);
        }
        for one in items(member(&json, "rules")?, "rules")? {
            let name = text_of(member(one, "name")?, "name")?;
            let variables = texts(member(one, "variables")?, "variables")?;
            names.rules.push(RuleNames { name, variables });
        }
        Ok(names)
    }
}

/// A symbol's number as a JSON file writes it: one way for each number.
fn symbol_number(text: &str) -> Result<u16, TextError> {
    let number = text.parse().ok().filter(|number: &u16| *number <= SYMBOL && number.to_string() == text);
    number.ok_or_else(|| TextError::whole(format!("symbols: '{}' is no symbol number, 0 to {SYMBOL}", Shown(text))))
}

/// A letter with each number below a count.
fn numbered(letter: &str, count: usize) -> Vec<String> {
    (0..count).map(|number| format!("{letter}{number}")).collect()
}

/// A name with the names within it, as a JSON object.
fn named(name: &str, within: &str, names: &[String]) -> String {
    format!("{{\"name\": {}, \"{within}\": {}}}", quote(name), list(names))
}

/// Names as a JSON array on one line.
fn list(names: &[String]) -> String {
    let quoted: Vec<String> = names.iter().map(|name| quote(name)).collect();
    format!("[{}]", quoted.join(", "))
}

/// JSON items, each on a line of its own.
fn lines(items: impl Iterator<Item = String>) -> String {
    let items: Vec<String> = items.collect();
    if items.is_empty() {
        return String::new();
    }
    format!("\n    {}\n  ", items.join(",\n    "))
}

/// The member of an object.
fn member<'j>(json: &'j Json, key: &str) -> Result<&'j Json, TextError> {
    let found = members(json, "the file")?.iter().find(|(name, _)| name == key);
    found.map(|(_, value)| value).ok_or_else(|| TextError::whole(format!("names without \"{key}\"")))
}

fn members<'j>(json: &'j Json, what: &str) -> Result<&'j [(String, Json)], TextError> {
    match json {
        Json::Object(members) => Ok(members),
        _ => Err(TextError::whole(format!("{what}: expected an object"))),
    }
}

fn items<'j>(json: &'j Json, what: &str) -> Result<&'j [Json], TextError> {
    match json {
        Json::List(items) => Ok(items),
        _ => Err(TextError::whole(format!("{what}: expected a list"))),
    }
}

fn text_of(json: &Json, what: &str) -> Result<String, TextError> {
    match json {
        Json::Text(text) => Ok(text.clone()),
        _ => Err(TextError::whole(format!("{what}: expected a string"))),
    }
}

fn texts(json: &Json, what: &str) -> Result<Vec<String>, TextError> {
    items(json, what)?.iter().map(|item| text_of(item, what)).collect()
}

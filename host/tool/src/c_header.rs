//! A model's numbers as constants for C and C++.

use std::collections::HashSet;
use std::path::Path;

use jirvuntsag_text::{Model, Shown};

/// Words of a rule's entry in the table.
const ENTRY: usize = 9;

/// Letters of a name that its constant has at most.
const LONGEST: usize = 60;

/// The header of a model; its constants begin with the name of the file that it is written to.
pub fn c_header(model: &Model, path: &str) -> String {
    let prefix = prefix(path);
    let mut header = Header { prefix: &prefix, text: String::new(), taken: HashSet::new() };
    header.constant("IMAGE_BYTES", model.image().len(), None);
    header.constant("TABLE_WORDS", ENTRY * model.spec().rules.len(), None);
    let names = model.names();
    let types = names.types.iter().map(|one| &one.name);
    let rules = names.rules.iter().map(|one| &one.name);
    let symbols = names.symbols.iter().map(|(number, name)| (usize::from(*number), name));
    header.section("Buffers, by number in a state.", "BUFFER", names.buffers.iter().enumerate());
    header.section("Types; a buffer of type 0 is empty.", "TYPE", types.enumerate());
    for one in names.types.iter().filter(|one| !one.slots.is_empty()) {
        let about = format!("Slots of type {}.", comment(&one.name));
        header.section(&about, &format!("SLOT_{}", identifier(&one.name)), one.slots.iter().enumerate());
    }
    header.section("Symbols, the values of slots.", "SYMBOL", symbols);
    header.section("Rules, as a step tells them.", "RULE", rules.enumerate());
    let about = "The numbers of a model by name, written by 'pack --header'.";
    format!("/* {about} */\n#ifndef {prefix}_H\n#define {prefix}_H\n\n{}\n#endif\n", header.text)
}

/// A header under way.
struct Header<'p> {
    prefix: &'p str,
    text: String,
    /// The constants so far, so that no two are called the same.
    taken: HashSet<String>,
}

impl Header<'_> {
    /// The constants of one kind.
    fn section<'n>(&mut self, about: &str, kind: &str, names: impl Iterator<Item = (usize, &'n String)>) {
        self.text += &format!("\n/* {about} */\n");
        names.for_each(|(number, name)| self.named(kind, name, number));
    }

    /// The constant of something with a name; where another has taken it already, its number makes it another.
    fn named(&mut self, kind: &str, name: &str, number: usize) {
        let mut constant = format!("{kind}_{}", identifier(name));
        while self.taken.contains(&constant) {
            constant += &format!("_{number}");
        }
        self.constant(&constant, number, Some(name));
    }

    fn constant(&mut self, constant: &str, value: usize, name: Option<&str>) {
        let comment = name.map(|name| format!(" /* {} */", comment(name))).unwrap_or_default();
        self.text += &format!("#define {}_{constant} {value}{comment}\n", self.prefix);
        self.taken.insert(constant.into());
    }
}

/// A name as it can stand in a comment, which ends at the first '*/'.
fn comment(name: &str) -> String {
    Shown(name).to_string().replace("*/", "*\\/")
}

/// A name in the letters that a constant may have.
fn identifier(name: &str) -> String {
    let letter = |letter: char| if letter.is_ascii_alphanumeric() { letter.to_ascii_uppercase() } else { '_' };
    name.chars().take(LONGEST).map(letter).collect()
}

/// What all constants begin with: the name of the header's file, or MODEL where that can begin none.
fn prefix(path: &str) -> String {
    let stem = Path::new(path).file_stem().map(|stem| identifier(&stem.to_string_lossy())).unwrap_or_default();
    if stem.starts_with(|first: char| first.is_ascii_uppercase()) {
        stem
    } else {
        format!("MODEL{}", if stem.trim_matches('_').is_empty() { String::new() } else { format!("_{stem}") })
    }
}

//! What a text may call things.

use crate::shown::Shown;

/// The word that may stand before a type, as in ACT-R.
pub const ISA: &str = "isa";

/// Words that end the slots of a fact, so that no slot can be called so.
pub const ACTIVATION: &str = "activation";
pub const LATENCY: &str = "latency";

/// Why a word cannot be a name, if it cannot.
pub fn name_fault(name: &str) -> Option<String> {
    if name.starts_with('?') {
        return Some(format!("'{}' is a variable, which stands only in rules", Shown(name)));
    }
    if let Some(rest) = name.strip_prefix('=') {
        return Some(format!("'{}' is no name: a variable is written '?{}'", Shown(name), Shown(rest)));
    }
    let bad = |letter: &char| "()\"#;".contains(*letter) || letter.is_whitespace() || letter.is_control();
    match name.chars().find(bad) {
        Some(letter) => Some(format!("'{}' cannot stand in a name", letter.escape_debug())),
        None if name.is_empty() => Some("a name has at least one character".into()),
        None => None,
    }
}

/// Why a type cannot be called so, after the types before it.
pub fn type_name_fault<'n>(name: &str, mut before: impl Iterator<Item = &'n String>) -> Option<String> {
    if name == ISA {
        return Some(format!("'{}' has a meaning of its own and cannot be a type", Shown(name)));
    }
    if before.any(|other| other == name) {
        return Some(format!("type '{}' is declared twice", Shown(name)));
    }
    name_fault(name)
}

/// Why a slot cannot be called so, after the slots of its type before it.
pub fn slot_name_fault(name: &str, before: &[String]) -> Option<String> {
    if [ISA, ACTIVATION, LATENCY, "-"].contains(&name) {
        return Some(format!("'{}' has a meaning of its own and cannot be a slot", Shown(name)));
    }
    if before.iter().any(|other| other == name) {
        return Some(format!("slot '{}' is named twice", Shown(name)));
    }
    name_fault(name)
}

/// Why a buffer cannot be called so, after the buffers before it.
pub fn buffer_name_fault(name: &str, before: &[String]) -> Option<String> {
    if name.contains('>') {
        return Some("'>' cannot stand in the name of a buffer".into());
    }
    if before.iter().any(|other| other == name) {
        return Some(format!("buffer '{}' is declared twice", Shown(name)));
    }
    name_fault(name)
}

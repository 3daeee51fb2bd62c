//! Pieces of CLIPS that stand in many places.

use std::collections::BTreeSet;
use std::fmt::Display;

use jirvuntsag_reference::{Pattern, Term};

/// `(s0 4) (s1 ?v0)`, a blank before each.
pub fn slots<T: Display>(named: impl Iterator<Item = (usize, T)>) -> String {
    named.map(|(slot, value)| format!(" (s{slot} {value})")).collect()
}

/// The slots of a pattern with its terms.
pub fn terms(pattern: &Pattern) -> String {
    slots(pattern.named().map(|(slot, term)| (slot, written(term))))
}

/// The slots of a test with its terms; `bound` are the variables that stood before. Where one first stands it takes no 0, which
/// is nil; all its other places hold the same.
pub fn tested(pattern: &Pattern, bound: &mut BTreeSet<u8>) -> String {
    slots(pattern.named().map(|(slot, term)| match term {
        Term::Variable(number) if bound.insert(number) => (slot, format!("{}&~0", written(term))),
        Term::Variable(_) | Term::Symbol(_) => (slot, written(term)),
    }))
}

/// A term by itself.
fn written(term: Term) -> String {
    match term {
        Term::Symbol(symbol) => symbol.to_string(),
        Term::Variable(number) => format!("?v{number}"),
    }
}

/// A template with slots of these names, and then those of a chunk.
pub fn template(name: &str, own: &[&str], chunk: impl Iterator<Item = usize>) -> String {
    let own: String = own.iter().map(|slot| format!(" (slot {slot})")).collect();
    let chunk: String = chunk.map(|slot| format!(" (slot s{slot})")).collect();
    format!("(deftemplate {name}{own}{chunk})")
}

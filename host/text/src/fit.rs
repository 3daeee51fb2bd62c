//! Whether names belong to a model: as many of each kind, and such as a text can hold.

use std::collections::{BTreeMap, HashSet};

use jirvuntsag_packing::ModelSpec;

use crate::error::TextError;
use crate::names::{Names, CHUNK, NIL};
use crate::naming::{buffer_name_fault, name_fault, slot_name_fault, type_name_fault};
use crate::shown::Shown;

/// Refuses names that do not fit the model.
pub fn check_fit(spec: &ModelSpec, names: &Names) -> Result<(), TextError> {
    let fault = buffers(spec, names)
        .or_else(|| types(spec, names))
        .or_else(|| rules(spec, names))
        .or_else(|| symbols(&names.symbols));
    fault.map_or(Ok(()), |message| Err(TextError::whole(format!("the names do not fit the model: {message}"))))
}

/// Why so many names do not do for so many things.
fn miscounted(what: &str, named: usize, there: usize) -> Option<String> {
    (named != there).then(|| format!("{named} {what} are named and {there} are there"))
}

fn buffers(spec: &ModelSpec, names: &Names) -> Option<String> {
    let buffers = &names.buffers;
    let faults = || buffers.iter().enumerate().find_map(|(at, name)| buffer_name_fault(name, &buffers[..at]));
    miscounted("buffers", buffers.len(), spec.opening.len()).or_else(faults)
}

fn types(spec: &ModelSpec, names: &Names) -> Option<String> {
    if names.types.first().is_none_or(|chunk| chunk.name != CHUNK || !chunk.slots.is_empty()) {
        return Some(format!("the first type is '{CHUNK}', without slots"));
    }
    let declared = &names.types[1..];
    if let Some(fault) = miscounted("declared types", declared.len(), spec.types.len()) {
        return Some(fault);
    }
    declared.iter().zip(&spec.types).enumerate().find_map(|(at, (one, &count))| {
        let before = names.types[..=at].iter().map(|other| &other.name);
        let slots = &one.slots;
        type_name_fault(&one.name, before)
            .or_else(|| miscounted(&format!("slots of type '{}'", Shown(&one.name)), slots.len(), count.into()))
            .or_else(|| slots.iter().enumerate().find_map(|(slot, name)| slot_name_fault(name, &slots[..slot])))
    })
}

fn rules(spec: &ModelSpec, names: &Names) -> Option<String> {
    let own: Vec<&String> = names.rules.iter().map(|rule| &rule.name).collect();
    if let Some(fault) = miscounted("rules", own.len(), spec.rules.len()).or_else(|| faulty("rule", &own)) {
        return Some(fault);
    }
    names.rules.iter().zip(&spec.rules).find_map(|(rule, there)| {
        let variables: Vec<&String> = rule.variables.iter().collect();
        miscounted(&format!("variables of rule '{}'", Shown(&rule.name)), variables.len(), there.variables.into())
            .or_else(|| faulty("variable", &variables))
    })
}

/// The first name that cannot be one, or that stands twice.
fn faulty(what: &str, names: &[&String]) -> Option<String> {
    let mut before = HashSet::new();
    names.iter().find_map(|name| {
        let twice = (!before.insert(name)).then(|| format!("{what} '{}' stands twice", Shown(name)));
        twice.or_else(|| name_fault(name))
    })
}

fn symbols(symbols: &BTreeMap<u16, String>) -> Option<String> {
    if symbols.get(&0).is_none_or(|name| name != NIL) {
        return Some(format!("symbol 0 is '{NIL}'"));
    }
    let invented = |(number, name): (&u16, &String)| {
        let other = name.strip_prefix('x')?.parse().ok().filter(|other| other != number)?;
        (!symbols.contains_key(&other) && *name == format!("x{other}"))
            .then(|| format!("symbol {number} is called '{name}' as symbol {other} would be, which has no name"))
    };
    let names: Vec<&String> = symbols.values().collect();
    symbols.iter().find_map(invented).or_else(|| faulty("symbol", &names))
}

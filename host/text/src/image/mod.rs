//! From an image to its model, or to the field that it is refused for, in words.

mod fields;
mod queries;
mod rules;

use jirvuntsag_packing::{ChunkSpec, FactSpec, ModelSpec};

use crate::flaw::Flaw;
use crate::limits::{BUFFERS, FACTS, IMAGE_LIMIT, RULES, SLOTS};
use crate::refused::Refused;
use crate::version::{with_version, VERSIONS};
use fields::{numbered, Fields};

/// The model of an image.
pub fn read_image(image: &[u8]) -> Result<ModelSpec, Refused> {
    if image.len() > IMAGE_LIMIT {
        return Err(Refused { flaw: Flaw::TooLong, at: None, cause: format!("it has {} bytes", image.len()) });
    }
    let mut fields = Fields::new(image);
    let mut spec = ModelSpec::default();
    let counts = header(&mut fields, &mut spec)?;
    for number in 1..=counts.types {
        let what = || format!("the slot count of type {number}");
        spec.types.push(fields.at_most(4, SLOTS, Flaw::SlotCount, what)? as u8);
    }
    for buffer in 0..counts.buffers {
        let opening = chunk(&mut fields, &spec, 0, &format!("the opening of buffer {buffer}"))?;
        spec.opening.push(opening);
    }
    for number in 0..counts.facts {
        let fact = fact(&mut fields, &spec, number)?;
        spec.facts.push(fact);
    }
    for number in 0..counts.rules {
        let rule = rules::rule(&mut fields, &spec, counts.version, number)?;
        spec.rules.push(rule);
    }
    fields.finish()?;
    Ok(with_version(spec, counts.version))
}

/// What the header says of what follows: the version, and how many of each kind.
struct Counts {
    version: u16,
    buffers: u16,
    types: u16,
    rules: u16,
    facts: u16,
}

/// Version, counts and failure latency.
fn header(fields: &mut Fields, spec: &mut ModelSpec) -> Result<Counts, Refused> {
    let another = |version: u16| (!VERSIONS.contains(&version)).then(|| (Flaw::Version, version.to_string()));
    let version = fields.judged(8, || "the version".into(), another)?;
    let wrong =
        |count: u16| (!(1..=BUFFERS).contains(&usize::from(count))).then(|| (Flaw::BufferCount, count.to_string()));
    let buffers = fields.judged(4, || "the number of buffers".into(), wrong)?;
    let types = fields.take(6, || "the number of types".into())?;
    let rules = fields.at_most(9, RULES, Flaw::RuleCount, || "the number of rules".into())?;
    let facts = fields.at_most(10, FACTS, Flaw::FactCount, || "the number of facts".into())?;
    spec.failure = fields.take(16, || "the failure latency".into())?;
    Ok(Counts { version, buffers, types, rules, facts })
}

/// A type from `lowest` to T and the values of its slots.
fn chunk(fields: &mut Fields, spec: &ModelSpec, lowest: u16, whose: &str) -> Result<ChunkSpec, Refused> {
    let isa = type_of(fields, spec, lowest, whose)?;
    let slots =
        (0..spec.slot_count(isa)).map(|slot| fields.take(12, || format!("the value of slot {slot} of {whose}")));
    Ok(ChunkSpec { isa, slots: slots.collect::<Result<_, _>>()? })
}

/// A type field, `lowest` to T.
fn type_of(fields: &mut Fields, spec: &ModelSpec, lowest: u16, whose: &str) -> Result<u8, Refused> {
    let highest = spec.types.len();
    let wrong = |isa: u16| {
        if isa < lowest {
            return Some((Flaw::ChunkType, isa.to_string()));
        }
        let declared = || format!("{isa}, but the image declares {}", numbered("type", 1, highest));
        (usize::from(isa) > highest).then(|| (Flaw::UnknownType, declared()))
    };
    Ok(fields.judged(6, || format!("the type of {whose}"), wrong)? as u8)
}

/// One fact.
fn fact(fields: &mut Fields, spec: &ModelSpec, number: u16) -> Result<FactSpec, Refused> {
    let whose = format!("fact {number}");
    let chunk = chunk(fields, spec, 1, &whose)?;
    let activation = fields.take(16, || format!("the activation of {whose}"))?;
    let latency = fields.take(16, || format!("the latency of {whose}"))?;
    Ok(FactSpec { chunk, activation, latency })
}

//! The facts of a model, and the rules that answer requests.

use std::collections::BTreeSet;

use jirvuntsag_reference::{Action, Deed, Model};

use super::shape::Shape;
use super::text::{slots, template};
use super::ANSWERS;

/// Requests that differ in values alone; one of them is a fact of a template of that name.
#[derive(Clone, Copy, PartialEq, Eq, PartialOrd, Ord)]
pub struct Ask {
    buffer: u8,
    isa: u8,
    mask: u8,
}

impl Ask {
    /// The kind of a request; no other action has one.
    pub fn of(action: &Action) -> Option<Ask> {
        match action.deed {
            Deed::Request(isa) => Some(Ask { buffer: action.buffer, isa, mask: action.pattern.mask() }),
            Deed::Modify | Deed::Clear => None,
        }
    }

    /// Its template.
    pub fn name(&self) -> String {
        format!("ask-{}-{}-{:02x}", self.buffer, self.isa, self.mask)
    }

    /// The slots that are named.
    fn named(&self) -> impl Iterator<Item = usize> {
        let mask = self.mask;
        (0..8).filter(move |slot| mask & 0x80 >> slot != 0)
    }
}

/// Templates, facts, and two rules for each kind of requests.
pub fn parts(model: &Model, shapes: &[Shape]) -> Vec<String> {
    let asks: BTreeSet<Ask> = model.rules().flat_map(|rule| rule.actions).filter_map(Ask::of).collect();
    let types: BTreeSet<u8> = asks.iter().map(|ask| ask.isa).collect();
    let fact = |&isa: &u8| template(&format!("fact-{isa}"), &["rank", "latency"], 0..model.slot_count(u16::from(isa)));
    let mut parts: Vec<String> = types.iter().map(fact).collect();
    parts.extend(asks.iter().map(|ask| template(&ask.name(), &[], ask.named())));
    parts.extend(facts(model, &types));
    for ask in &asks {
        let shape = &shapes[usize::from(ask.buffer)];
        parts.push(finds(model, shape, ask));
        parts.push(fails(model, shape, ask));
    }
    parts
}

/// The facts of these types; ranks rise as activations fall, and then as numbers rise.
fn facts(model: &Model, types: &BTreeSet<u8>) -> Option<String> {
    let mut order: Vec<usize> = (0..model.facts().len()).collect();
    order.sort_by_key(|&number| (u16::MAX - model.facts()[number].activation, number));
    let ranked = order.iter().map(|&number| &model.facts()[number]).enumerate();
    let mut text = String::new();
    for (rank, fact) in ranked.filter(|(_, fact)| types.contains(&fact.chunk.isa)) {
        let isa = fact.chunk.isa;
        let slots = slots(fact.chunk.slots.iter().enumerate().take(model.slot_count(u16::from(isa))));
        text += &format!("\n  (fact-{isa} (rank {rank}) (latency {}){slots})", fact.latency);
    }
    (!text.is_empty()).then(|| format!("(deffacts memory{text})"))
}

/// Slots with a variable for each.
fn varied(named: impl Iterator<Item = usize>) -> String {
    slots(named.map(|slot| (slot, format!("?s{slot}"))))
}

/// The rule that finds the fact of the least rank that fits.
fn finds(model: &Model, shape: &Shape, ask: &Ask) -> String {
    let (Ask { buffer, isa, .. }, name, wanted) = (ask, ask.name(), varied(ask.named()));
    let all = 0..model.slot_count(u16::from(*isa));
    let values: Vec<String> = all.clone().map(|slot| format!("?s{slot}")).collect();
    let found = shape.chunk("(+ ?*now* ?latency)", *isa, &values);
    let all = varied(all);
    format!(
        "(defrule find-{name} (declare (salience {ANSWERS}))
  ?ask <- ({name}{wanted})
  ?buffer <- (buffer-{buffer})
  (fact-{isa} (rank ?rank) (latency ?latency){all})
  (not (fact-{isa} (rank ?better&:(< ?better ?rank)){wanted}))
  =>
  (retract ?ask)
  (modify ?buffer{found}))"
    )
}

/// The rule that leaves the buffer empty, late, where no fact fits.
fn fails(model: &Model, shape: &Shape, ask: &Ask) -> String {
    let (Ask { buffer, isa, .. }, name, wanted) = (ask, ask.name(), varied(ask.named()));
    let nothing = shape.empty(&format!("(+ ?*now* {})", model.failure_latency()));
    format!(
        "(defrule fail-{name} (declare (salience {ANSWERS}))
  ?ask <- ({name}{wanted})
  ?buffer <- (buffer-{buffer})
  (not (fact-{isa}{wanted}))
  =>
  (retract ?ask)
  (modify ?buffer{nothing}))"
    )
}

//! Random states, clocks, marks and step counts.

use jirvuntsag_packing::{ModelSpec, QuerySpec, RuleSpec, Term};
use jirvuntsag_reference::{Buffer, State};

use crate::places::variable_places;
use crate::rng::Rng;

/// Delays on both sides of a firing, and the ends.
const DELAYS: [u16; 10] = [1, 2, 49, 50, 51, 100, 101, 150, 65_534, 65_535];
/// Clocks at the edge: the last that lets a rule fire is 4,294,967,245.
const CLOCKS: [u32; 12] = [
    0,
    1,
    50,
    4_294_901_760,
    4_294_901_761,
    4_294_967_145,
    4_294_967_195,
    4_294_967_244,
    4_294_967_245,
    4_294_967_246,
    4_294_967_294,
    4_294_967_295,
];

/// How a state is not well formed.
#[derive(Clone, Copy, PartialEq, Eq, Debug)]
pub enum BrokenBy {
    /// A type above T.
    Type,
    /// A value above 4,095.
    Value,
    /// A value past the type's slots.
    Past,
    /// A type, value, delay or error flag in a buffer past the count.
    Unused,
    /// An error flag beside a chunk that is not nil.
    Flag,
}

/// A well-formed state, often one in which some rule matches.
pub fn state(rng: &mut Rng, spec: &ModelSpec) -> State {
    let mut state = State { clock: clock(rng), ..State::default() };
    for (b, chunk) in spec.opening.iter().enumerate() {
        let isa = if rng.chance(60) { chunk.isa } else { rng.from_to(0, spec.types.len()) as u8 };
        state.buffers[b] = buffer(rng, spec, isa);
    }
    if !spec.rules.is_empty() && rng.chance(75) {
        let rule = &spec.rules[rng.below(spec.rules.len())];
        satisfy(rng, rule, spec, &mut state);
        if rng.chance(30) {
            empty_a_variable(rng, rule, &mut state);
        }
        if rng.chance(25) {
            let b = rng.below(spec.opening.len());
            let isa = state.buffers[b].isa as u8;
            state.buffers[b] = buffer(rng, spec, isa);
        }
    }
    state
}

/// A buffer with a chunk of this type, sometimes pending; nil sometimes with its error flag.
fn buffer(rng: &mut Rng, spec: &ModelSpec, isa: u8) -> Buffer {
    let mut buffer = Buffer { isa: u16::from(isa), ..Buffer::default() };
    for slot in 0..spec.slot_count(isa) {
        buffer.slots[slot] = value(rng, spec);
    }
    if rng.chance(35) {
        buffer.delay = rng.pick(&DELAYS);
    }
    buffer.error = isa == 0 && rng.chance(40);
    buffer
}

/// A value that the model's chunks hold, or a small or any one.
pub(crate) fn value(rng: &mut Rng, spec: &ModelSpec) -> u16 {
    let facts = spec.facts.len();
    match rng.below(10) {
        0..=4 if facts > 0 => {
            let slots = &spec.facts[rng.below(facts)].chunk.slots;
            slots.get(rng.below(slots.len())).copied().unwrap_or(0)
        }
        0..=8 => rng.below(4) as u16,
        _ => rng.below(4_096) as u16,
    }
}

/// A value that is not nil.
fn filled(rng: &mut Rng, spec: &ModelSpec) -> u16 {
    match value(rng, spec) {
        0 => rng.from_to(1, 3) as u16,
        value => value,
    }
}

/// Changes the tested and the queried buffers so that the rule matches, if its queries can hold beside its tests.
fn satisfy(rng: &mut Rng, rule: &RuleSpec, spec: &ModelSpec, state: &mut State) {
    let values: Vec<u16> = (0..8).map(|_| filled(rng, spec)).collect();
    for test in &rule.tests {
        let mut fitting = buffer(rng, spec, test.isa);
        fitting.delay = 0;
        for (slot, term) in test.pattern.named() {
            fitting.slots[slot] = match term {
                Term::Symbol(symbol) => symbol,
                Term::Variable(number) => values[usize::from(number)],
            };
        }
        state.buffers[usize::from(test.buffer)] = fitting;
    }
    for query in &rule.queries {
        let tested = rule.tests.iter().any(|test| test.buffer == query.buffer);
        answer(rng, query, tested, &mut state.buffers[usize::from(query.buffer)]);
    }
}

/// Changes a buffer so that a query of it holds; the chunk of a tested one stays.
fn answer(rng: &mut Rng, query: &QuerySpec, tested: bool, buffer: &mut Buffer) {
    match query.kind {
        0 if !tested => buffer.delay = rng.pick(&DELAYS),
        1 => buffer.delay = 0,
        2 if !tested => *buffer = Buffer { error: true, ..Buffer::default() },
        2 => buffer.error = buffer.isa == 0,
        _ => (),
    }
}

/// Empties a slot on which a variable of the rule stands, and mostly all slots of that variable.
fn empty_a_variable(rng: &mut Rng, rule: &RuleSpec, state: &mut State) {
    let places = variable_places(rule);
    let Some(&chosen) = places.get(rng.below(places.len())) else { return };
    let all = rng.chance(60);
    for place in places {
        if place == chosen || all && place.variable == chosen.variable {
            state.buffers[usize::from(place.buffer)].slots[place.slot] = 0;
        }
    }
}

/// A state that breaks one rule of a well-formed state, and which.
pub fn broken_state(rng: &mut Rng, spec: &ModelSpec) -> (BrokenBy, State) {
    let mut state = state(rng, spec);
    let used = spec.opening.len();
    let b = rng.below(used);
    let count = spec.slot_count(state.buffers[b].isa as u8);
    let held: Vec<usize> = (0..used).filter(|&b| state.buffers[b].isa != 0).collect();
    let way = match rng.below(5) {
        0 if count > 0 => BrokenBy::Value,
        1 if count < 8 => BrokenBy::Past,
        2 if used < 8 => BrokenBy::Unused,
        3 if !held.is_empty() => BrokenBy::Flag,
        _ => BrokenBy::Type,
    };
    let bad_value = rng.pick(&[4_096, 4_097, 8_192, 65_535]);
    match way {
        BrokenBy::Value => state.buffers[b].slots[rng.below(count)] = bad_value,
        BrokenBy::Past => state.buffers[b].slots[rng.from_to(count, 7)] = rng.pick(&[1, 4_095, 65_535]),
        BrokenBy::Unused => spoil_unused(rng, &mut state.buffers[used..]),
        BrokenBy::Flag => state.buffers[rng.pick(&held)].error = true,
        BrokenBy::Type => {
            let above = spec.types.len() as u16 + 1;
            state.buffers[b].isa = rng.pick(&[above, above + 1, above | 64, above | 256, 65_535]);
        }
    }
    (way, state)
}

/// Puts something into one of the buffers past the count.
fn spoil_unused(rng: &mut Rng, unused: &mut [Buffer]) {
    let buffer = &mut unused[rng.below(unused.len())];
    match rng.below(4) {
        0 => buffer.isa = rng.pick(&[1, 2, 65_535]),
        1 => buffer.slots[rng.below(8)] = rng.pick(&[1, 4_095, 65_535]),
        2 => buffer.delay = rng.pick(&DELAYS),
        _ => buffer.error = true,
    }
}

/// A clock, often 0 or at the edge.
pub fn clock(rng: &mut Rng) -> u32 {
    match rng.below(10) {
        0..=4 => 0,
        5..=7 => rng.pick(&CLOCKS),
        8 => u32::MAX - rng.below(70_000) as u32,
        _ => rng.word() as u32,
    }
}

/// A mark: allowed, just over, or far over.
pub fn mark(rng: &mut Rng, buffers: usize) -> u16 {
    let over = 1_u16 << buffers.min(15);
    match rng.below(10) {
        0..=6 => rng.below(usize::from(over)) as u16,
        7 => over - 1,
        8 => over | rng.below(usize::from(over)) as u16,
        _ => rng.pick(&[over, 256, 257, 0x8000, 65_535]),
    }
}

/// A number of steps, mostly few.
pub fn steps(rng: &mut Rng) -> u16 {
    match rng.below(20) {
        0 => 0,
        1..=7 => 1,
        8..=17 => rng.from_to(2, 30) as u16,
        18 => rng.from_to(31, 1_000) as u16,
        _ => rng.pick(&[256, 1_000, 65_535]),
    }
}

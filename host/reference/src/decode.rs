//! From the image's bytes to a model; every field is judged before the next is fetched.

use crate::bits::Reader;
use crate::memory::Memory;
use crate::model::Model;
use crate::parts::{Action, Ask, Chunk, Deed, Fact, PackedTerm, Parts, Pattern, Query, RuleHead, Test, Types};
use crate::plan::Plan;
use crate::refusal::{Refusal, BROKEN, BUFFER, MASK, TOO_LONG, VARIABLE};
use crate::{BUFFERS, IMAGE_LIMIT};

/// The version whose rules have queries; the one before has none.
const WITH_QUERIES: u8 = 2;

impl Model {
    /// Decodes an image, or says why it is refused.
    pub fn decode(image: &[u8]) -> Result<Model, Refusal> {
        let parts = decode_parts(image)?;
        let plan = Plan::new(&parts);
        let memory = Memory::new(&parts);
        Ok(Model { parts, plan, memory })
    }
}

/// What a rule's terms and actions must know of the rule.
struct Scope {
    variables: u8,
    /// Variables that stood in a term, bit v for variable v.
    bound: u16,
    /// Type of each tested buffer.
    tested: [Option<u8>; BUFFERS],
}

/// The fields alone, without the tables that speed up a run.
pub(crate) fn decode_parts(image: &[u8]) -> Result<Parts, Refusal> {
    if image.len() > IMAGE_LIMIT {
        return Err(Refusal { number: TOO_LONG, at: 0 });
    }
    let mut reader = Reader::new(image);
    let mut parts = Parts::default();
    match read_all(&mut reader, &mut parts) {
        Some(()) => Ok(parts),
        None => Err(reader.refusal()),
    }
}

/// The image from its first bit to its last. Lists are filled in place, which spares copies.
fn read_all(reader: &mut Reader, parts: &mut Parts) -> Option<()> {
    let (rules, facts) = header(reader, parts)?;
    for isa in 1..=usize::from(parts.types.count) {
        parts.types.slots[isa] = reader.judged(4, BROKEN, |count| count <= 8)? as u8;
    }
    for chunk in parts.opening.iter_mut().take(usize::from(parts.buffers)) {
        read_chunk(reader, &parts.types, 0, chunk)?;
    }
    // The counts are judged, so these reservations are small.
    parts.facts = vec![Fact::default(); facts];
    for fact in &mut parts.facts {
        read_chunk(reader, &parts.types, 1, &mut fact.chunk)?;
        fact.activation = reader.take(16)?;
        fact.latency = reader.take(16)?;
    }
    parts.rules.reserve_exact(rules);
    parts.tests.reserve(2 * rules);
    parts.actions.reserve(2 * rules);
    for _ in 0..rules {
        read_rule(reader, parts)?;
    }
    reader.finish()
}

/// Version, counts and failure latency; gives the number of rules and of facts.
fn header(reader: &mut Reader, parts: &mut Parts) -> Option<(usize, usize)> {
    parts.version = reader.judged(8, BROKEN, |version| (1..=WITH_QUERIES.into()).contains(&version))? as u8;
    parts.buffers = reader.judged(4, BROKEN, |count| (1..=8).contains(&count))? as u8;
    parts.types.count = reader.take(6)? as u8;
    let rules = reader.judged(9, BROKEN, |count| count <= 256)?;
    let facts = reader.judged(10, BROKEN, |count| count <= 512)?;
    parts.failure = reader.take(16)?;
    Some((usize::from(rules), usize::from(facts)))
}

/// A type field, `lowest` to T.
#[inline]
fn read_type(reader: &mut Reader, types: &Types, lowest: u16) -> Option<u8> {
    let highest = u16::from(types.count);
    Some(reader.judged(6, BROKEN, |isa| (lowest..=highest).contains(&isa))? as u8)
}

/// A type from `lowest` to T and its slots.
#[inline]
fn read_chunk(reader: &mut Reader, types: &Types, lowest: u16, chunk: &mut Chunk) -> Option<()> {
    chunk.isa = read_type(reader, types, lowest)?;
    for slot in chunk.slots.iter_mut().take(types.slots(chunk.isa)) {
        *slot = reader.take(12)?;
    }
    Some(())
}

/// A rule with its tests, queries and actions.
fn read_rule(reader: &mut Reader, parts: &mut Parts) -> Option<()> {
    let buffers = u16::from(parts.buffers);
    let utility = reader.take(16)? as i16;
    // Without queries a rule has a test; with them that is judged where they are counted.
    let least = u16::from(parts.version != WITH_QUERIES);
    let tests = reader.judged(4, BROKEN, |count| (least..=buffers).contains(&count))?;
    let actions = reader.judged(4, BROKEN, |count| count <= buffers)?;
    let variables = reader.judged(4, BROKEN, |count| count <= 8)? as u8;
    let mut scope = Scope { variables, bound: 0, tested: [None; BUFFERS] };
    let (first_test, first_query, first_action) = (parts.tests.len(), parts.queries.len(), parts.actions.len());
    read_tests(reader, tests, &mut scope, parts)?;
    if parts.version == WITH_QUERIES {
        read_queries(reader, buffers, u16::from(tests == 0), &mut parts.queries)?;
    }
    let mut open_buffers = 0..buffers;
    for _ in 0..actions {
        parts.actions.push(Action::EMPTY);
        let action = parts.actions.last_mut()?;
        read_action(reader, &parts.types, &mut scope, &mut open_buffers, action)?;
    }
    parts.rules.push(RuleHead {
        utility,
        variables,
        tests: (first_test as u16, parts.tests.len() as u16),
        queries: (first_query as u16, parts.queries.len() as u16),
        actions: (first_action as u16, parts.actions.len() as u16),
    });
    Some(())
}

/// So many tests of a rule, in which each of its variables must stand.
fn read_tests(reader: &mut Reader, count: u16, scope: &mut Scope, parts: &mut Parts) -> Option<()> {
    let mut open_buffers = 0..u16::from(parts.buffers);
    for _ in 0..count {
        parts.tests.push(Test::EMPTY);
        let test = parts.tests.last_mut()?;
        read_test(reader, &parts.types, scope, &mut open_buffers, test)?;
    }
    // A variable that stood in no test has no value; this comes before any field of a query or an action.
    if scope.bound != (1 << scope.variables) - 1 {
        return reader.refuse(VARIABLE, reader.at());
    }
    Some(())
}

/// A buffer that is still open: below the count and above the one before it.
#[inline]
fn read_buffer(reader: &mut Reader, open: &mut std::ops::Range<u16>) -> Option<u8> {
    let buffer = reader.judged(3, BUFFER, |buffer| open.contains(&buffer))?;
    open.start = buffer + 1;
    Some(buffer as u8)
}

/// One test; the scope learns its type and the variables that stood in it.
fn read_test(
    reader: &mut Reader,
    types: &Types,
    scope: &mut Scope,
    open: &mut std::ops::Range<u16>,
    test: &mut Test,
) -> Option<()> {
    test.buffer = read_buffer(reader, open)?;
    test.isa = read_type(reader, types, 0)?;
    scope.tested[usize::from(test.buffer)] = Some(test.isa);
    read_pattern(reader, types, scope, test.isa, &mut test.pattern)
}

/// The queries of a rule, at least so many: their number, then of each its buffer and its kind.
fn read_queries(reader: &mut Reader, buffers: u16, least: u16, queries: &mut Vec<Query>) -> Option<()> {
    let count = reader.judged(4, BROKEN, |count| (least..=buffers).contains(&count))?;
    let mut open_buffers = 0..buffers;
    for _ in 0..count {
        let buffer = read_buffer(reader, &mut open_buffers)?;
        let asks = match reader.judged(2, BROKEN, |kind| kind < 3)? {
            0 => Ask::Busy,
            1 => Ask::Free,
            _ => Ask::Error,
        };
        queries.push(Query { buffer, asks });
    }
    Some(())
}

/// One action.
fn read_action(
    reader: &mut Reader,
    types: &Types,
    scope: &mut Scope,
    open: &mut std::ops::Range<u16>,
    action: &mut Action,
) -> Option<()> {
    action.buffer = read_buffer(reader, open)?;
    let tested = scope.tested[usize::from(action.buffer)];
    let at = reader.at();
    let kind = reader.judged(2, BROKEN, |kind| kind < 3)?;
    let isa = match (kind, tested) {
        (0, Some(isa)) => {
            action.deed = Deed::Modify;
            isa
        }
        // What is wrong is the buffer, and it is the kind field that breaks its rule.
        (0, None) => return reader.refuse(BUFFER, at),
        (1, _) => {
            let isa = read_type(reader, types, 1)?;
            action.deed = Deed::Request(isa);
            isa
        }
        (2, _) => return Some(()),
        _ => unreachable!("kind {kind} was refused"),
    };
    read_pattern(reader, types, scope, isa, &mut action.pattern)
}

/// A mask within the type's slots and a term for each of its ones.
fn read_pattern(reader: &mut Reader, types: &Types, scope: &mut Scope, isa: u8, pattern: &mut Pattern) -> Option<()> {
    let past = 0xff_u16 >> types.slots(isa);
    let mask = reader.judged(8, MASK, |mask| mask & past == 0)? as u8;
    pattern.slots = mask.reverse_bits();
    let mut left = pattern.slots;
    while left != 0 {
        pattern.terms[left.trailing_zeros() as usize & 7] = read_term(reader, scope)?;
        left &= left - 1;
    }
    Some(())
}

/// A kind bit and twelve bits, one field; a variable must be below the rule's count.
#[inline]
fn read_term(reader: &mut Reader, scope: &mut Scope) -> Option<PackedTerm> {
    let limit = PackedTerm::VARIABLE | u16::from(scope.variables);
    let term = PackedTerm(reader.judged(13, VARIABLE, |field| field < limit)?);
    scope.bound |= term.variable().map_or(0, |number| 1 << number);
    Some(term)
}

//! From a model to the bytes of its image.

use crate::spec::{ActionSpec, ChunkSpec, Deed, Header, ModelSpec, PatternSpec, QuerySpec, RuleSpec, Term};
use crate::writer::{Field, Role, Writer};

/// The version whose rules have queries.
const WITH_QUERIES: u16 = 2;

/// An image and where its fields lie.
#[derive(Clone, Debug)]
pub struct Packed {
    /// The image.
    pub bytes: Vec<u8>,
    /// Its fields in reading order.
    pub fields: Vec<Field>,
}

impl Packed {
    /// The field that begins at a bit.
    pub fn field_at(&self, bit: usize) -> Option<&Field> {
        self.fields.iter().find(|field| field.at == bit)
    }

    /// A field of a role, by which of them it is, from 0.
    pub fn nth(&self, role: Role, which: usize) -> Option<&Field> {
        self.fields.iter().filter(|field| field.role == role).nth(which)
    }

    /// The image with one of its fields set to another value.
    pub fn with(&self, field: &Field, value: u16) -> Vec<u8> {
        let mut image = self.bytes.clone();
        field.set(&mut image, value);
        image
    }

    /// The first field that is not wholly there if the image is cut to so many bytes.
    pub fn first_missing(&self, bytes: usize) -> Option<&Field> {
        self.fields.iter().find(|field| field.at + field.width > 8 * bytes)
    }
}

/// The image of a model.
pub fn pack(spec: &ModelSpec) -> Vec<u8> {
    pack_with_fields(spec).bytes
}

/// The image of a model with the place of each field.
pub fn pack_with_fields(spec: &ModelSpec) -> Packed {
    pack_under(&spec.header(), spec)
}

/// The image of a model under a header that need not be true.
pub fn pack_under(header: &Header, spec: &ModelSpec) -> Packed {
    let mut writer = Writer::default();
    writer.put(Role::Version, 8, header.version);
    writer.put(Role::Buffers, 4, header.buffers);
    writer.put(Role::Types, 6, header.types);
    writer.put(Role::Rules, 9, header.rules);
    writer.put(Role::Facts, 10, header.facts);
    writer.put(Role::Failure, 16, header.failure);
    for &count in &spec.types {
        writer.put(Role::SlotCount, 4, u16::from(count));
    }
    for chunk in &spec.opening {
        put_chunk(&mut writer, Role::OpeningType, Role::OpeningSlot, chunk);
    }
    for fact in &spec.facts {
        put_chunk(&mut writer, Role::FactType, Role::FactSlot, &fact.chunk);
        writer.put(Role::Activation, 16, fact.activation);
        writer.put(Role::Latency, 16, fact.latency);
    }
    for rule in &spec.rules {
        put_rule(&mut writer, header.version == WITH_QUERIES, rule);
    }
    Packed { bytes: writer.bytes, fields: writer.fields }
}

/// Type and slots.
fn put_chunk(writer: &mut Writer, isa: Role, slot: Role, chunk: &ChunkSpec) {
    writer.put(isa, 6, u16::from(chunk.isa));
    for &value in &chunk.slots {
        writer.put(slot, 12, value);
    }
}

/// A rule with its tests, its queries where the version has them, and its actions.
fn put_rule(writer: &mut Writer, with_queries: bool, rule: &RuleSpec) {
    writer.put(Role::Utility, 16, rule.utility);
    writer.put(Role::Tests, 4, rule.tests.len() as u16);
    writer.put(Role::Actions, 4, rule.actions.len() as u16);
    writer.put(Role::Variables, 4, u16::from(rule.variables));
    for test in &rule.tests {
        writer.put(Role::TestBuffer, 3, u16::from(test.buffer));
        writer.put(Role::TestType, 6, u16::from(test.isa));
        put_pattern(writer, Role::TestMask, Role::TestTerm, &test.pattern);
    }
    if with_queries {
        put_queries(writer, &rule.queries);
    }
    for action in &rule.actions {
        put_action(writer, action);
    }
}

/// The number of queries, and each of them.
fn put_queries(writer: &mut Writer, queries: &[QuerySpec]) {
    writer.put(Role::Queries, 4, queries.len() as u16);
    for query in queries {
        writer.put(Role::QueryBuffer, 3, u16::from(query.buffer));
        writer.put(Role::QueryKind, 2, u16::from(query.kind));
    }
}

/// An action: buffer, kind and what the kind brings.
fn put_action(writer: &mut Writer, action: &ActionSpec) {
    writer.put(Role::ActionBuffer, 3, u16::from(action.buffer));
    let kind = match action.deed {
        Deed::Modify(_) => 0,
        Deed::Request(..) => 1,
        Deed::Clear => 2,
        Deed::Forbidden => 3,
    };
    writer.put(Role::ActionKind, 2, kind);
    match &action.deed {
        Deed::Modify(pattern) => put_pattern(writer, Role::ActionMask, Role::ActionTerm, pattern),
        Deed::Request(isa, pattern) => {
            writer.put(Role::RequestType, 6, u16::from(*isa));
            put_pattern(writer, Role::ActionMask, Role::ActionTerm, pattern);
        }
        Deed::Clear | Deed::Forbidden => (),
    }
}

/// Mask and terms.
fn put_pattern(writer: &mut Writer, mask: Role, term: Role, pattern: &PatternSpec) {
    writer.put(mask, 8, u16::from(pattern.mask));
    for &one in &pattern.terms {
        let field = match one {
            Term::Symbol(symbol) => symbol & 0xfff,
            Term::Variable(number) => 0x1000 | number & 0xfff,
        };
        writer.put(term, 13, field);
    }
}

//! Fields written most significant bit first.

/// What a field is; tells a reader of a failing test which one it was.
#[derive(Clone, Copy, PartialEq, Eq, Debug)]
#[allow(missing_docs)] // The names are document 01's.
pub enum Role {
    Version,
    Buffers,
    Types,
    Rules,
    Facts,
    Failure,
    SlotCount,
    OpeningType,
    OpeningSlot,
    FactType,
    FactSlot,
    Activation,
    Latency,
    Utility,
    Tests,
    Actions,
    Variables,
    TestBuffer,
    TestType,
    TestMask,
    TestTerm,
    Queries,
    QueryBuffer,
    QueryKind,
    ActionBuffer,
    ActionKind,
    RequestType,
    ActionMask,
    ActionTerm,
}

impl Role {
    /// Whether all other fields stay where they are if such a field gets another value: it says neither how much follows, nor what.
    pub fn keeps_places(self) -> bool {
        let of_header = matches!(self, Role::Version | Role::Buffers | Role::Types | Role::Rules | Role::Facts);
        let of_chunk = matches!(self, Role::SlotCount | Role::OpeningType | Role::FactType);
        let counts = matches!(self, Role::Tests | Role::Queries | Role::Actions);
        let of_rule = matches!(self, Role::TestMask | Role::ActionKind | Role::ActionMask);
        !(of_header || of_chunk || counts || of_rule)
    }

    /// Whether it is a term of a test or of an action.
    pub fn is_term(self) -> bool {
        matches!(self, Role::TestTerm | Role::ActionTerm)
    }
}

/// A field that was written.
#[derive(Clone, Copy, PartialEq, Eq, Debug)]
pub struct Field {
    /// What it is.
    pub role: Role,
    /// Its first bit.
    pub at: usize,
    /// Its width in bits.
    pub width: usize,
}

/// Bits written so far and where each field lies.
#[derive(Clone, Default, Debug)]
pub struct Writer {
    /// The bytes, the last one padded with zeros.
    pub bytes: Vec<u8>,
    /// The fields in order.
    pub fields: Vec<Field>,
    used: usize,
}

impl Writer {
    /// Appends a field; bits above the width are dropped.
    pub fn put(&mut self, role: Role, width: usize, value: u16) {
        self.fields.push(Field { role, at: self.used, width });
        for bit in (0..width).rev() {
            if self.used.is_multiple_of(8) {
                self.bytes.push(0);
            }
            self.bytes[self.used / 8] |= ((value >> bit & 1) as u8) << (7 - self.used % 8);
            self.used += 1;
        }
    }
}

impl Field {
    /// The field's value in an image that holds it wholly.
    pub fn get(&self, image: &[u8]) -> u16 {
        (self.at..self.at + self.width)
            .fold(0, |value, bit| value << 1 | u16::from(image[bit / 8] >> (7 - bit % 8) & 1))
    }

    /// Sets the field in an image that holds it wholly.
    pub fn set(&self, image: &mut [u8], value: u16) {
        for i in 0..self.width {
            let bit = self.at + i;
            let one = 0x80 >> (bit % 8);
            if value >> (self.width - 1 - i) & 1 == 1 {
                image[bit / 8] |= one;
            } else {
                image[bit / 8] &= !one;
            }
        }
    }
}

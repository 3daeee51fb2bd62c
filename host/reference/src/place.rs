//! Where a slot lies among all slots of a state.

/// A slot of a buffer as one byte: 8 times the buffer, plus the slot.
pub(crate) type Place = u8;

/// The place of a slot in a buffer.
#[inline]
pub(crate) fn place(buffer: u8, slot: usize) -> Place {
    buffer << 3 | slot as u8
}

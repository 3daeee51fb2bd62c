//! The state that is handed in and back by value.

use crate::{BUFFERS, SLOTS};

/// One buffer: a chunk, the ms until it is visible (0: visible now), and whether the last action on it was a request
/// that found no fact.
#[derive(Clone, Copy, PartialEq, Eq, Debug, Default)]
pub struct Buffer {
    /// Type of the chunk, 0 for nil.
    pub isa: u16,
    /// Slot values, 0 past the type's slots.
    pub slots: [u16; SLOTS],
    /// Milliseconds until the chunk is visible.
    pub delay: u16,
    /// The error flag (request 2026-06): set when a request finds no fact, cleared by any other action on the buffer.
    pub error: bool,
}

/// Eight buffers and the clock in ms.
#[derive(Clone, Copy, PartialEq, Eq, Debug, Default)]
pub struct State {
    /// The buffers; those past the image's count hold nil.
    pub buffers: [Buffer; BUFFERS],
    /// The clock in ms.
    pub clock: u32,
}

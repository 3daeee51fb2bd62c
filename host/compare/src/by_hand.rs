//! Images and states that several tests are made of.

use jirvuntsag_packing::{pack, ActionSpec, ChunkSpec, ModelSpec, RuleSpec, TestSpec};
use jirvuntsag_reference::{Buffer, State};

/// Image P1 of document 01: one buffer and nothing else.
pub const P1: [u8; 8] = [1, 0x10, 0, 0, 0, 0, 0, 0];

/// Two buffers, and a rule that clears the first whenever it is empty, so that it always fires.
pub fn always_fires() -> Vec<u8> {
    let tests = vec![TestSpec::new(0, 0, &[])];
    let rule = RuleSpec { tests, actions: vec![ActionSpec::clear(0)], ..RuleSpec::default() };
    pack(&ModelSpec { opening: vec![ChunkSpec::nil(); 2], rules: vec![rule], ..ModelSpec::default() })
}

/// A chunk of two slots, visible after so many ms.
pub fn buffer(isa: u16, first: u16, second: u16, delay: u16) -> Buffer {
    Buffer { isa, slots: [first, second, 0, 0, 0, 0, 0, 0], delay, error: false }
}

/// What a request leaves that no fact fits: nil with the error flag set, visible after so many ms.
pub fn failed(delay: u16) -> Buffer {
    Buffer { delay, error: true, ..Buffer::default() }
}

/// A state with these buffers first.
pub fn state(clock: u32, buffers: &[Buffer]) -> State {
    let mut state = State { clock, ..State::default() };
    state.buffers[..buffers.len()].copy_from_slice(buffers);
    state
}

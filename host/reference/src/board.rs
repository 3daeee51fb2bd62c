//! The state as a run works on it: slots and delays side by side, and what each buffer shows.

use crate::parts::Chunk;
use crate::place::Place;
use crate::plan::Plan;
use crate::standing::Standing;
use crate::state::{Buffer, State};
use crate::{BUFFERS, SLOTS};

/// A state of which slots are one list and delays one vector.
pub(crate) struct Board {
    slots: [u16; BUFFERS * SLOTS],
    isas: [u16; BUFFERS],
    delays: [u16; BUFFERS],
    errors: [bool; BUFFERS],
    pub clock: u32,
    /// For each buffer its index in the plan's `fits`.
    pub shown: [u16; BUFFERS],
}

impl Board {
    /// Lays out a state.
    pub fn new(plan: &Plan, state: &State) -> Board {
        let mut board = Board {
            slots: [0; BUFFERS * SLOTS],
            isas: state.buffers.map(|buffer| buffer.isa),
            delays: state.buffers.map(|buffer| buffer.delay),
            errors: state.buffers.map(|buffer| buffer.error),
            clock: state.clock,
            shown: [0; BUFFERS],
        };
        let (rows, _) = board.slots.as_chunks_mut::<SLOTS>();
        for (row, buffer) in rows.iter_mut().zip(&state.buffers) {
            *row = buffer.slots;
        }
        for buffer in 0..BUFFERS {
            board.show(plan, buffer);
        }
        board
    }

    /// The state by value.
    pub fn state(&self) -> State {
        let (rows, _) = self.slots.as_chunks::<SLOTS>();
        let buffer =
            |b: usize| Buffer { isa: self.isas[b], slots: rows[b], delay: self.delays[b], error: self.errors[b] };
        State { buffers: std::array::from_fn(buffer), clock: self.clock }
    }

    /// The value at a place; the mask keeps the index in range without a check.
    #[inline]
    pub fn at(&self, place: Place) -> u16 {
        self.slots[usize::from(place) & (BUFFERS * SLOTS - 1)]
    }

    /// Notes what a buffer shows: its type, or nothing for a pending chunk or a type above T.
    #[inline]
    pub fn show(&mut self, plan: &Plan, buffer: usize) {
        let b = buffer & (BUFFERS - 1);
        let nothing = plan.shows - 1;
        let shows = if self.delays[b] == 0 { usize::from(self.isas[b]).min(nothing) } else { nothing };
        self.shown[b] = (b * plan.shows + shows) as u16;
    }

    /// The chunk that is visible in a buffer, if it is not nil.
    #[inline]
    pub fn seen(&self, buffer: u8) -> Option<Chunk> {
        let b = usize::from(buffer) & (BUFFERS - 1);
        let (rows, _) = self.slots.as_chunks::<SLOTS>();
        (self.delays[b] == 0 && self.isas[b] != 0).then(|| Chunk { isa: self.isas[b] as u8, slots: rows[b] })
    }

    /// How a buffer stands to queries.
    #[inline]
    pub fn standing(&self, buffer: usize) -> Standing {
        let b = buffer & (BUFFERS - 1);
        Standing::of(self.delays[b], self.errors[b])
    }

    /// Clears the error flag of a buffer that keeps its chunk.
    #[inline]
    pub fn clear_error(&mut self, buffer: u8) {
        self.errors[usize::from(buffer) & (BUFFERS - 1)] = false;
    }

    /// Sets one slot of a buffer that stays visible.
    #[inline]
    pub fn set(&mut self, place: Place, value: u16) {
        self.slots[usize::from(place) & (BUFFERS * SLOTS - 1)] = value;
    }

    /// Puts a chunk into a buffer.
    #[inline]
    pub fn put(&mut self, buffer: u8, chunk: Buffer) {
        let b = usize::from(buffer) & (BUFFERS - 1);
        let (rows, _) = self.slots.as_chunks_mut::<SLOTS>();
        rows[b] = chunk.slots;
        self.isas[b] = chunk.isa;
        self.delays[b] = chunk.delay;
        self.errors[b] = chunk.error;
    }

    /// Takes `ms` from every delay, not below 0; gives the buffers that became visible.
    #[inline]
    pub fn pass(&mut self, ms: u16) -> u8 {
        let mut arrived = 0;
        for (b, delay) in self.delays.iter_mut().enumerate() {
            arrived |= u8::from(delay.wrapping_sub(1) < ms) << b;
            *delay = delay.saturating_sub(ms);
        }
        arrived
    }

    /// The smallest delay above 0.
    #[inline]
    pub fn least_delay(&self) -> Option<u16> {
        // 0 becomes the largest, so that it is never the least.
        let least = self.delays.iter().fold(u16::MAX, |least, delay| least.min(delay.wrapping_sub(1)));
        least.checked_add(1)
    }
}

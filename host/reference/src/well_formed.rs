//! Which states an image takes.

use crate::parts::Parts;
use crate::state::{Buffer, State};

impl Parts {
    /// Whether a state is well formed for this image.
    pub fn is_well_formed(&self, state: &State) -> bool {
        let (used, unused) = state.buffers.split_at(usize::from(self.buffers));
        used.iter().all(|buffer| self.fits(buffer)) && unused.iter().all(|buffer| *buffer == Buffer::default())
    }

    /// Whether a buffer holds a chunk of a type from 0 to T, no value where that has no slot, and no error flag beside a chunk.
    fn fits(&self, buffer: &Buffer) -> bool {
        let Some(&count) = self.types.slots.get(usize::from(buffer.isa)) else { return false };
        let (own, past) = buffer.slots.split_at(usize::from(count));
        buffer.isa <= u16::from(self.types.count)
            && own.iter().all(|&value| value <= 4_095)
            && past.iter().all(|&value| value == 0)
            && (buffer.isa == 0 || !buffer.error)
    }
}

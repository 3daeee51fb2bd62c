//! A state as the words of the C interface.

use jirvuntsag_reference::State;

use crate::rng::Rng;

/// Words of a state: the clock, then of each buffer its type, eight slots, delay and error flag.
pub const STATE_WORDS: usize = 1 + 8 * BUFFER_WORDS;
/// Words of a buffer, the flag last.
const BUFFER_WORDS: usize = 11;

/// The words of a state.
pub fn state_words(state: &State) -> Vec<u32> {
    let mut words = vec![state.clock];
    for buffer in &state.buffers {
        words.push(u32::from(buffer.isa));
        words.extend(buffer.slots.map(u32::from));
        words.extend([u32::from(buffer.delay), u32::from(buffer.error)]);
    }
    words
}

/// Whether the word at an index is an error flag, which is one bit; any other of a buffer is sixteen.
pub fn is_flag(index: usize) -> bool {
    index > 0 && index.is_multiple_of(BUFFER_WORDS)
}

/// Makes a word of a buffer too large for its field, and gives its index.
pub fn overfill(rng: &mut Rng, words: &mut [u32]) -> usize {
    let index = rng.from_to(1, words.len() - 1);
    words[index] |= 1 << rng.from_to(if is_flag(index) { 1 } else { 16 }, 31);
    index
}

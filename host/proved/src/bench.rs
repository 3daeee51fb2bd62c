//! What the benchmark times beside the calls: a field and an opening, by a fetch that takes three bytes, as the library has it,
//! and by one that takes a bit at a time. Both fetches are proved to one contract. The second opening is the first with each call of
//! the one fetch replaced by the other (`tools/bench-archive`): tested to answer the same, and not proved.

use crate::linked;
use crate::number::Number;
use crate::state::State;
use crate::words::{number_and_count, state_of, STATE};

/// The field of 1 to 16 bits at a bit of an image, by three bytes; 65,536 where it is not wholly there, or where width, bit or image are
/// larger than a fetch is asked for.
pub fn field(image: &[u8], at: usize, width: usize) -> u32 {
    linked::bench_field(image, at, width)
}

/// The same, by one bit at a time.
pub fn field_singly(image: &[u8], at: usize, width: usize) -> u32 {
    linked::bench_field_singly(image, at, width)
}

/// Opens an image as [`crate::calls::open`] does, with fields by three bytes.
pub fn open(image: &[u8], table: &mut [u16]) -> (Number, State) {
    let mut words = [0; STATE];
    let (number, _) = number_and_count(linked::bench_open(image, table, &mut words));
    (number, state_of(&words))
}

/// The same, with fields by one bit at a time.
pub fn open_singly(image: &[u8], table: &mut [u16]) -> (Number, State) {
    let mut words = [0; STATE];
    let (number, _) = number_and_count(linked::bench_open_singly(image, table, &mut words));
    (number, state_of(&words))
}

//! An independent engine for document 01 with change requests 2026-01 to 2026-06; 2026-04 changes no answer.
//!
//! An image is decoded once into ordinary structs ([`Model`]); a run keeps the
//! matches from step to step and matches again only the rules that test or query a
//! marked buffer. A fresh run ([`run_fresh`]) keeps nothing, and is written by itself.
//! Both runs can be lent a store, where cleared chunks are learned ([`run_lent`], [`run_fresh_lent`]).
//! Every call is total: any bytes, state, table, mark, step count and store. A call on an
//! image answers its number and the position that goes with it: the first bit of the
//! field for which the image is refused, 0 with every number that is about no field.

mod bits;
mod board;
mod calls;
mod decode;
mod fresh;
mod learning;
mod matching;
mod memory;
mod model;
mod parts;
mod place;
mod plan;
mod print;
mod refusal;
mod set;
mod standing;
mod state;
mod step;
mod store;
mod well_formed;

pub use calls::{open, refresh, run, run_lent, table_len, trace, trace_lent, Event, Kind};
pub use fresh::{run_fresh, run_fresh_lent, trace_fresh, trace_fresh_lent};
pub use model::Model;
pub use parts::{Action, Ask, Chunk, Deed, Fact, Pattern, Query, Rule, Term, Test};
pub use print::{print, PRINTED_STEPS};
pub use refusal::Refusal;
pub use state::{Buffer, State};

/// Most buffers of an image, and the buffers of every state.
pub const BUFFERS: usize = 8;
/// Most slots of a type, and the slot values of every buffer.
pub const SLOTS: usize = 8;
/// Words of one table entry: the match word and eight variables.
pub const WORDS: usize = 9;
/// Largest image in bytes.
pub const IMAGE_LIMIT: usize = 65_536;
/// Milliseconds of one firing.
pub const FIRING: u16 = 50;
/// Places of a store, for so many learned facts.
pub const PLACES: usize = 256;
/// Words of a store: the count, then type and slots of each place.
pub const STORE_WORDS: usize = 1 + PLACES * (1 + SLOTS);

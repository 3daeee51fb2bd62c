//! A deterministic generator for differential tests of document 01.
//!
//! The same seed always gives the same models, states, tables, marks, stores and images;
//! there is no other source of randomness.

mod case;
mod image;
mod model;
mod places;
mod queries;
mod rng;
mod seeds;
mod shape;
mod state;
mod store;
mod table;
mod words;

pub use case::{case, Case};
pub use image::{damage, Damage};
pub use model::{model, model_of};
pub use rng::Rng;
pub use seeds::{each_seed, SEED_VARIABLE, TIMES_VARIABLE};
pub use shape::Shape;
pub use state::{broken_state, clock, mark, state, steps, BrokenBy};
pub use store::{store, StoreKind};
pub use table::{guessed_table, table, TableKind};
pub use words::{is_flag, overfill, state_words, STATE_WORDS};

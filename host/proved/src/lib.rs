//! The proved library for Rust: runs ACT-R models from a packed image.
//!
//! [`Model::open`] takes an image and gives the model, its opening [`State`] and its kept [`Table`]; [`Model::run`] makes
//! steps, and so does [`Model::run_fresh`], which keeps nothing. A call that is refused says why by a [`Refusal`], and where
//! in the image if that is refused for one of its fields, and has changed nothing; a run that was made says by an [`End`] why
//! it made no more steps. No call panics, keeps anything between calls, or asks for memory but for what it gives back; each
//! needs less than 131,072 bytes of stack.
//! [`calls`] has the nine calls of the library as they are, on bytes and words that the caller owns.
//!
//! ```
//! use jirvuntsag_proved::{End, Model, Refusal, Step};
//!
//! # let path = concat!(env!("CARGO_MANIFEST_DIR"), "/../../examples/counting.image");
//! # let image = std::fs::read(path)?;
//! let (model, state, mut table) = Model::open(&image)?;
//! let first = model.run(state, &mut table, 1)?;
//! assert_eq!((first.end, first.made, first.state.clock), (End::Done, 1, 50));
//!
//! let (ran, events) = model.trace(first.state, &mut table, 1_000)?;
//! assert_eq!((ran.end, ran.made), (End::Halted, 6));
//! assert_eq!((events[0].clock, events[0].step), (150, Step::Wait { ms: 100 }));
//! assert_eq!(ran.end.to_string(), "halted before the steps asked were made");
//!
//! let refusal = Model::open(&image[..70]).expect_err("an image that was cut");
//! assert_eq!((refusal, refusal.number(), refusal.position()), (Refusal::Missing { at: 558 }, 2, 558));
//! assert_eq!(refusal.to_string(), "a field of the image is not wholly there, at bit 558");
//! # Ok::<(), Box<dyn std::error::Error>>(())
//! ```
//!
//! # Matches that are kept, and matches that are made afresh
//!
//! [`Model::run`] and [`Model::trace`] keep the matches of all rules in the table from step to step and from call to call,
//! and match again only the rules that test or query a buffer that a step changed. They are for who runs a model of many rules in
//! short calls and has to be quick, as the author of a tutor has, who answers a pupil between two keystrokes.
//!
//! [`Model::run_fresh`] and [`Model::trace_fresh`] take no table and match every rule at each step. They are for who wants
//! nothing kept that could outlive its chunk, as a memory laboratory does, and for who changes states by hand: there is no
//! table to refresh, and no refusal or end that speaks of one ([`Refusal::TableLength`], [`End::Stale`]).
//!
//! Nobody can tell them apart, and that is proved: for every image and every state the end, the state, the steps made and
//! each step told are those of the kept run that is handed the fresh table of that state.
//!
//! ```
//! use jirvuntsag_proved::{End, Model};
//!
//! # let path = concat!(env!("CARGO_MANIFEST_DIR"), "/../../examples/counting.image");
//! # let image = std::fs::read(path)?;
//! let (model, state, mut table) = Model::open(&image)?;
//! let afresh = model.run_fresh(state, 1_000)?;
//! assert_eq!((afresh.end, afresh.made, afresh.state.clock), (End::Halted, 7, 550));
//! assert_eq!(afresh, model.run(state, &mut table, 1_000)?);
//! # Ok::<(), Box<dyn std::error::Error>>(())
//! ```

//!
//! # What is cleared is remembered, where a store is lent
//!
//! [`Model::run_lent`] and [`Model::run_fresh_lent`] may be lent a [`Store`]: a chunk that a rule clears from a visible buffer
//! joins it, unless the image or the store has it already, and requests find it from the next step on, after the facts of the
//! image. A store is a value: it can be kept, copied, compared and lent to the next run, of either engine. It prints by numbers;
//! `Names::store` of `jirvuntsag-text` prints it by the names of a model.
//!
//! ```
//! use jirvuntsag_proved::{End, Model, Store};
//!
//! # let path = concat!(env!("CARGO_MANIFEST_DIR"), "/../../examples/pupil.image");
//! # let image = std::fs::read(path)?;
//! let (model, state, mut table) = Model::open(&image)?;
//! let mut store = Store::new();
//! let ran = model.run_lent(state, &mut table, 1_000, Some(&mut store))?;
//! assert_eq!((ran.end, ran.made, store.len()), (End::Halted, 15, 1));
//!
//! // what it has learned it need not work out again
//! let again = model.run_fresh_lent(state, 1_000, Some(&mut store))?;
//! assert_eq!((again.end, again.made, store.len()), (End::Halted, 3, 1));
//! # Ok::<(), Box<dyn std::error::Error>>(())
//! ```

//!
//! # What a request leaves that finds no fact
//!
//! Nil, late, and the buffer's error flag, [`Buffer::error`]. Any other action on the buffer clears it. Rules of an image of version
//! 2 can ask a buffer whether it is busy, free, or in error, which it is once the flag can be seen ([`Buffer::has_failed`]).
//!
//! ```
//! use jirvuntsag_proved::Model;
//!
//! # let path = concat!(env!("CARGO_MANIFEST_DIR"), "/../../examples/counting.image");
//! # let image = std::fs::read(path)?;
//! let (model, state, _) = Model::open(&image)?;
//! // the fifth step asks for what follows 3, and no fact says that
//! let asked = model.run_fresh(state, 5)?.state;
//! assert_eq!((asked.buffers[1].delay, asked.buffers[1].error, asked.buffers[1].has_failed()), (200, true, false));
//! let seen = model.run_fresh(asked, 2)?.state;
//! assert!(seen.buffers[1].has_failed());
//! # Ok::<(), Box<dyn std::error::Error>>(())
//! ```

#[cfg(feature = "bench")]
pub mod bench;
pub mod calls;
#[cfg(test)]
mod lent;
mod linked;
mod model;
mod number;
mod state;
mod store;
mod table;
mod words;

pub use model::{Model, Ran};
pub use number::{End, Number, Refusal};
pub use state::{Buffer, Event, State, Step};
pub use store::{Chunk, Store};
pub use table::{Entry, Table};

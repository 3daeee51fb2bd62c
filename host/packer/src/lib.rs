//! The packer as a shared library, for Python: a model from a text or from its fields, and many runs in one call.
//!
//! Every call takes addresses with explicit lengths and gives an [`Answer`], which holds what was made or why nothing was.
//! The caller reads its parts and frees it. `jirvuntsag_packer_interface` says by a number what the calls look like.

mod answer;
mod c;
mod fields;
mod pack;
mod runs;

pub use answer::Answer;
pub use c::*;
pub use pack::{pack_fields, pack_text};
pub use runs::{run_all, Runs};

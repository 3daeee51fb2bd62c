//! Builders that pack images of document 01 for tests.
//!
//! Nothing is validated: tests want images that break a rule, too. Values wider
//! than their field lose their upper bits.

mod largest;
mod model_a;
mod pack;
mod retries;
mod spec;
mod writer;

pub use largest::{largest, largest_asking};
pub use model_a::model_a;
pub use pack::{pack, pack_under, pack_with_fields, Packed};
pub use retries::retries;
pub use spec::{
    ActionSpec, ChunkSpec, Deed, FactSpec, Header, ModelSpec, PatternSpec, QuerySpec, RuleSpec, Term, TestSpec,
};
pub use writer::{Field, Role, Writer};

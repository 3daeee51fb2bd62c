//! Models as readable text: names for what an image numbers, the way from text to an image and back.

mod error;
mod fit;
mod flaw;
mod image;
mod json;
mod limits;
mod model;
mod names;
mod naming;
mod parse;
mod query;
mod refused;
mod shown;
mod version;
mod write;

pub use error::TextError;
pub use flaw::Flaw;
pub use image::read_image;
pub use limits::IMAGE_LIMIT;
pub use model::{Model, Reading};
pub use names::{Names, RuleNames, TypeNames, CHUNK, NIL};
pub use parse::Lone;
pub use refused::Refused;
pub use shown::{escaped, Shown};
pub use version::{VERSIONS, WITH_QUERIES};

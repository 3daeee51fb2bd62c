//! A model that an image can hold, with names for everything in it.

use jirvuntsag_packing::{pack, ModelSpec};

use crate::error::TextError;
use crate::fit::check_fit;
use crate::flaw::Flaw;
use crate::image::read_image;
use crate::limits::IMAGE_LIMIT;
use crate::names::Names;
use crate::parse::{parse, Lone, Parsed};
use crate::refused::Refused;

/// A model and its names; its image is one that opens.
#[derive(Clone, PartialEq, Eq, Debug)]
pub struct Model {
    spec: ModelSpec,
    names: Names,
}

/// What a text holds.
#[derive(Clone, PartialEq, Eq, Debug)]
pub struct Reading {
    /// The model, or all that is wrong with the text, in its order: one fault at least, and 1,000 at most.
    pub model: Result<Model, Vec<TextError>>,
    /// The symbols that stand in one place only.
    pub lone: Vec<Lone>,
}

impl Model {
    /// The model of a text, or the first fault.
    pub fn from_text(text: &str) -> Result<Model, TextError> {
        Model::read(text).model.map_err(|mut faults| faults.swap_remove(0))
    }

    /// Reads a text whole: its model or all its faults, and what may be mistyped.
    pub fn read(text: &str) -> Reading {
        let Parsed { spec, names, faults, lone } = parse(text);
        let model = if faults.is_empty() { Model { spec, names }.in_bounds() } else { Err(faults) };
        Reading { model, lone }
    }

    /// The model, if its image is not too large.
    fn in_bounds(self) -> Result<Model, Vec<TextError>> {
        match self.image().len() {
            0..=IMAGE_LIMIT => Ok(self),
            bytes => Err(vec![TextError::whole(format!("the image has {bytes} bytes")).breaking(Flaw::TooLong)]),
        }
    }

    /// The model of an image, with invented names.
    pub fn from_image(image: &[u8]) -> Result<Model, Refused> {
        let spec = read_image(image)?;
        let names = Names::invented(&spec);
        Ok(Model { spec, names })
    }

    /// The same model under other names, if they fit it.
    pub fn with_names(self, names: Names) -> Result<Model, TextError> {
        check_fit(&self.spec, &names)?;
        Ok(Model { spec: self.spec, names })
    }

    /// The model in numbers.
    pub fn spec(&self) -> &ModelSpec {
        &self.spec
    }

    /// What the numbers are called.
    pub fn names(&self) -> &Names {
        &self.names
    }

    /// The model's image.
    pub fn image(&self) -> Vec<u8> {
        pack(&self.spec)
    }
}

//! Images, from texts and from fields. Nothing is given that the library would refuse.

use jirvuntsag_packing::pack;
use jirvuntsag_text::{read_image, Model};

use crate::fields::model_of;

/// The image of a text and its names as JSON, or all that is wrong with it.
pub fn pack_text(text: &[u8]) -> Result<Vec<Vec<u8>>, String> {
    let text = std::str::from_utf8(text).map_err(|_| " this is no text: a byte that is not UTF-8".to_string())?;
    let model = Model::from_text(text).map_err(|error| error.to_string())?;
    Ok(vec![model.image(), model.names().to_json().into_bytes()])
}

/// The image of fields, or why they make none.
pub fn pack_fields(fields: &[u16]) -> Result<Vec<Vec<u8>>, String> {
    let image = pack(&model_of(fields)?);
    read_image(&image).map_err(|refused| refused.to_string())?;
    Ok(vec![image])
}

//! The versions of images: rules have queries from version 2 on.

use std::ops::RangeInclusive;

use jirvuntsag_packing::ModelSpec;

/// The version whose rules have queries.
pub const WITH_QUERIES: u16 = 2;

/// The versions that there are.
pub const VERSIONS: RangeInclusive<u16> = 1..=WITH_QUERIES;

/// The model as one of a version, which is said only where its rules do not ask for it: so each image has one model.
pub fn with_version(spec: ModelSpec, version: u16) -> ModelSpec {
    let unsaid = ModelSpec { version: None, ..spec };
    if unsaid.header().version == version {
        unsaid
    } else {
        ModelSpec { version: Some(version as u8), ..unsaid }
    }
}

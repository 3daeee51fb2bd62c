//! What a query may ask of a buffer.

/// The states that a query asks for, by its kind: something is on its way, nothing is, the last request has failed.
pub const STATES: [&str; 3] = ["busy", "free", "error"];

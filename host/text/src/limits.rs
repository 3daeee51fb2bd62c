//! What an image can hold at most.

/// Buffers; there is one at least.
pub const BUFFERS: usize = 8;
/// Types besides `chunk`.
pub const TYPES: usize = 63;
/// Slots of a type.
pub const SLOTS: usize = 8;
/// Facts.
pub const FACTS: usize = 512;
/// Rules.
pub const RULES: usize = 256;
/// Variables of a rule.
pub const VARIABLES: usize = 8;
/// The highest symbol.
pub const SYMBOL: u16 = 4_095;
/// Bytes.
pub const IMAGE_LIMIT: usize = 65_536;

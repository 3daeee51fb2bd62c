//! Why an image is refused, and where: document 01's numbers, as request 2026-03 makes them finer.

/// Why an image is refused.
#[derive(Clone, Copy, PartialEq, Eq, Debug)]
pub struct Refusal {
    /// 1 to 4, or 11 to 13.
    pub number: u8,
    /// First bit of the offending field for 2, 3 and 11 to 13 (the end of the tests for a variable in no test), else 0.
    pub at: u32,
}

/// The image is over 65,536 bytes.
pub(crate) const TOO_LONG: u8 = 1;
/// A field is not wholly there.
pub(crate) const MISSING: u8 = 2;
/// A version, count, type, query kind or action kind breaks its rule.
pub(crate) const BROKEN: u8 = 3;
/// A pad bit is 1, or a byte follows.
pub(crate) const FOLLOWS: u8 = 4;
/// A mask has a bit past the type's slots.
pub(crate) const MASK: u8 = 11;
/// A variable is not below the rule's count, or stood in no test.
pub(crate) const VARIABLE: u8 = 12;
/// A buffer does not exist, does not rise, or is modified untested.
pub(crate) const BUFFER: u8 = 13;

//! Why an image is refused.

use std::fmt;

use crate::flaw::Flaw;

/// Why an image is refused.
#[derive(Clone, PartialEq, Eq)]
pub struct Refused {
    /// The rule that it breaks.
    pub flaw: Flaw,
    /// For 2, 3 and 11 to 13 the first bit of the field (for a variable in no test, the bit after the last test). Bits
    /// count from 0, and the most significant bit of byte 0 is bit 0.
    pub at: Option<usize>,
    /// The field, and what was found in it.
    pub cause: String,
}

impl Refused {
    /// The number by which the library refuses the image: 1 to 4, or 11 to 13.
    pub fn number(&self) -> u8 {
        self.flaw.number()
    }

    /// The position that the library tells: that bit, and 0 where there is none.
    pub fn position(&self) -> usize {
        self.at.unwrap_or(0)
    }
}

impl fmt::Display for Refused {
    fn fmt(&self, f: &mut fmt::Formatter) -> fmt::Result {
        write!(f, "refused by {}", self.number())?;
        if let Some(bit) = self.at {
            write!(f, " at {}", Place(bit))?;
        }
        write!(f, ": {} [{}]", self.cause, self.flaw.rule())
    }
}

/// A bit as a reader of bytes finds it.
pub(crate) struct Place(pub usize);

impl fmt::Display for Place {
    fn fmt(&self, f: &mut fmt::Formatter) -> fmt::Result {
        write!(f, "bit {} (byte {}, bit {} of it)", self.0, self.0 / 8, self.0 % 8)
    }
}

/// A `main` that ends with `?` prints an error this way: in words, as others read it.
impl fmt::Debug for Refused {
    fn fmt(&self, f: &mut fmt::Formatter) -> fmt::Result {
        fmt::Display::fmt(self, f)
    }
}

impl std::error::Error for Refused {}

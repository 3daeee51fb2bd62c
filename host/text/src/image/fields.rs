//! Fields one after the other, each with its name for the case that it is refused.

use crate::flaw::Flaw;
use crate::refused::{Place, Refused};

/// The rule that a value breaks, and what is said of it after its field's name and `is`: the value, and what it is held to.
pub type Wrong = (Flaw, String);

/// An image and the bit that comes next.
pub struct Fields<'i> {
    image: &'i [u8],
    at: usize,
}

impl<'i> Fields<'i> {
    /// Begins at the first bit.
    pub fn new(image: &'i [u8]) -> Fields<'i> {
        Fields { image, at: 0 }
    }

    /// The next field, whatever it holds.
    pub fn take(&mut self, width: usize, what: impl Fn() -> String) -> Result<u16, Refused> {
        let (start, bits) = (self.at, 8 * self.image.len());
        if start + width > bits {
            let left = match bits - start {
                0 => "no bit is left".into(),
                1 => "only 1 bit is left".into(),
                left => format!("only {left} bits are left"),
            };
            let cause = format!("{} needs {width} bits, but {left}", what());
            return Err(Refused { flaw: Flaw::Missing, at: Some(start), cause });
        }
        self.at += width;
        Ok((start..self.at).fold(0, |value, bit| value << 1 | u16::from(self.bit(bit))))
    }

    /// The next field, if nothing is wrong with its value.
    pub fn judged(
        &mut self,
        width: usize,
        what: impl Fn() -> String,
        wrong: impl Fn(u16) -> Option<Wrong>,
    ) -> Result<u16, Refused> {
        let at = Some(self.at);
        let value = self.take(width, &what)?;
        match wrong(value) {
            None => Ok(value),
            Some((flaw, found)) => Err(Refused { flaw, at, cause: format!("{} is {found}", what()) }),
        }
    }

    /// The next field, if it is not above a highest value.
    pub fn at_most(
        &mut self,
        width: usize,
        highest: usize,
        flaw: Flaw,
        what: impl Fn() -> String,
    ) -> Result<u16, Refused> {
        self.judged(width, what, |value| (usize::from(value) > highest).then(|| (flaw, value.to_string())))
    }

    /// A refusal at the bit that comes next.
    pub fn refused_here(&self, flaw: Flaw, cause: String) -> Refused {
        Refused { flaw, at: Some(self.at), cause }
    }

    /// Zero bits up to the byte's end, and no byte after it.
    pub fn finish(&self) -> Result<(), Refused> {
        let bytes = self.at.div_ceil(8);
        let cause = if let Some(bit) = (self.at..8 * bytes).find(|&bit| self.bit(bit)) {
            format!("{} is 1, but the last field ends before bit {}", Place(bit), self.at)
        } else if self.image.len() > bytes {
            format!("the last field ends in byte {}, but the image has {} bytes", bytes - 1, self.image.len())
        } else {
            return Ok(());
        };
        Err(Refused { flaw: Flaw::Follows, at: None, cause })
    }

    fn bit(&self, bit: usize) -> bool {
        self.image[bit / 8] >> (7 - bit % 8) & 1 == 1
    }
}

/// So many things, by their numbers: `no type`, `type 1 alone`, `types 1 and 2`, `types 1 to 5`.
pub fn numbered(what: &str, first: usize, count: usize) -> String {
    match count {
        0 => format!("no {what}"),
        1 => format!("{what} {first} alone"),
        2 => format!("{what}s {first} and {}", first + 1),
        count => format!("{what}s {first} to {}", first + count - 1),
    }
}

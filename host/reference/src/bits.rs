//! Fields of an image, most significant bit first, and why one is refused.

use crate::refusal::{Refusal, FOLLOWS, MISSING};

/// Reads fields one after the other; after a `None` it knows the refusal.
pub(crate) struct Reader<'a> {
    image: &'a [u8],
    at: usize,
    /// Kept here so that a field is an `Option` in registers, not a `Result` in memory.
    refusal: Refusal,
}

impl<'a> Reader<'a> {
    /// Starts at the first bit.
    pub fn new(image: &'a [u8]) -> Self {
        Reader { image, at: 0, refusal: Refusal { number: 0, at: 0 } }
    }

    /// Why the last call gave `None`.
    pub fn refusal(&self) -> Refusal {
        self.refusal
    }

    /// The next field of 1 to 16 bits; 2 if it is not wholly there.
    #[inline(always)]
    pub fn take(&mut self, width: usize) -> Option<u16> {
        let (start, end) = (self.at, self.at + width);
        if end > self.image.len() * 8 {
            return self.refuse(MISSING, start);
        }
        self.at = end;
        // A field of 16 bits touches three bytes at most, so a window of four holds it.
        let window = self.window(start >> 3) << (start & 7);
        Some((window >> (32 - width)) as u16)
    }

    /// The next field if `fits` holds of it; if not, `number` at its first bit.
    #[inline(always)]
    pub fn judged(&mut self, width: usize, number: u8, fits: impl Fn(u16) -> bool) -> Option<u16> {
        let start = self.at;
        let value = self.take(width)?;
        if fits(value) {
            Some(value)
        } else {
            self.refuse(number, start)
        }
    }

    /// The first bit of the next field.
    #[inline]
    pub fn at(&self) -> usize {
        self.at
    }

    /// Zero bits up to the byte's end and no byte after it, or 4.
    pub fn finish(&mut self) -> Option<()> {
        let used = self.at.div_ceil(8);
        let pad = match self.at & 7 {
            0 => 0,
            bits => self.image[used - 1] << bits,
        };
        if pad == 0 && used == self.image.len() {
            Some(())
        } else {
            self.refuse(FOLLOWS, 0)
        }
    }

    /// Four bytes from `byte` on, zeros where the image has ended.
    #[inline(always)]
    fn window(&self, byte: usize) -> u32 {
        let rest = &self.image[byte..];
        match rest.first_chunk::<4>() {
            Some(four) => u32::from_be_bytes(*four),
            None => last_window(rest),
        }
    }

    /// Notes why the image is refused, and where.
    #[cold]
    pub fn refuse<T>(&mut self, number: u8, at: usize) -> Option<T> {
        self.refusal = Refusal { number, at: at as u32 };
        None
    }
}

/// The window over the last one to three bytes.
#[cold]
fn last_window(rest: &[u8]) -> u32 {
    let mut four = [0; 4];
    four[..rest.len()].copy_from_slice(rest);
    u32::from_be_bytes(four)
}

//! The numbers of the calls, as what they mean.

use std::error::Error;
use std::fmt;

/// Why a call was refused; it has changed nothing. Where a field of the image is refused, `at` is the position of the field's
/// first bit: bits count from 0, and the most significant bit of the first byte is bit 0.
#[derive(Clone, Copy, PartialEq, Eq, Hash)]
pub enum Refusal {
    /// 1: the image is over 65,536 bytes.
    TooLong,
    /// 2: a field is not wholly there.
    Missing {
        /// Where the field begins.
        at: u32,
    },
    /// 3: a version, count, type or kind, of a query or an action, breaks its rule.
    Broken {
        /// Where the field begins.
        at: u32,
    },
    /// 4: a pad bit is 1, or a byte follows.
    Follows,
    /// 5: the table's length is not nine words for each rule.
    TableLength,
    /// 6: the state is not well formed.
    State,
    /// 10: the mark names a buffer that the image does not have.
    Mark,
    /// 11: a mask has a bit past the type's slots.
    Mask {
        /// Where the mask begins.
        at: u32,
    },
    /// 12: a variable is not below the rule's count, or stands in no test of it.
    Variable {
        /// Where the term begins; of a variable that stands in no test, the bit after the rule's last test.
        at: u32,
    },
    /// 13: a buffer does not exist, does not rise, or is modified untested.
    Buffer {
        /// Where the buffer begins; of one that is modified untested, the action's kind.
        at: u32,
    },
    /// 15: the lent store has other than 256 places, a count over 256, or a fact that the image could not hold.
    Store,
}

/// Why a run that was made made no more steps.
#[derive(Clone, Copy, PartialEq, Eq, Hash, Debug)]
pub enum End {
    /// 0: all that was asked is done.
    Done,
    /// 7: the chosen entry is not the fresh one.
    Stale,
    /// 8: the clock would pass 4,294,967,295.
    ClockFull,
    /// 9: halted before the steps asked were made.
    Halted,
    /// 14: the lent store would have more than 256 facts.
    StoreFull,
}

/// What a call answers: it was refused, or it came to an end.
#[derive(Clone, Copy, PartialEq, Eq, Hash, Debug)]
pub enum Number {
    /// The call did its work.
    Ended(End),
    /// The call did nothing.
    Refused(Refusal),
}

impl Refusal {
    /// Its number: 1 to 6, 10 to 13, or 15.
    pub fn number(self) -> u8 {
        match self {
            Refusal::TooLong => 1,
            Refusal::Missing { .. } => 2,
            Refusal::Broken { .. } => 3,
            Refusal::Follows => 4,
            Refusal::TableLength => 5,
            Refusal::State => 6,
            Refusal::Mark => 10,
            Refusal::Mask { .. } => 11,
            Refusal::Variable { .. } => 12,
            Refusal::Buffer { .. } => 13,
            Refusal::Store => 15,
        }
    }

    /// Where the refused field begins, if it is a field that is refused.
    fn at(self) -> Option<u32> {
        match self {
            Refusal::Missing { at }
            | Refusal::Broken { at }
            | Refusal::Mask { at }
            | Refusal::Variable { at }
            | Refusal::Buffer { at } => Some(at),
            Refusal::TooLong
            | Refusal::Follows
            | Refusal::TableLength
            | Refusal::State
            | Refusal::Mark
            | Refusal::Store => None,
        }
    }

    /// The position of the refused field's first bit; 0 if it is no field of the image that is refused.
    pub fn position(self) -> u32 {
        self.at().unwrap_or(0)
    }

    /// What its number says in words, without the position.
    pub fn words(self) -> &'static str {
        match self {
            Refusal::TooLong => "the image is over 65,536 bytes",
            Refusal::Missing { .. } => "a field of the image is not wholly there",
            Refusal::Broken { .. } => "a version, count, type or kind breaks its rule",
            Refusal::Follows => "a pad bit of the image is 1, or a byte follows",
            Refusal::TableLength => "the table's length is not nine words for each rule",
            Refusal::State => "the state is not well formed",
            Refusal::Mark => "the mark names a buffer that the image does not have",
            Refusal::Mask { .. } => "a mask has a bit past the type's slots",
            Refusal::Variable { .. } => "a variable is not below the rule's count, or stands in no test",
            Refusal::Buffer { .. } => "a buffer does not exist, does not rise, or is modified untested",
            Refusal::Store => {
                "the store has other than 256 places, a count over 256, or a fact that the image could not hold"
            }
        }
    }
}

impl End {
    /// Its number: 0, 7 to 9, or 14.
    pub fn number(self) -> u8 {
        match self {
            End::Done => 0,
            End::Stale => 7,
            End::ClockFull => 8,
            End::Halted => 9,
            End::StoreFull => 14,
        }
    }
}

impl Number {
    /// Its number, 0 to 15.
    pub fn number(self) -> u8 {
        match self {
            Number::Ended(end) => end.number(),
            Number::Refused(refusal) => refusal.number(),
        }
    }

    /// The position of the refused field's first bit; 0 if it is no field of the image that is refused.
    pub fn position(self) -> u32 {
        match self {
            Number::Ended(_) => 0,
            Number::Refused(refusal) => refusal.position(),
        }
    }

    /// The end, or the refusal.
    pub fn ended(self) -> Result<End, Refusal> {
        match self {
            Number::Ended(end) => Ok(end),
            Number::Refused(refusal) => Err(refusal),
        }
    }

    /// What a number of the library means, with its position. It is proved to give 0 to 15, and a position with those alone
    /// that are about a field; any other is never told as one of these.
    pub(crate) fn of(number: u16, position: u32) -> Number {
        let at = position;
        let told = match number {
            0 => Number::Ended(End::Done),
            1 => Number::Refused(Refusal::TooLong),
            2 => Number::Refused(Refusal::Missing { at }),
            3 => Number::Refused(Refusal::Broken { at }),
            4 => Number::Refused(Refusal::Follows),
            5 => Number::Refused(Refusal::TableLength),
            6 => Number::Refused(Refusal::State),
            7 => Number::Ended(End::Stale),
            8 => Number::Ended(End::ClockFull),
            9 => Number::Ended(End::Halted),
            10 => Number::Refused(Refusal::Mark),
            11 => Number::Refused(Refusal::Mask { at }),
            12 => Number::Refused(Refusal::Variable { at }),
            13 => Number::Refused(Refusal::Buffer { at }),
            14 => Number::Ended(End::StoreFull),
            15 => Number::Refused(Refusal::Store),
            other => unreachable!("the library answered {other}, which is none of its numbers 0 to 15"),
        };
        if told.position() != position {
            unreachable!("the library answered {number} with the position {position}, and {number} has none");
        }
        told
    }
}

impl fmt::Display for Refusal {
    fn fmt(&self, to: &mut fmt::Formatter) -> fmt::Result {
        to.write_str(self.words())?;
        self.at().map_or(Ok(()), |at| write!(to, ", at bit {at}"))
    }
}

impl fmt::Display for End {
    fn fmt(&self, to: &mut fmt::Formatter) -> fmt::Result {
        to.write_str(match self {
            End::Done => "all that was asked is done",
            End::Stale => "the chosen entry is not the fresh one",
            End::ClockFull => "the clock would pass 4,294,967,295",
            End::Halted => "halted before the steps asked were made",
            End::StoreFull => "the store would have more than 256 facts",
        })
    }
}

impl fmt::Display for Number {
    fn fmt(&self, to: &mut fmt::Formatter) -> fmt::Result {
        match self {
            Number::Ended(end) => end.fmt(to),
            Number::Refused(refusal) => refusal.fmt(to),
        }
    }
}

/// A `main` that ends with `?` prints an error this way: in words, with its number.
impl fmt::Debug for Refusal {
    fn fmt(&self, to: &mut fmt::Formatter) -> fmt::Result {
        write!(to, "{self} (number {})", self.number())
    }
}

impl Error for Refusal {}

#[cfg(test)]
mod tests {
    use super::Number;

    /// The numbers that are about a field of the image.
    const ABOUT_A_FIELD: [u16; 5] = [2, 3, 11, 12, 13];

    #[test]
    fn each_number_means_itself() {
        for number in 0..=15 {
            let told = Number::of(number, 0);
            assert_eq!((u16::from(told.number()), told.position()), (number, 0));
        }
    }

    #[test]
    fn the_numbers_about_a_field_carry_its_position() {
        for number in ABOUT_A_FIELD {
            let told = Number::of(number, 524_288);
            assert_eq!((u16::from(told.number()), told.position()), (number, 524_288));
            assert!(told.to_string().ends_with(", at bit 524288"), "{told}");
            assert!(Number::of(number, 0).to_string().ends_with(", at bit 0"));
        }
    }

    #[test]
    fn the_other_numbers_have_no_position() {
        for number in (0..=15).filter(|number| !ABOUT_A_FIELD.contains(number)) {
            assert!(!Number::of(number, 0).to_string().contains("at bit"));
            let refused = std::panic::catch_unwind(|| Number::of(number, 1)).expect_err("a position for no field");
            let said = refused.downcast_ref::<String>().expect("words");
            let wanted = format!("the library answered {number} with the position 1, and {number} has none");
            assert!(said.ends_with(&wanted), "{said}");
        }
    }

    #[test]
    #[should_panic(expected = "the library answered 16, which is none of its numbers 0 to 15")]
    fn a_number_that_is_not_known_is_named() {
        Number::of(16, 0);
    }
}

//! What a call gives back: parts of bytes, or a text that says why there are none.

/// An answer that the caller reads and frees.
#[derive(Clone, PartialEq, Eq, Debug)]
pub struct Answer {
    /// Part 0: empty if the call did its work, otherwise the cause in UTF-8.
    error: String,
    /// Parts 1 and on.
    made: Vec<Vec<u8>>,
}

impl Answer {
    /// The answer of a call that did its work, or of one that did not.
    pub fn of(result: Result<Vec<Vec<u8>>, String>) -> Answer {
        match result {
            Ok(made) => Answer { error: String::new(), made },
            // an empty text would say that all is well
            Err(error) if error.is_empty() => Answer { error: "refused".into(), made: Vec::new() },
            Err(error) => Answer { error, made: Vec::new() },
        }
    }

    /// The bytes of a part; none for a part that is not there.
    pub fn part(&self, number: usize) -> &[u8] {
        match number {
            0 => self.error.as_bytes(),
            number => self.made.get(number - 1).map_or(&[], Vec::as_slice),
        }
    }
}

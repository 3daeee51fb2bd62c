//! The words of a line, and what a word may be.

use std::fmt;

use crate::error::TextError;
use crate::flaw::Flaw;
use crate::naming::name_fault;
use crate::shown::Shown;

/// A word and its place.
#[derive(Clone, Copy, PartialEq, Eq, Debug)]
pub struct Word<'t> {
    pub text: &'t str,
    pub line: usize,
    pub column: usize,
}

/// As a message repeats it.
impl fmt::Display for Word<'_> {
    fn fmt(&self, f: &mut fmt::Formatter) -> fmt::Result {
        Shown(self.text).fmt(f)
    }
}

impl Word<'_> {
    /// A fault at this word.
    pub fn error(&self, message: impl Into<String>) -> TextError {
        TextError::at(self.line, self.column, message)
    }

    /// A fault at this word that breaks a rule of images.
    pub fn breaks(&self, flaw: Flaw, message: impl Into<String>) -> TextError {
        self.error(message).breaking(flaw)
    }
}

/// A line without its comment; words are taken from left to right.
pub struct Line<'t> {
    words: std::vec::IntoIter<Word<'t>>,
    number: usize,
    /// The column after the last word.
    end: usize,
}

impl<'t> Line<'t> {
    /// The words of a line up to `#` or `;`.
    pub fn new(number: usize, text: &'t str) -> Line<'t> {
        let text = text.split(['#', ';']).next().unwrap_or("");
        let mut words = Vec::new();
        let (mut column, mut end) = (1, 1);
        for piece in text.split_inclusive(char::is_whitespace) {
            let word = piece.trim_end();
            if !word.is_empty() {
                words.push(Word { text: word, line: number, column });
                end = column + word.chars().count();
            }
            column += piece.chars().count();
        }
        Line { words: words.into_iter(), number, end }
    }

    /// The next word, if there is one.
    pub fn next(&mut self) -> Option<Word<'t>> {
        self.words.next()
    }

    /// The next word, which stays.
    pub fn peek(&self) -> Option<Word<'t>> {
        self.words.as_slice().first().copied()
    }

    /// Whether this word comes next; it is left behind then.
    pub fn passes(&mut self, wanted: &str) -> bool {
        let there = self.peek().is_some_and(|word| word.text == wanted);
        if there {
            self.next();
        }
        there
    }

    /// The next word, or a fault that says what it should have been.
    pub fn take(&mut self, wanted: &str) -> Result<Word<'t>, TextError> {
        self.next().ok_or_else(|| self.error_at_end(format!("the line ends where {wanted} is expected")))
    }

    /// This very word.
    pub fn expect(&mut self, wanted: &str) -> Result<(), TextError> {
        let word = self.take(&format!("'{wanted}'"))?;
        if word.text == wanted {
            return Ok(());
        }
        Err(word.error(format!("expected '{wanted}', found '{word}'")))
    }

    /// No more words.
    pub fn end(&mut self) -> Result<(), TextError> {
        match self.next() {
            None => Ok(()),
            Some(word) => Err(word.error(format!("expected the end of the line, found '{word}'"))),
        }
    }

    /// A fault after the last word.
    pub fn error_at_end(&self, message: impl Into<String>) -> TextError {
        TextError::at(self.number, self.end, message)
    }
}

/// The word as a name.
pub fn name<'t>(word: Word<'t>) -> Result<&'t str, TextError> {
    match name_fault(word.text) {
        Some(fault) => Err(word.error(fault)),
        None => Ok(word.text),
    }
}

/// A whole number from 0 to a highest one.
pub fn whole_number(word: Word, what: &str, highest: u16) -> Result<u16, TextError> {
    let digits = !word.text.is_empty() && word.text.bytes().all(|byte| byte.is_ascii_digit());
    let number = word.text.parse().ok().filter(|number: &u16| digits && *number <= highest);
    number.ok_or_else(|| word.error(format!("{what} is a whole number from 0 to {highest}, not '{word}'")))
}

/// A utility with up to three decimals, as the image's field of thousandths.
pub fn utility(word: Word) -> Result<u16, TextError> {
    let thousandths = thousandths(word.text).filter(|value| (-32_768..=32_767).contains(value));
    thousandths.map(|value| value as u16).ok_or_else(|| {
        let wanted = "a utility is a number from -32.768 to 32.767 with at most three decimals";
        word.error(format!("{wanted}, not '{word}'"))
    })
}

/// A decimal number in thousandths.
fn thousandths(text: &str) -> Option<i32> {
    let (sign, digits) = text.strip_prefix('-').map_or((1, text), |rest| (-1, rest));
    let (whole, decimals) = digits.split_once('.').unwrap_or((digits, "0"));
    let plain = |part: &str, most| (1..=most).contains(&part.len()) && part.bytes().all(|byte| byte.is_ascii_digit());
    if !plain(whole, 5) || !plain(decimals, 3) {
        return None;
    }
    let whole: i32 = whole.parse().ok()?;
    let decimals: i32 = format!("{decimals:0<3}").parse().ok()?;
    Some(sign * (1_000 * whole + decimals))
}

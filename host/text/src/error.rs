//! What is wrong with a text, and where.

use std::fmt;

use crate::flaw::Flaw;

/// A text that is refused: the place and the cause.
#[derive(Clone, PartialEq, Eq)]
pub struct TextError {
    /// Line, from 1 on; 0 if the fault lies in no single line.
    pub line: usize,
    /// Column in characters, from 1 on; 0 if the fault lies in no single word.
    pub column: usize,
    /// The cause, and what was expected.
    pub message: String,
    /// The rule that the model would break, if it is one of those that an image is refused for.
    pub flaw: Option<Flaw>,
}

impl TextError {
    /// A fault at a line and a column.
    pub fn at(line: usize, column: usize, message: impl Into<String>) -> TextError {
        TextError { line, column, message: message.into(), flaw: None }
    }

    /// A fault of the text as a whole.
    pub fn whole(message: impl Into<String>) -> TextError {
        TextError::at(0, 0, message)
    }

    /// The same fault, which breaks a rule of images.
    pub fn breaking(self, flaw: Flaw) -> TextError {
        TextError { flaw: Some(flaw), ..self }
    }

    /// The fault with the file that it lies in: `model.txt:12:30: ..`.
    pub fn in_file(&self, file: &str) -> String {
        format!("{file}:{self}")
    }
}

impl fmt::Display for TextError {
    fn fmt(&self, f: &mut fmt::Formatter) -> fmt::Result {
        for number in [self.line, self.column] {
            if number > 0 {
                write!(f, "{number}:")?;
            }
        }
        match self.flaw {
            None => write!(f, " {}", self.message),
            Some(flaw) => write!(f, " {}", flaw.told(&self.message)),
        }
    }
}

/// A `main` that ends with `?` prints an error this way: in words, as others read it.
impl fmt::Debug for TextError {
    fn fmt(&self, f: &mut fmt::Formatter) -> fmt::Result {
        f.write_str(self.to_string().trim_start())
    }
}

impl std::error::Error for TextError {}

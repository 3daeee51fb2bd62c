//! JSON, as much as a file of names needs: a reader for any value, and quoted strings.

use crate::error::TextError;
use crate::shown::Shown;

/// A JSON value; a number stays as it is written.
#[derive(Clone, PartialEq, Eq, Debug)]
pub enum Json {
    /// `null`, `true`, `false` or a number.
    Plain(String),
    /// A string.
    Text(String),
    /// An array.
    List(Vec<Json>),
    /// An object, in the order of its text.
    Object(Vec<(String, Json)>),
}

/// Values within values beyond which a text is refused, so that no text can exhaust the stack.
const DEEPEST: usize = 64;

/// The value that a text holds.
pub fn parse(text: &str) -> Result<Json, TextError> {
    let mut reader = Reader { rest: text, line: 1, column: 1 };
    let value = reader.value(0)?;
    reader.skip_blanks();
    match reader.rest.chars().next() {
        None => Ok(value),
        Some(other) => Err(reader.error(format!("'{}' after the end of the value", other.escape_debug()))),
    }
}

/// A string in quotes, with escapes where JSON asks for them.
pub fn quote(text: &str) -> String {
    let mut quoted = String::from("\"");
    for letter in text.chars() {
        match letter {
            '"' | '\\' => quoted.extend(['\\', letter]),
            letter if letter < ' ' => quoted.push_str(&format!("\\u{:04x}", u32::from(letter))),
            letter => quoted.push(letter),
        }
    }
    quoted.push('"');
    quoted
}

struct Reader<'t> {
    rest: &'t str,
    line: usize,
    column: usize,
}

impl Reader<'_> {
    fn error(&self, message: impl Into<String>) -> TextError {
        TextError::at(self.line, self.column, message)
    }

    fn peek(&self) -> Option<char> {
        self.rest.chars().next()
    }

    /// The next character, which is left behind.
    fn take(&mut self) -> Option<char> {
        let letter = self.peek()?;
        self.rest = &self.rest[letter.len_utf8()..];
        if letter == '\n' {
            (self.line, self.column) = (self.line + 1, 1);
        } else {
            self.column += 1;
        }
        Some(letter)
    }

    fn skip_blanks(&mut self) {
        while self.peek().is_some_and(|letter| " \t\r\n".contains(letter)) {
            self.take();
        }
    }

    /// Passes blanks, and then this character if it comes next.
    fn passes(&mut self, wanted: char) -> bool {
        self.skip_blanks();
        let there = self.peek() == Some(wanted);
        if there {
            self.take();
        }
        there
    }

    fn expect(&mut self, wanted: char) -> Result<(), TextError> {
        if self.passes(wanted) {
            return Ok(());
        }
        Err(self.error(format!("expected '{wanted}', found {}", self.found())))
    }

    /// What comes next, in words.
    fn found(&self) -> String {
        self.peek().map_or("the end".into(), |letter| format!("'{}'", letter.escape_debug()))
    }

    fn value(&mut self, depth: usize) -> Result<Json, TextError> {
        self.skip_blanks();
        if depth > DEEPEST {
            return Err(self.error(format!("more than {DEEPEST} values within each other")));
        }
        match self.peek() {
            Some('"') => Ok(Json::Text(self.string()?)),
            Some('[') => self.list(depth),
            Some('{') => self.object(depth),
            Some(letter) if letter.is_ascii_alphanumeric() || letter == '-' => self.plain(),
            _ => Err(self.error(format!("expected a value, found {}", self.found()))),
        }
    }

    fn list(&mut self, depth: usize) -> Result<Json, TextError> {
        self.expect('[')?;
        let mut items = Vec::new();
        if self.passes(']') {
            return Ok(Json::List(items));
        }
        loop {
            items.push(self.value(depth + 1)?);
            if !self.passes(',') {
                self.expect(']')?;
                return Ok(Json::List(items));
            }
        }
    }

    fn object(&mut self, depth: usize) -> Result<Json, TextError> {
        self.expect('{')?;
        let mut members: Vec<(String, Json)> = Vec::new();
        if self.passes('}') {
            return Ok(Json::Object(members));
        }
        loop {
            self.skip_blanks();
            let key = self.string()?;
            if members.iter().any(|(other, _)| *other == key) {
                return Err(self.error(format!("the member '{}' stands twice", Shown(&key))));
            }
            self.expect(':')?;
            members.push((key, self.value(depth + 1)?));
            if !self.passes(',') {
                self.expect('}')?;
                return Ok(Json::Object(members));
            }
        }
    }

    fn plain(&mut self) -> Result<Json, TextError> {
        let start = self.rest;
        while self.peek().is_some_and(|letter| letter.is_ascii_alphanumeric() || "+-.".contains(letter)) {
            self.take();
        }
        let word = &start[..start.len() - self.rest.len()];
        if matches!(word, "null" | "true" | "false") || word.parse::<f64>().is_ok_and(f64::is_finite) {
            return Ok(Json::Plain(word.into()));
        }
        Err(self.error(format!("'{}' is no JSON value", Shown(word))))
    }

    fn string(&mut self) -> Result<String, TextError> {
        self.expect('"')?;
        let mut text = String::new();
        loop {
            match self.take() {
                Some('"') => return Ok(text),
                Some('\\') => text.push(self.escaped()?),
                Some(letter) if letter >= ' ' => text.push(letter),
                _ => return Err(self.error("a string that does not end on its line")),
            }
        }
    }

    /// The character that stands behind a backslash.
    fn escaped(&mut self) -> Result<char, TextError> {
        match self.take() {
            Some(letter @ ('"' | '\\' | '/')) => Ok(letter),
            Some('b') => Ok('\u{8}'),
            Some('f') => Ok('\u{c}'),
            Some('n') => Ok('\n'),
            Some('r') => Ok('\r'),
            Some('t') => Ok('\t'),
            Some('u') => self.coded(),
            _ => Err(self.error("an unknown escape after '\\'")),
        }
    }

    /// A character by its code, two codes for those above 65,535.
    fn coded(&mut self) -> Result<char, TextError> {
        let first = self.four_digits()?;
        let code = match first {
            0xd800..=0xdbff if self.take() == Some('\\') && self.take() == Some('u') => match self.four_digits()? {
                second @ 0xdc00..=0xdfff => 0x1_0000 + ((first & 0x3ff) << 10 | second & 0x3ff),
                _ => first,
            },
            _ => first,
        };
        char::from_u32(code).ok_or_else(|| self.error("a code that is no character"))
    }

    fn four_digits(&mut self) -> Result<u32, TextError> {
        (0..4).try_fold(0, |code, _| match self.take().and_then(|letter| letter.to_digit(16)) {
            Some(digit) => Ok(code << 4 | digit),
            None => Err(self.error("expected four hexadecimal digits")),
        })
    }
}

//! Words of a text as a message repeats them: cut, and without a character that a terminal would obey.

use std::fmt;

/// Characters of a word that are shown at most.
const LONGEST: usize = 60;

/// A word for a message.
pub struct Shown<'w>(pub &'w str);

impl fmt::Display for Shown<'_> {
    fn fmt(&self, f: &mut fmt::Formatter) -> fmt::Result {
        f.write_str(&escaped(self.0.chars().take(LONGEST)))?;
        match self.0.chars().count() {
            0..=LONGEST => Ok(()),
            letters => write!(f, ".. ({letters} characters)"),
        }
    }
}

/// Characters with those escaped that cannot be seen.
pub fn escaped(letters: impl Iterator<Item = char>) -> String {
    let mut shown = String::new();
    for letter in letters {
        if letter.is_ascii_graphic() || letter == ' ' {
            shown.push(letter);
        } else {
            shown.extend(letter.escape_debug());
        }
    }
    shown
}

/// Names with commas between them.
pub fn listed<'n>(names: impl Iterator<Item = &'n String>) -> String {
    let shown: Vec<String> = names.map(|name| Shown(name).to_string()).collect();
    if shown.is_empty() {
        return "there is none".into();
    }
    shown.join(", ")
}

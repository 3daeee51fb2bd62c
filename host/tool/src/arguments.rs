//! The words after a subcommand: one file, options with a value each, and flags without one.

/// A file, options and flags.
pub struct Arguments {
    /// The file that is read; `-` for standard input.
    pub input: String,
    /// The options with their values, and the flags without one.
    given: Vec<(String, Option<String>)>,
}

impl Arguments {
    /// Sorts the words, or says what is wrong with them.
    pub fn new(words: Vec<String>, options: &[&str], flags: &[&str]) -> Result<Arguments, String> {
        let mut inputs = Vec::new();
        let mut given: Vec<(String, Option<String>)> = Vec::new();
        let mut words = words.into_iter();
        while let Some(word) = words.next() {
            let (is_option, is_flag) = (options.contains(&word.as_str()), flags.contains(&word.as_str()));
            if !word.starts_with('-') || word == "-" {
                inputs.push(word);
            } else if !is_option && !is_flag {
                return Err(format!("unknown option '{word}'"));
            } else if given.iter().any(|(name, _)| *name == word) {
                return Err(format!("option '{word}' is given twice"));
            } else if is_flag {
                given.push((word, None));
            } else {
                let value = words.next().ok_or_else(|| format!("option '{word}' needs a value"))?;
                given.push((word, Some(value)));
            }
        }
        match <[String; 1]>::try_from(inputs) {
            Ok([input]) => Ok(Arguments { input, given }),
            Err(inputs) => Err(format!("one file is read, and {} are given", inputs.len())),
        }
    }

    /// The value of an option.
    pub fn option(&self, name: &str) -> Option<&str> {
        self.given.iter().find(|(known, _)| known == name).and_then(|(_, value)| value.as_deref())
    }

    /// Whether a flag is given; only runs have one.
    #[cfg_attr(not(feature = "proved"), allow(dead_code))]
    pub fn flag(&self, name: &str) -> bool {
        self.given.iter().any(|(known, _)| known == name)
    }
}

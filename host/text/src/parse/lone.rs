//! Symbols that stand in one place only, and whether another is nearly called so.

/// A symbol that stands in one place of a text only: it may be mistyped.
#[derive(Clone, PartialEq, Eq, Debug)]
pub struct Lone {
    /// Its name.
    pub name: String,
    /// The line that it stands in, from 1 on.
    pub line: usize,
    /// Its column in characters, from 1 on.
    pub column: usize,
    /// Another symbol that is nearly called so.
    pub near: Option<String>,
}

/// Letters of a name below which a guess would be mere chance.
const SHORTEST: usize = 3;

/// The first of these names that is nearly this one; a number is never nearly another.
pub fn near<'n>(name: &str, others: impl Iterator<Item = &'n String>) -> Option<String> {
    let is_number = |name: &str| !name.contains(|letter: char| letter.is_alphabetic());
    if is_number(name) || name.chars().count() < SHORTEST {
        return None;
    }
    let mut others = others.filter(|other| *other != name && !is_number(other));
    others.find(|other| is_near(name, other)).cloned()
}

/// Whether one letter too many, one too few, one wrong, two in the wrong order or capitals part two names.
fn is_near(one: &str, other: &str) -> bool {
    let (one, other): (Vec<char>, Vec<char>) = (letters(one), letters(other));
    if one.len().abs_diff(other.len()) > 1 {
        return false;
    }
    let same = one.iter().zip(&other).take_while(|(a, b)| a == b).count();
    let (one, other) = (&one[same..], &other[same..]);
    let rest = |letters: &[char], from: usize| letters.get(from..).map(<[char]>::to_vec);
    let swapped =
        one.len() > 1 && other.len() > 1 && (one[0], one[1]) == (other[1], other[0]) && one[2..] == other[2..];
    let (without, with) = (rest(one, 1), rest(other, 1));
    one == other || swapped || without == with || without.as_deref() == Some(other) || Some(one) == with.as_deref()
}

/// The letters of a name, as if there were no capitals.
fn letters(name: &str) -> Vec<char> {
    name.chars().flat_map(char::to_lowercase).collect()
}

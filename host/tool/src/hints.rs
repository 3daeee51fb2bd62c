//! What may be mistyped in a text, and is no error.

use jirvuntsag_text::{Lone, Shown};

use crate::files::shown;

/// Symbols that are named at most; of the others their number is said.
const MOST: usize = 20;

/// Lines about the symbols that stand in one place only, those first that are nearly called as another.
pub fn hints(path: &str, lone: &[Lone]) -> Option<String> {
    if lone.is_empty() {
        return None;
    }
    let mut lines = String::from("Symbols that stand in one place only, which is right or mistyped:\n");
    for one in lone.iter().take(MOST) {
        let Lone { name, line, column, near } = one;
        let guess = near.as_ref().map(|near| format!("; is it '{}'?", Shown(near))).unwrap_or_default();
        lines += &format!("  {}:{line}:{column}: '{}'{guess}\n", shown(path), Shown(name));
    }
    if lone.len() > MOST {
        lines += &format!("  and {} more\n", lone.len() - MOST);
    }
    Some(lines)
}

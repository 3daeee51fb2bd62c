//! Reading the pages of docs/, to hold them to what is so.
#![allow(dead_code)] // No page has all of these.

/// A page of docs/.
pub fn page(name: &str) -> String {
    let path = format!("{}/../../docs/{name}", env!("CARGO_MANIFEST_DIR"));
    std::fs::read_to_string(&path).unwrap_or_else(|error| panic!("{path}: {error}"))
}

/// The block of a page that is marked with a word.
pub fn block(page: &str, mark: &str) -> String {
    let (_, rest) = page.split_once(&format!("\n```{mark}\n")).unwrap_or_else(|| panic!("no block {mark}"));
    rest.split_once("```").expect("the block's end").0.into()
}

/// The cells of each row of the first table after some words, without its head.
pub fn rows<'p>(page: &'p str, after: &str) -> Vec<Vec<&'p str>> {
    let (_, rest) = page.split_once(after).unwrap_or_else(|| panic!("no words {after}"));
    let table = rest.lines().skip_while(|line| !line.starts_with('|')).take_while(|line| line.starts_with('|'));
    table.skip(2).map(cells).collect()
}

/// The cells of a row.
pub fn cells(line: &str) -> Vec<&str> {
    let inner = line.strip_prefix('|').and_then(|line| line.strip_suffix('|')).expect("a row");
    inner.split('|').map(str::trim).collect()
}

/// What stands between backquotes.
pub fn code(cell: &str) -> &str {
    cell.trim_matches('`')
}

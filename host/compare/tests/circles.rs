//! Within each crate here the modules import each other without a circle, so that each can be read after those that it names.

use std::collections::{BTreeMap, BTreeSet};
use std::path::{Path, PathBuf};

/// The modules that each module of a crate names.
type Imports = BTreeMap<String, BTreeSet<String>>;

/// The crates of this workspace.
fn crates() -> Vec<PathBuf> {
    let host = Path::new(env!("CARGO_MANIFEST_DIR")).join("..");
    let entries = std::fs::read_dir(host).expect("the folder of the crates");
    entries.map(|entry| entry.expect("an entry").path()).filter(|path| path.join("Cargo.toml").exists()).collect()
}

/// The text of a module: a file, or all files of a folder.
fn text_of(path: &Path) -> String {
    if path.is_file() {
        return std::fs::read_to_string(path).expect("a source file");
    }
    let entries = std::fs::read_dir(path).expect("a folder");
    entries.map(|entry| text_of(&entry.expect("an entry").path())).collect()
}

/// What a module's text names after `crate::`.
fn named(text: &str) -> BTreeSet<String> {
    let word = |rest: &str| rest.chars().take_while(|letter| letter.is_alphanumeric() || *letter == '_').collect();
    text.split("crate::").skip(1).map(word).collect()
}

/// The modules of a crate, its root left out, with those that they import.
fn imports(folder: &Path) -> Imports {
    let entries =
        std::fs::read_dir(folder.join("src")).expect("the sources").map(|entry| entry.expect("an entry").path());
    let name = |path: &Path| path.file_stem().expect("a name").to_string_lossy().into_owned();
    let modules: BTreeMap<String, String> = entries.map(|path| (name(&path), text_of(&path))).collect();
    let of = |(name, text): (&String, &String)| {
        let others = named(text).into_iter().filter(|other| other != name && modules.contains_key(other));
        (name.clone(), others.collect())
    };
    modules.iter().map(of).filter(|(name, _): &(String, BTreeSet<String>)| name != "lib" && name != "main").collect()
}

/// The modules that are left when those that import none of the others are taken away, again and again.
fn circle(mut imports: Imports) -> Vec<String> {
    while let Some(free) = imports.iter().find(|(_, others)| others.is_empty()).map(|(name, _)| name.clone()) {
        imports.remove(&free);
        imports.values_mut().for_each(|others| {
            others.remove(&free);
        });
    }
    imports.into_keys().collect()
}

#[test]
fn no_modules_import_each_other_in_a_circle() {
    let crates = crates();
    assert!(crates.len() >= 8, "{crates:?}");
    for folder in crates {
        assert_eq!(circle(imports(&folder)), [""; 0], "a circle in {}", folder.display());
    }
}

#[test]
fn a_circle_would_be_seen() {
    let module = |name: &str, text: &str| (name.to_owned(), named(text));
    let imports = [module("a", "use crate::b::B;"), module("b", "use crate::{X};\ncrate::a::f()"), module("c", "")];
    let imports: Imports =
        imports.map(|(name, others)| (name, others.into_iter().filter(|one| !one.is_empty()).collect())).into();
    assert_eq!(circle(imports), ["a", "b"]);
}

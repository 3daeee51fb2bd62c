//! Links the archive that `tools/archive` makes, and for the benchmark the two that `tools/bench-archive` makes.

use std::path::Path;

/// Links archives of a folder, each by its name; `make` is what makes them.
fn link(folder: &str, names: &[&str], make: &str) {
    let root = Path::new(env!("CARGO_MANIFEST_DIR")).join("../..");
    for name in names {
        let archive = root.join(folder).join(format!("lib{name}.a"));
        assert!(archive.exists(), "no {folder}/lib{name}.a: make it with `{make}`");
        println!("cargo::rerun-if-changed={}", archive.display());
        println!("cargo::rustc-link-lib=static={name}");
    }
    println!("cargo::rustc-link-search=native={}", root.join(folder).display());
}

fn main() {
    link("target/staticlib", &["jirvuntsag"], "make lib");
    if std::env::var_os("CARGO_FEATURE_BENCH").is_some() {
        link("target/bench", &["three", "singly"], "tools/bench-archive");
    }
}

//! The models that are shipped, and what the README says of them.

use jirvuntsag_compare::BOTH;
use jirvuntsag_packing::{model_a, pack};

const ROOT: &str = concat!(env!("CARGO_MANIFEST_DIR"), "/../..");

#[test]
fn the_counting_model_is_model_a() {
    let image = std::fs::read(format!("{ROOT}/examples/counting.image")).expect("the image");
    assert_eq!(image, pack(&model_a()));
}

#[test]
fn the_counting_model_runs_as_the_readme_prints_it() {
    let readme = std::fs::read_to_string(format!("{ROOT}/README.md")).expect("the README");
    for engine in BOTH {
        let printed = (engine.print)(&pack(&model_a()));
        assert!(readme.contains(&format!("```text\n{printed}```\n")), "{}: {printed}", engine.name);
    }
}

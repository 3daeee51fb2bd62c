//! The proved printing program, from its standard input to its standard output.

use jirvuntsag_compare::{cases, PROVED, REFERENCE};
use jirvuntsag_generate::{case, each_seed};
use jirvuntsag_packing::{model_a, pack, ActionSpec, ChunkSpec, ModelSpec, RuleSpec, TestSpec};
use jirvuntsag_reference::PRINTED_STEPS;

fn assert_same(image: &[u8]) {
    assert_eq!((PROVED.print)(image), (REFERENCE.print)(image), "image {image:02x?}");
}

#[test]
fn every_case_of_the_vectors_that_prints() {
    let printing: Vec<_> = cases().into_iter().filter(|case| case.call.starts_with("print ")).collect();
    assert_eq!(printing.len(), 27);
    for case in &printing {
        assert_eq!(case.answered_by(&PROVED), case.answer, "{}", case.call);
    }
}

#[test]
fn every_cut_of_model_a() {
    let image = pack(&model_a());
    for bytes in 0..=image.len() {
        assert_same(&image[..bytes]);
    }
}

/// Asks an empty memory again and again, and waits as long as can be for nothing.
fn never_halts() -> ModelSpec {
    let asks = RuleSpec {
        tests: vec![TestSpec::new(0, 0, &[])],
        actions: vec![ActionSpec::request(0, 1, &[])],
        ..RuleSpec::default()
    };
    let opening = vec![ChunkSpec::nil()];
    ModelSpec { failure: 65_535, types: vec![0], opening, rules: vec![asks], ..ModelSpec::default() }
}

#[test]
fn a_run_that_does_not_halt_has_a_thousand_steps() {
    let image = pack(&never_halts());
    let printed = (PROVED.print)(&image);
    assert_eq!(printed.lines().count(), usize::from(PRINTED_STEPS) + 1);
    assert!(printed.ends_with("\n32792500 wait 65535\nend 0 1000\n"), "{printed}");
    assert_same(&image);
}

#[test]
fn images_at_the_largest_size_and_past_it() {
    for bytes in [65_535, 65_536, 65_537, 65_538, 1_000_000] {
        assert_same(&vec![1; bytes]);
    }
}

#[test]
fn random_models() {
    each_seed(1, 1_000, |seed, _| assert_same(&case(seed).image));
}

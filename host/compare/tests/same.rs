//! The proved library and the reference engine answer alike: number, position, state, count, steps and every word of the table.

use jirvuntsag_compare::{hold_same, opening};
use jirvuntsag_generate::{case, each_seed};
use jirvuntsag_packing::{model_a, pack};

/// Steps that are asked of a run.
const STEPS: u16 = 1_000;

#[test]
fn every_first_byte_and_every_byte_that_follows() {
    let image = pack(&model_a());
    for byte in 0..=255 {
        let mut first = image.clone();
        first[0] = byte;
        let refused = match byte {
            1 => None,
            // The bits of rule 0's action, read as queries: two, the first of buffer 4.
            2 => Some((13, 300)),
            _ => Some((3, 0)),
        };
        assert_eq!(hold_same(&opening(first, STEPS)), refused, "byte {byte}");
        assert_eq!(hold_same(&opening([&image[..], &[byte]].concat(), STEPS)), Some((4, 0)));
    }
}

#[test]
fn images_at_the_largest_size_and_past_it() {
    for (bytes, too_long) in [(65_535, false), (65_536, false), (65_537, true), (70_000, true)] {
        for (first, number, position) in [(0, 3, 0), (1, 3, 8), (2, 3, 8), (4, 3, 0)] {
            let mut image = vec![0; bytes];
            image[0] = first;
            let refused = if too_long { (1, 0) } else { (number, position) };
            assert_eq!(hold_same(&opening(image, STEPS)), Some(refused));
        }
    }
}

#[test]
fn random_models_states_tables_and_marks() {
    each_seed(1, 20_000, |seed, _| {
        hold_same(&case(seed));
    });
}

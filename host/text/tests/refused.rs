//! Refused images: number and position are those of both engines.

mod models;

use std::collections::HashSet;

use jirvuntsag_compare::BOTH;
use jirvuntsag_generate::{damage, each_seed, model_of, Shape};
use jirvuntsag_packing::{largest, largest_asking, pack, pack_with_fields};
use jirvuntsag_text::{read_image, Flaw};
use models::damaged;

/// Holds number and position to both engines, by two of their calls; gives the rule that is broken, if one is.
fn hold_to_the_engines(image: &[u8]) -> Option<Flaw> {
    let read = read_image(image);
    let (number, position, words) = match &read {
        Ok(spec) => (0, 0, 9 * spec.rules.len()),
        Err(refused) => (refused.number(), refused.position() as u32, 0),
    };
    for engine in BOTH {
        assert_eq!((engine.table_len)(image), (number, position, words), "{}: {read:?}", engine.name);
        let (opened, at, _) = (engine.open)(image, &mut vec![0; words]);
        assert_eq!((opened, at), (number, position), "{}: {read:?}", engine.name);
    }
    match read {
        Ok(spec) => {
            assert_eq!(pack(&spec), image);
            None
        }
        Err(refused) => {
            assert_eq!(refused.at.is_some(), [2, 3, 11, 12, 13].contains(&number), "{refused}");
            Some(refused.flaw)
        }
    }
}

/// The rules that none of the images broke.
fn unbroken(broken: &HashSet<Flaw>) -> Vec<Flaw> {
    Flaw::ALL.into_iter().filter(|flaw| !broken.contains(flaw)).collect()
}

#[test]
fn every_cut_and_flipped_bit() {
    for spec in damaged() {
        let image = pack(&spec);
        for bytes in 0..=image.len() {
            hold_to_the_engines(&image[..bytes]);
        }
        for bit in 0..8 * image.len() {
            let mut flipped = image.clone();
            flipped[bit / 8] ^= 0x80 >> (bit % 8);
            hold_to_the_engines(&flipped);
        }
    }
}

/// Every field but those of 16 bits, which may have any value.
#[test]
fn every_value_of_every_field() {
    let mut broken = HashSet::new();
    for spec in damaged() {
        let packed = pack_with_fields(&spec);
        for field in packed.fields.iter().filter(|field| field.width < 16) {
            for value in 0..1 << field.width {
                broken.extend(hold_to_the_engines(&packed.with(field, value)));
            }
        }
    }
    assert_eq!(unbroken(&broken), [Flaw::TooLong]);
}

#[test]
fn random_damage() {
    let mut broken = HashSet::new();
    each_seed(90_000, 4_000, |seed, mut rng| {
        let shape = if seed % 16 == 0 { Shape::random(&mut rng) } else { Shape::small(&mut rng) };
        let packed = pack_with_fields(&model_of(&mut rng, shape));
        broken.extend(hold_to_the_engines(&damage(&mut rng, &packed).1));
    });
    assert_eq!(unbroken(&broken), []);
}

/// The largest images there can be, one of each version, without their last byte and with one more.
#[test]
fn the_largest_images() {
    for image in [pack(&largest()), pack(&largest_asking())] {
        assert_eq!(hold_to_the_engines(&image), None);
        assert_eq!(hold_to_the_engines(&image[..65_535]), Some(Flaw::Missing));
        assert_eq!(hold_to_the_engines(&[&image[..], &[0]].concat()), Some(Flaw::TooLong));
    }
}

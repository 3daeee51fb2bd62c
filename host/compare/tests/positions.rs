//! Where an image is refused: each field of model A and of a model with queries with each of its values, each cut and each flipped
//! bit, by both engines.

use std::collections::BTreeSet;

use jirvuntsag_compare::{hold_same, opening, Numbered};
use jirvuntsag_generate::{damage, each_seed, model_of, Shape};
use jirvuntsag_packing::{model_a, pack_with_fields, retries, ChunkSpec, Field, ModelSpec, Packed, Role};

/// Steps that are asked of a run: model A makes seven, and what is made of it may make any number.
const STEPS: u16 = 20;
/// Bits of the widest field that has a rule, a term.
const WIDEST: usize = 13;
/// Bits of a slot.
const SLOT: usize = 12;
/// Bits of a latency, an activation or a utility.
const WIDE: usize = 16;

/// Holds both engines to each other on every call.
fn hold(image: &[u8]) -> Option<Numbered> {
    hold_same(&opening(image.to_vec(), STEPS))
}

/// The image with other bits from a bit on: all flipped, all 0, all 1; cut behind that bit; and longer.
fn with_other_rests(image: &[u8], from: usize) -> Vec<Vec<u8>> {
    let set = |value: fn(u8) -> u8| {
        let mut other = image.to_vec();
        for bit in from..8 * image.len() {
            let one = 0x80 >> (bit % 8);
            other[bit / 8] = other[bit / 8] & !one | value(image[bit / 8]) & one;
        }
        other
    };
    let cut = image[..from.div_ceil(8).min(image.len())].to_vec();
    let longer = [image, &[0xa5; 9]].concat();
    vec![set(|byte| !byte), set(|_| 0), set(|_| 255), cut, longer]
}

/// Holds a refusal to the bits up to its field's end: whatever follows, it stays.
fn hold_rest(image: &[u8], refused: Numbered, width: usize) {
    let end = refused.1 as usize + width;
    for other in with_other_rests(image, end) {
        assert_eq!(hold(&other), Some(refused), "with other bits from {end} on");
    }
}

/// The number that a field's own rule has, if it is given a value that breaks it.
fn number_of(field: &Field, value: u16) -> u8 {
    match field.role {
        Role::TestMask | Role::ActionMask => 11,
        Role::TestTerm | Role::ActionTerm => 12,
        Role::TestBuffer | Role::QueryBuffer | Role::ActionBuffer => 13,
        Role::ActionKind if value == 0 => 13,
        _ => 3,
    }
}

/// The bits of the field that is refused, where one field was set: none for a variable in no test, at most a term's if it is not
/// known which field has come to stand there.
fn width_of_refused(packed: &Packed, set: &Field, (number, position): Numbered) -> usize {
    if position as usize != set.at && !set.role.keeps_places() {
        return WIDEST;
    }
    let refused = packed.field_at(position as usize).filter(|field| number != 12 || field.role.is_term());
    refused.map_or(0, |field| field.width)
}

/// Sets a field to each of its values, and notes the numbers that come up.
fn hold_values(packed: &Packed, field: &Field, numbers: &mut BTreeSet<u8>) {
    for value in 0..=((1_u32 << field.width) - 1) as u16 {
        let image = packed.with(field, value);
        let refused = hold(&image);
        numbers.insert(refused.map_or(0, |(number, _)| number));
        let Some((number @ (2 | 3 | 11..=13), position)) = refused else { continue };
        // The fields before this one are in order, so that none of them is refused.
        assert!(position as usize >= field.at, "{number} at {position}: {field:?} is {value}");
        if position as usize == field.at {
            assert_eq!(number, number_of(field, value), "{field:?} is {value}");
        }
        if number != 2 {
            hold_rest(&image, (number, position), width_of_refused(packed, field, (number, position)));
        }
    }
}

/// Sets each field of a model of one width or another to each of its values, one at a time: the numbers that come up.
fn hold_fields(spec: &ModelSpec, is_meant: impl Fn(usize) -> bool) -> BTreeSet<u8> {
    let packed = pack_with_fields(spec);
    let mut numbers = BTreeSet::new();
    for field in packed.fields.iter().filter(|field| is_meant(field.width)) {
        hold_values(&packed, field, &mut numbers);
    }
    numbers
}

#[test]
fn every_value_of_every_field_of_model_a_with_a_rule_or_a_slot() {
    let numbers = hold_fields(&model_a(), |width| width < WIDE);
    assert_eq!(numbers, BTreeSet::from([0, 2, 3, 4, 11, 12, 13]));
}

#[test]
fn every_value_of_every_field_of_a_model_with_queries_with_a_rule_or_a_slot() {
    let numbers = hold_fields(&retries(), |width| width < WIDE);
    assert_eq!(numbers, BTreeSet::from([0, 2, 3, 4, 11, 12, 13]));
}

#[test]
fn every_value_of_every_latency_activation_and_utility_of_model_a() {
    assert_eq!(hold_fields(&model_a(), |width| width == WIDE), BTreeSet::from([0]));
}

#[test]
fn every_value_of_every_field_with_a_type_and_a_buffer_that_nothing_uses() {
    // Whatever is wrong with these alone shifts no field that could be refused in their place.
    let mut spec = model_a();
    spec.types.push(0);
    spec.opening.push(ChunkSpec::nil());
    let numbers = hold_fields(&spec, |width| width < SLOT);
    assert_eq!(numbers, BTreeSet::from([0, 2, 3, 4, 11, 12, 13]));
}

#[test]
fn every_cut_is_refused_where_the_first_missing_field_begins() {
    for spec in [model_a(), retries()] {
        let packed = pack_with_fields(&spec);
        for bytes in 0..=packed.bytes.len() {
            let missing = packed.first_missing(bytes).map(|field| (2, field.at as u32));
            assert_eq!(hold(&packed.bytes[..bytes]), missing, "cut to {bytes} bytes");
        }
    }
}

#[test]
fn every_flipped_bit() {
    hold_flipped(&pack_with_fields(&model_a()));
    hold_flipped(&pack_with_fields(&retries()));
}

/// Flips each bit of an image: what is refused is its own field or one after it, and of a pad bit the pad.
fn hold_flipped(packed: &Packed) {
    for bit in 0..8 * packed.bytes.len() {
        let mut image = packed.bytes.clone();
        image[bit / 8] ^= 0x80 >> (bit % 8);
        let refused = hold(&image);
        let Some(field) = packed.fields.iter().rfind(|field| (field.at..field.at + field.width).contains(&bit)) else {
            assert_eq!(refused, Some((4, 0)), "pad bit {bit}");
            continue;
        };
        if let Some((number @ (2 | 3 | 11..=13), position)) = refused {
            assert!(position as usize >= field.at, "{number} at {position}: bit {bit} of {field:?}");
        }
    }
}

#[test]
fn random_damage_is_refused_whatever_follows_it() {
    each_seed(240_000, 3_000, |_, mut rng| {
        let shape = Shape::small(&mut rng);
        let packed = pack_with_fields(&model_of(&mut rng, shape));
        let (_, image) = damage(&mut rng, &packed);
        if let Some(refused @ (3 | 11..=13, _)) = hold(&image) {
            hold_rest(&image, refused, WIDEST);
        }
    });
}

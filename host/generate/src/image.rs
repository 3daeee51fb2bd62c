//! Damaged images.

use jirvuntsag_packing::{Packed, Role};

use crate::rng::Rng;

/// What was done to an image.
#[derive(Clone, Copy, PartialEq, Eq, Debug)]
pub enum Damage {
    /// Cut at a byte.
    Cut(usize),
    /// One bit flipped.
    Flip(usize),
    /// Bytes appended.
    Append(usize),
    /// A field set to another value.
    Field(usize, u16),
    /// Grown to more than 65,536 bytes.
    Oversize,
}

/// A damaged copy of an image and what was done.
pub fn damage(rng: &mut Rng, packed: &Packed) -> (Damage, Vec<u8>) {
    let mut image = packed.bytes.clone();
    let damage = match rng.below(20) {
        0..=4 => Damage::Cut(rng.below(image.len())),
        5..=10 => Damage::Flip(rng.below(8 * image.len())),
        11..=12 => Damage::Append(rng.pick(&[1, 1, 1, 2, 9])),
        13 if rng.chance(30) => Damage::Oversize,
        _ => field_damage(rng, packed),
    };
    match damage {
        Damage::Cut(length) => image.truncate(length),
        Damage::Flip(bit) => image[bit / 8] ^= 0x80 >> (bit % 8),
        Damage::Append(count) => image.resize(image.len() + count, rng.pick(&[0, 0, 1, 255])),
        Damage::Field(field, value) => packed.fields[field].set(&mut image, value),
        Damage::Oversize => image.resize(65_537, 0),
    }
    (damage, image)
}

/// A field and a value for it: any, one more or one less, none, or all ones.
fn field_damage(rng: &mut Rng, packed: &Packed) -> Damage {
    let number = any_field(rng, packed);
    let field = &packed.fields[number];
    let all = ((1_u32 << field.width) - 1) as u16;
    let old = field.get(&packed.bytes);
    let value = match rng.below(6) {
        0 => old.wrapping_add(1) & all,
        1 => old.wrapping_sub(1) & all,
        2 => 0,
        3 => all,
        _ => rng.word() as u16 & all,
    };
    Damage::Field(number, value)
}

/// The number of a field, its role drawn first: so the few fields of a header come up as often as the many terms.
fn any_field(rng: &mut Rng, packed: &Packed) -> usize {
    let mut roles: Vec<Role> = Vec::new();
    for field in &packed.fields {
        if !roles.contains(&field.role) {
            roles.push(field.role);
        }
    }
    let role = rng.pick(&roles);
    let numbers: Vec<usize> = (0..packed.fields.len()).filter(|&number| packed.fields[number].role == role).collect();
    // Few rules have no tests, and there alone a count of queries may not be 0.
    let lone: Vec<usize> = numbers.iter().copied().filter(|&number| counts_alone(packed, number)).collect();
    if !lone.is_empty() && rng.chance(80) {
        return rng.pick(&lone);
    }
    rng.pick(&numbers)
}

/// Whether a field counts the queries of a rule without tests: it follows the number of variables.
fn counts_alone(packed: &Packed, number: usize) -> bool {
    packed.fields[number].role == Role::Queries && packed.fields[number - 1].role == Role::Variables
}

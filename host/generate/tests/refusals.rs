//! Damaged images reach every number with which an image is refused, and every rule of a field that can be broken.

use std::collections::BTreeMap;

use jirvuntsag_generate::{case, damage, each_seed, model, Damage};
use jirvuntsag_packing::{pack_with_fields, Field, Packed, Role};
use jirvuntsag_reference::{Model, Refusal};

/// The rules that a field set to another value can break there: the number, and what is refused. A field of a role that is not
/// here has none.
const RULES: [(u8, &str); 28] = [
    (3, "Version"),
    (3, "Buffers"),
    (3, "Rules"),
    (3, "Facts"),
    (3, "SlotCount"),
    (3, "OpeningType"),
    (3, "FactType"),
    (3, "Tests"),
    (3, "Actions"),
    (3, "Variables"),
    (3, "TestType"),
    (3, "Queries over the buffers"),
    (3, "Queries of none without tests"),
    (3, "QueryKind"),
    (3, "ActionKind"),
    (3, "RequestType"),
    (11, "TestMask"),
    (11, "ActionMask"),
    (12, "TestTerm"),
    (12, "ActionTerm"),
    (12, "a variable in no test"),
    (13, "TestBuffer that is not there"),
    (13, "TestBuffer that does not rise"),
    (13, "QueryBuffer that is not there"),
    (13, "QueryBuffer that does not rise"),
    (13, "ActionBuffer that is not there"),
    (13, "ActionBuffer that does not rise"),
    (13, "ActionKind of a modify untested"),
];

/// Which rule is broken, where one field of an accepted image was set to another value: by the field that stood at the refusal's
/// position, if all up to there has stayed at its place.
fn broken(packed: &Packed, image: &[u8], set: &Field, refusal: Refusal) -> Option<String> {
    let at = refusal.at as usize;
    if at != set.at && !set.role.keeps_places() {
        return None;
    }
    let buffers = packed.fields.iter().find(|field| field.role == Role::Buffers)?.get(image);
    let refused = packed.field_at(at).filter(|field| refusal.number != 12 || field.role.is_term());
    let Some(field) = refused else { return Some("a variable in no test".into()) };
    Some(match (field.role, field.get(image)) {
        (Role::ActionKind, 0) => "ActionKind of a modify untested".into(),
        (Role::Queries, 0) => "Queries of none without tests".into(),
        (Role::Queries, _) => "Queries over the buffers".into(),
        (role @ (Role::TestBuffer | Role::QueryBuffer | Role::ActionBuffer), value) => {
            let why = if value < buffers { "does not rise" } else { "is not there" };
            format!("{role:?} that {why}")
        }
        (role, _) => format!("{role:?}"),
    })
}

#[test]
fn every_rule_of_a_field_is_broken_and_gives_its_number() {
    let mut met: BTreeMap<(u8, String), u32> = BTreeMap::new();
    each_seed(40_000, 12_000, |_, mut rng| {
        let packed = pack_with_fields(&model(&mut rng));
        let (Damage::Field(number, _), image) = damage(&mut rng, &packed) else { return };
        let Err(refusal) = Model::decode(&image) else { return };
        if matches!(refusal.number, 2 | 4) {
            return;
        }
        if let Some(what) = broken(&packed, &image, &packed.fields[number], refusal) {
            *met.entry((refusal.number, what)).or_default() += 1;
        }
    });
    println!("{met:?}");
    let rules: Vec<(u8, &str)> = met.keys().map(|(number, what)| (*number, what.as_str())).collect();
    let mut wanted = RULES;
    wanted.sort_unstable();
    assert_eq!(rules, wanted);
    assert!(met.values().all(|&count| count >= 5), "{met:?}");
}

#[test]
fn every_number_of_a_refused_image_comes_up_in_the_cases() {
    let mut met: BTreeMap<u8, u32> = BTreeMap::new();
    each_seed(1, 20_000, |seed, _| {
        if let Err(refusal) = Model::decode(&case(seed).image) {
            *met.entry(refusal.number).or_default() += 1;
        }
    });
    println!("{met:?}");
    assert_eq!(met.keys().copied().collect::<Vec<u8>>(), [1, 2, 3, 4, 11, 12, 13]);
    assert!(met.values().all(|&count| count >= 20), "{met:?}");
}

//! Everything that the calls of one differential test are handed.

use jirvuntsag_packing::pack_with_fields;
use jirvuntsag_reference::{Model, State};

use crate::image::damage;
use crate::model::model;
use crate::rng::Rng;
use crate::state::{broken_state, mark, state, steps};
use crate::store::store;
use crate::table::{guessed_table, table};

/// Arguments for open, run, refresh and print.
#[derive(Clone, PartialEq, Eq, Debug)]
pub struct Case {
    /// The image, damaged in about one case of four.
    pub image: Vec<u8>,
    /// The state, broken in about one case of ten.
    pub state: State,
    /// The table, fresh in less than half of the cases.
    pub table: Vec<u16>,
    /// The mark for a refresh.
    pub mark: u16,
    /// The steps for a run.
    pub steps: u16,
    /// The words of a store that is lent to a run, unfit in about one case of three.
    pub store: Vec<u16>,
}

/// The case of a seed.
pub fn case(seed: u64) -> Case {
    let mut rng = Rng::new(seed);
    let spec = model(&mut rng);
    let packed = pack_with_fields(&spec);
    let image = if rng.chance(25) { damage(&mut rng, &packed).1 } else { packed.bytes };
    let state = if rng.chance(10) { broken_state(&mut rng, &spec).1 } else { state(&mut rng, &spec) };
    let table = match Model::decode(&image) {
        Ok(model) => table(&mut rng, &spec, &model, &state).1,
        Err(_) => guessed_table(&mut rng, &spec),
    };
    let mark = mark(&mut rng, spec.opening.len());
    let steps = steps(&mut rng);
    let store = store(&mut rng, &spec, &state).1;
    Case { image, state, table, mark, steps, store }
}

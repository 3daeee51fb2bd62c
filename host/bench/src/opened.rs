//! A model opened by both engines.

use std::hint::black_box;

use jirvuntsag_proved as proved;
use jirvuntsag_reference as reference;

use crate::models::Measured;

/// A model opened by both engines, which agree on it.
pub struct Opened<'a> {
    /// The model.
    pub model: &'a Measured,
    /// It, decoded by the reference engine.
    pub decoded: reference::Model,
    /// The opening state for the proved library.
    pub proved: proved::State,
    /// The opening state for the reference engine.
    pub reference: reference::State,
    /// The opening table.
    pub fresh: Vec<u16>,
    /// Steps made of those asked: all.
    pub made: u16,
}

impl<'a> Opened<'a> {
    /// Opens a model and runs it on both engines, one step and all, so that nothing is measured that is not the same.
    pub fn new(model: &'a Measured) -> Opened<'a> {
        let opened = Opened::unlent(model);
        opened.agree(1);
        opened.agree(model.steps);
        opened
    }

    /// Opens a model that makes its steps only where a store is lent.
    pub fn unlent(model: &'a Measured) -> Opened<'a> {
        let decoded = reference::Model::decode(&model.image).expect("a valid model");
        let mut fresh = vec![0; decoded.table_len()];
        let (_, _, state) = reference::open(&model.image, &mut fresh);
        let mut table = vec![0; fresh.len()];
        let (_, proved) = proved::calls::open(&model.image, &mut table);
        assert!(table == fresh, "{}", model.name);
        Opened { model, decoded, proved, reference: state, fresh, made: model.steps }
    }

    /// Runs so many steps on both engines, kept and fresh, which must make them all, and leave the same.
    fn agree(&self, steps: u16) {
        let (image, name) = (&self.model.image, &self.model.name);
        let mut tables = [self.fresh.clone(), self.fresh.clone()];
        let kept = proved::calls::run(image, &self.proved, &mut tables[0], steps);
        let there = reference::run(image, self.reference, &mut tables[1], steps);
        let (number, after, made) = kept;
        let here = (number.number(), number.position(), after.clock, made);
        assert_eq!(here, (there.0, there.1, there.2.clock, there.3), "{name}");
        assert!(tables[0] == tables[1] && made == steps, "{name}");
        assert_eq!(proved::calls::run_fresh(image, &self.proved, steps), kept, "{name}");
        assert_eq!(reference::run_fresh(image, self.reference, steps), there, "{name}");
    }

    /// The steps of the measured run, by the reference engine.
    pub fn events(&self) -> Vec<reference::Event> {
        self.decoded.trace(self.reference, &mut self.fresh.clone(), self.model.steps).2
    }
}

/// A run by the proved library, from the opening state and table. Here and below each call is handed the packed image.
pub fn by_proved<'a>(opened: &'a Opened<'a>, steps: u16) -> impl FnMut() + 'a {
    let mut table = opened.fresh.clone();
    move || {
        table.copy_from_slice(&opened.fresh);
        black_box(proved::calls::run(black_box(&opened.model.image), &opened.proved, &mut table, steps));
    }
}

/// The same by the reference engine.
pub fn by_reference<'a>(opened: &'a Opened<'a>, steps: u16) -> impl FnMut() + 'a {
    let mut table = opened.fresh.clone();
    move || {
        table.copy_from_slice(&opened.fresh);
        black_box(reference::run(black_box(&opened.model.image), opened.reference, &mut table, steps));
    }
}

/// A fresh run by the proved library, from the opening state.
pub fn fresh_by_proved<'a>(opened: &'a Opened<'a>, steps: u16) -> impl FnMut() + 'a {
    move || {
        black_box(proved::calls::run_fresh(black_box(&opened.model.image), &opened.proved, steps));
    }
}

/// The same by the reference engine.
pub fn fresh_by_reference<'a>(opened: &'a Opened<'a>, steps: u16) -> impl FnMut() + 'a {
    move || {
        black_box(reference::run_fresh(black_box(&opened.model.image), opened.reference, steps));
    }
}

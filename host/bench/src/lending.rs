//! What a lent store costs: where nothing is learned, beside the same calls with none, and where a run learns, beside the reference
//! engine.

use std::hint::black_box;

use jirvuntsag_proved::calls;
use jirvuntsag_reference as reference;
use jirvuntsag_reference::STORE_WORDS;

use crate::models::Measured;
use crate::opened::{by_proved, fresh_by_proved, Opened};
use crate::progress::Progress;
use crate::timing::{Spread, Times};

/// What a run may take at most with an empty store over what it takes with none, where nothing is learned.
const MOST: f64 = 1.1;

/// A store in which nothing is.
fn empty() -> Vec<u16> {
    vec![0; STORE_WORDS]
}

/// A run by the proved library that is lent an empty store, from the opening state and table.
fn lent_by_proved<'a>(opened: &'a Opened<'a>, steps: u16) -> impl FnMut() + 'a {
    let (mut table, mut store) = (opened.fresh.clone(), empty());
    move || {
        table.copy_from_slice(&opened.fresh);
        store[0] = 0;
        let (image, lent) = (black_box(&opened.model.image), Some(&mut store[..]));
        black_box(calls::run_lent(image, &opened.proved, &mut table, steps, lent));
    }
}

/// The same by the reference engine.
fn lent_by_reference<'a>(opened: &'a Opened<'a>, steps: u16) -> impl FnMut() + 'a {
    let (mut table, mut store) = (opened.fresh.clone(), empty());
    move || {
        table.copy_from_slice(&opened.fresh);
        store[0] = 0;
        let (image, lent) = (black_box(&opened.model.image), Some(&mut store[..]));
        black_box(reference::run_lent(image, opened.reference, &mut table, steps, lent));
    }
}

/// A fresh run by the proved library that is lent an empty store, from the opening state.
fn fresh_lent_by_proved<'a>(opened: &'a Opened<'a>, steps: u16) -> impl FnMut() + 'a {
    let mut store = empty();
    move || {
        store[0] = 0;
        let (image, lent) = (black_box(&opened.model.image), Some(&mut store[..]));
        black_box(calls::run_fresh_lent(image, &opened.proved, steps, lent));
    }
}

/// The same by the reference engine.
fn fresh_lent_by_reference<'a>(opened: &'a Opened<'a>, steps: u16) -> impl FnMut() + 'a {
    let mut store = empty();
    move || {
        store[0] = 0;
        let (image, lent) = (black_box(&opened.model.image), Some(&mut store[..]));
        black_box(reference::run_fresh_lent(image, opened.reference, steps, lent));
    }
}

/// How many facts a model's run learns; both engines, kept and fresh, must make all steps and leave the same.
fn learned(opened: &Opened) -> u16 {
    let (image, steps, name) = (&opened.model.image, opened.model.steps, &opened.model.name);
    let mut stores = [(); 4].map(|()| empty());
    let [kept, fresh, there, fresh_there] = &mut stores;
    let told = calls::run_lent(image, &opened.proved, &mut opened.fresh.clone(), steps, Some(kept));
    assert_eq!(calls::run_fresh_lent(image, &opened.proved, steps, Some(fresh)), told, "{name}");
    let ran = reference::run_lent(image, opened.reference, &mut opened.fresh.clone(), steps, Some(there));
    assert_eq!(reference::run_fresh_lent(image, opened.reference, steps, Some(fresh_there)), ran, "{name}");
    assert_eq!((told.0.number(), told.1.clock, told.2), (ran.0, ran.2.clock, ran.3), "{name}");
    assert!((ran.0, ran.3) == (0, steps) && stores.iter().all(|store| *store == stores[0]), "{name}");
    stores[0][0]
}

/// Calls with an empty store over those with none: of one step and of all, kept and fresh.
fn over_none(opened: &Opened) -> [Spread; 4] {
    let steps = opened.model.steps;
    let times = Times::take(&mut [
        &mut lent_by_proved(opened, 1),
        &mut by_proved(opened, 1),
        &mut fresh_lent_by_proved(opened, 1),
        &mut fresh_by_proved(opened, 1),
        &mut lent_by_proved(opened, steps),
        &mut by_proved(opened, steps),
        &mut fresh_lent_by_proved(opened, steps),
        &mut fresh_by_proved(opened, steps),
    ]);
    [0, 2, 4, 6].map(|way| times.ratio(way, way + 1))
}

/// Where a store that is lent costs more than it may.
fn dear(ratios: &[(String, f64)]) -> String {
    let over: Vec<String> =
        ratios.iter().filter(|(_, ratio)| *ratio > MOST).map(|(name, ratio)| format!("{name} ({ratio:.2})")).collect();
    match over.len() {
        0 => format!("Nowhere more than {MOST} times the call with none."),
        _ => format!("More than {MOST} times the call with none: {}.", over.join("; ")),
    }
}

/// The table of a store that is lent where nothing is learned.
pub fn print_lent(all: &[Opened], progress: &mut Progress) {
    println!("\n## A store that is lent, where nothing is learned\n");
    println!("| model, lent / not lent | one step | one step, fresh | steps | all steps | all steps, fresh |");
    println!("|---|---|---|---|---|---|");
    let mut ratios = Vec::new();
    for one in all {
        progress.next("lending a store", one.model);
        assert_eq!(learned(one), 0, "{} learns", one.model.name);
        let (spreads, name, steps) = (over_none(one), &one.model.name, one.model.steps);
        let [first, first_fresh, run, fresh] = spreads.map(|spread| spread.shown(2));
        println!("| {name} | {first} | {first_fresh} | {steps} | {run} | {fresh} |");
        let parts = ["one step", "one step, fresh", "all steps", "all steps, fresh"];
        ratios.extend(parts.iter().zip(spreads).map(|(part, spread)| (format!("{name}, {part}"), spread.median)));
    }
    println!("\n{}", dear(&ratios));
}

/// The table of runs that learn.
pub fn print_learning(models: &[Measured], progress: &mut Progress) {
    println!("\n## Runs that learn\n");
    println!("| model | steps | learned | run, ns | proved / reference | fresh run, ns | proved / reference |");
    println!("|---|---|---|---|---|---|---|");
    for model in models {
        progress.next("learning", model);
        let opened = Opened::unlent(model);
        let steps = model.steps;
        let times = Times::take(&mut [
            &mut lent_by_proved(&opened, steps),
            &mut lent_by_reference(&opened, steps),
            &mut fresh_lent_by_proved(&opened, steps),
            &mut fresh_lent_by_reference(&opened, steps),
        ]);
        println!(
            "| {} | {steps} | {} | {:.0} | {} | {:.0} | {} |",
            model.name,
            learned(&opened),
            times.of(0).median,
            times.ratio(0, 1).shown(2),
            times.of(2).median,
            times.ratio(2, 3).shown(2),
        );
    }
}

#[cfg(test)]
mod tests {
    use super::{dear, learned};
    use crate::models::{learning, models};
    use crate::opened::Opened;

    #[test]
    fn what_costs_more_than_a_tenth_is_named() {
        let ratios = [("cheap", 1.05), ("dear", 1.2)].map(|(name, ratio)| (name.to_string(), ratio));
        assert_eq!(dear(&ratios), "More than 1.1 times the call with none: dear (1.20).");
        assert_eq!(dear(&ratios[..1]), "Nowhere more than 1.1 times the call with none.");
    }

    #[test]
    fn the_models_learn_what_they_are_measured_for() {
        assert!(models().iter().all(|model| learned(&Opened::new(model)) == 0));
        let facts: Vec<u16> = learning().iter().map(|model| learned(&Opened::unlent(model))).collect();
        assert_eq!(facts, [0, 250, 250]);
    }
}

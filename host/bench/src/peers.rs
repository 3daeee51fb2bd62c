//! The proved library beside CLIPS, as tables.

use std::cell::RefCell;

use jirvuntsag_reference::Model;

use crate::clips::{expresses, most_firings, program};
use crate::engine::{version, Clips, Failure};
use crate::figures::{of_runs, of_whole, ratios, reached, timed_columns, times, Figure, COLUMNS};
use crate::models::{models, Measured};
use crate::opened::{by_proved, Opened};
use crate::progress::Progress;
use crate::stored::Stored;
use crate::timing::{telling, Telling, Times};
use crate::traces::{difference, told};

/// Steps of the short run that is taken away from a model's own, so that what is left is that of steps alone. A model whose own
/// run is no longer is too short for the clock of CLIPS, which counts in microseconds.
const SHORT: u16 = 100;

/// What the table says before it: it is set off from the tables that may be printed before, as Markdown wants.
const MEASURED: &str = "every step of its trace is held to ours. Its times are by its own clock, ours by the wall's. A ratio is
CLIPS over ours, the median (and the quartiles) over rounds in which all take turns: above 1 ours is the quicker.

- whole: in CLIPS loading the program from a file, as text or as its own binary image, `(reset)` and `(run)`; ours reading the
  packed image from a file, opening and running it.
- run call: in CLIPS `(run)` alone, with the program loaded and reset before; ours a run call, which reads the image.
- a step alone: a run less one of the first 100 steps, in both.

A run of one step is too short for the clock of CLIPS, but for the whole. A model whose rules ask is left out.";

/// Runs the models in CLIPS, holds each step to ours, and prints what both take. Without CLIPS it says so.
pub fn print_peers() -> Result<(), Failure> {
    let Some(version) = version()? else {
        println!("\nCLIPS is not on this machine (there is no program `clips`), so nothing is compared with it.");
        return Ok(());
    };
    let models: Vec<Measured> = models().into_iter().filter(is_expressed).collect();
    let mut progress = Progress::of(models.len());
    println!("\n{version}: {MEASURED}\n");
    println!(
        "| model | steps | firings in CLIPS | {} |\n|---|---|---|{}",
        COLUMNS.join(" | "),
        "---|".repeat(COLUMNS.len())
    );
    let mut all = Vec::new();
    for model in &models {
        progress.next("CLIPS", model);
        let (firings, figures) = measured(model).map_err(|failure| format!("{}: {failure}", model.name))?;
        println!("| {} | {} | {firings} | {} |", model.name, model.steps, ratios(&figures));
        all.push(figures);
    }
    println!("\n{}\n\nThe times, CLIPS / ours:\n", reached(&all));
    println!("| model | {} |\n|---|{}", timed_columns(), "---|".repeat(COLUMNS.len()));
    models.iter().zip(&all).for_each(|(model, figures)| println!("| {} | {} |", model.name, times(figures)));
    Ok(())
}

/// Whether a model can be written for CLIPS.
fn is_expressed(model: &Measured) -> bool {
    Model::decode(&model.image).is_ok_and(|decoded| expresses(&decoded))
}

/// A model in both: the firings of its run in CLIPS, and the figures.
fn measured(model: &Measured) -> Result<(u32, Vec<Figure>), Failure> {
    let short = (model.steps > SHORT).then(|| model.with_steps(SHORT));
    let (opened, short) = (Opened::new(model), short.as_ref().map(Opened::new));
    let stored = Stored::new(&opened)?;
    let clips = RefCell::new(Clips::start(stored.folder())?);
    clips.borrow_mut().take(&program(&opened.decoded))?;
    let firings = same_steps(&opened, &mut clips.borrow_mut())?;
    let mut ways = whole_ways(&opened, &stored)?;
    if let Some(short) = &short {
        ways.extend(run_ways(&opened, &clips)?);
        ways.extend(run_ways(short, &clips)?);
    }
    let times = Times::told(&mut ways)?;
    let mut figures = of_whole(&times);
    if short.is_some() {
        figures.extend(of_runs(&times, model.steps - SHORT));
    }
    Ok((firings, figures))
}

/// A run alone: in CLIPS, which has the program, and then ours.
fn run_ways<'a>(opened: &'a Opened, clips: &'a RefCell<Clips>) -> Result<Vec<Telling<'a, Failure>>, Failure> {
    let firings = same_steps(opened, &mut clips.borrow_mut())?;
    let theirs = Box::new(move || clips.borrow_mut().timed(firings));
    Ok(vec![theirs, telling(by_proved(opened, opened.model.steps))])
}

/// From the stored model to the last step: in CLIPS from text, ours, and in CLIPS from a binary image.
fn whole_ways<'a>(opened: &Opened, stored: &'a Stored) -> Result<Vec<Telling<'a, Failure>>, Failure> {
    let theirs = |load: String| -> Result<Telling<'a, Failure>, Failure> {
        let mut clips = Clips::start(stored.folder())?;
        clips.timed_whole(&load, 1)?;
        let firings = same_steps(opened, &mut clips)?;
        Ok(Box::new(move || clips.timed_whole(&load, firings)))
    };
    let ours = telling(stored.by_proved(opened.model.steps));
    Ok(vec![theirs(stored.load_text())?, ours, theirs(stored.load_binary())?])
}

/// Holds every step in CLIPS to ours; gives the firings that it took.
fn same_steps(opened: &Opened, clips: &mut Clips) -> Result<u32, Failure> {
    let steps = opened.model.steps;
    let told = told(&clips.trace(most_firings(&opened.decoded, steps))?, steps);
    match difference(&opened.events(), &told.events) {
        None => Ok(told.firings),
        Some(difference) => Err(difference.into()),
    }
}

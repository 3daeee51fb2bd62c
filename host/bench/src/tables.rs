//! The proved library beside the reference engine, as tables.

use std::hint::black_box;

use jirvuntsag_proved as proved;
use jirvuntsag_reference as reference;

use crate::growth::print_growing;
use crate::keeping::print_kept;
use crate::lending::{print_learning, print_lent};
use crate::models::{growing, learning, models, WIDTHS};
use crate::opened::{by_proved, by_reference, Opened};
use crate::progress::Progress;
use crate::reading::{print_one_step, print_reading};
use crate::timing::Times;

/// Opening and running, proved beside reference.
fn beside(opened: &Opened) -> String {
    let image = &opened.model.image;
    let mut tables = [(); 2].map(|()| opened.fresh.clone());
    let [open_proved, open_reference] = &mut tables;
    let times = Times::take(&mut [
        &mut || {
            black_box(proved::calls::open(black_box(image), open_proved));
        },
        &mut || {
            black_box(reference::open(black_box(image), open_reference));
        },
        &mut by_proved(opened, opened.model.steps),
        &mut by_reference(opened, opened.model.steps),
    ]);
    format!(
        "| {} | {} | {:.0} | {} | {} | {:.0} | {} |",
        opened.model.name,
        image.len(),
        times.of(0).median,
        times.ratio(0, 1).shown(2),
        opened.made,
        times.of(2).median,
        times.ratio(2, 3).shown(2),
    )
}

/// The table of opening and running.
fn print_beside(all: &[Opened], progress: &mut Progress) {
    println!("| model | bytes | open, ns | proved / reference | steps | run, ns | proved / reference |");
    println!("|---|---|---|---|---|---|---|");
    for one in all {
        progress.next("opening and running", one.model);
        println!("{}", beside(one));
    }
}

/// Rows of the tables of both fetches, where these are linked.
fn fetching_rows(models: usize) -> usize {
    if cfg!(feature = "fetches") {
        WIDTHS.len() + models
    } else {
        0
    }
}

/// Measures and prints the tables.
pub fn print_tables() {
    let (models, growing, learning) = (models(), growing(), learning());
    let all: Vec<Opened> = models.iter().map(Opened::new).collect();
    let grown = growing.iter().map(Vec::len).sum::<usize>();
    let mut progress = Progress::of(5 * all.len() + grown + learning.len() + fetching_rows(all.len()));
    print_beside(&all, &mut progress);
    print_kept(&all, &mut progress);
    print_growing(&growing, &mut progress);
    print_reading(&all, &mut progress);
    print_one_step(&all, &mut progress);
    print_lent(&all, &mut progress);
    print_learning(&learning, &mut progress);
    #[cfg(feature = "fetches")]
    crate::fetching::print_fetching(&all, &mut progress);
}

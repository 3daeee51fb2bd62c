//! What a call costs that makes no step, and one that makes a single one.

use std::hint::black_box;

use jirvuntsag_proved as proved;
use jirvuntsag_reference as reference;

use crate::opened::{by_proved, by_reference, Opened};
use crate::progress::Progress;
use crate::timing::Times;

/// Nanoseconds of our way and of the reference engine's, and their ratio, as the cells of a row.
fn cells(times: &Times) -> String {
    format!("{:.0} | {:.0} | {}", times.of(0).median, times.of(1).median, times.ratio(0, 1).shown(2))
}

/// The length of the table, for which the image is read and laid out, beside the reference engine's decoding.
fn read(opened: &Opened) -> String {
    let image = &opened.model.image;
    assert_eq!(proved::calls::table_length(image), Ok(opened.decoded.table_len()), "{}", opened.model.name);
    cells(&Times::take(&mut [
        &mut || {
            black_box(proved::calls::table_length(black_box(image))).ok();
        },
        &mut || {
            black_box(reference::Model::decode(black_box(image))).ok();
        },
    ]))
}

/// The table of reading and laying out.
pub fn print_reading(all: &[Opened], progress: &mut Progress) {
    println!("\n## Reading and laying out\n");
    println!("| model | bytes | table length, ns | reference decodes, ns | proved / reference |");
    println!("|---|---|---|---|---|");
    for one in all {
        progress.next("reading and laying out", one.model);
        println!("| {} | {} | {} |", one.model.name, one.model.image.len(), read(one));
    }
}

/// The table of kept calls of one step.
pub fn print_one_step(all: &[Opened], progress: &mut Progress) {
    println!("\n## Calls of one step\n");
    println!("| model | run of one step, ns | reference, ns | proved / reference |");
    println!("|---|---|---|---|");
    for one in all {
        progress.next("one step", one.model);
        let times = Times::take(&mut [&mut by_proved(one, 1), &mut by_reference(one, 1)]);
        println!("| {} | {} |", one.model.name, cells(&times));
    }
}

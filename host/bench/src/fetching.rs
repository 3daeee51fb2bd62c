//! A fetch of one bit at a time beside the library's own, of three bytes: field by field, and in whole openings.

use std::hint::black_box;

use jirvuntsag_packing::{largest, pack};
use jirvuntsag_proved::{bench, calls};

use crate::models::WIDTHS;
use crate::opened::Opened;
use crate::progress::Progress;
use crate::timing::Times;

/// Holds both fetches to each other at every bit of an image and past its end, for all widths, and two that no field has.
fn agree_on_fields(image: &[u8]) {
    for width in 0..=17 {
        for at in 0..8 * image.len() + 8 {
            let [three, singly] = [bench::field, bench::field_singly].map(|fetch| fetch(image, at, width));
            assert_eq!(three, singly, "{width} bits at bit {at}");
        }
    }
}

/// All fields of a width that an image has, one after the other.
fn fields<'a>(image: &'a [u8], width: usize, fetch: impl Fn(&[u8], usize, usize) -> u32 + 'a) -> impl FnMut() + 'a {
    move || {
        let positions = (0..=8 * image.len() - width).step_by(width);
        black_box(positions.map(|at| fetch(black_box(image), at, width)).fold(0, u32::wrapping_add));
    }
}

/// The fetch of a field of a width, by either way.
fn field_row(image: &[u8], width: usize) -> String {
    let times =
        Times::take(&mut [&mut fields(image, width, bench::field), &mut fields(image, width, bench::field_singly)]);
    let fetches = (8 * image.len() / width) as f64;
    let [three, singly] = [0, 1].map(|way| times.of(way).median / fetches);
    format!("| {width} | {three:.1} | {singly:.1} | {} |", times.ratio(1, 0).shown(2))
}

/// Holds an opening by either way to the library's own, of any image: number, position, state and table.
fn agree_on_opening(image: &[u8], words: usize) {
    let mut tables = [(); 3].map(|()| vec![7; words]);
    let [there, three, singly] = &mut tables;
    let expected = calls::open(image, there);
    assert_eq!((bench::open(image, three), &*three), (expected, &*there));
    assert_eq!((bench::open_singly(image, singly), &*singly), (expected, &*there));
}

/// An opening by either way, on which both agree with the library.
fn open_row(opened: &Opened) -> String {
    let (image, name) = (&opened.model.image, &opened.model.name);
    agree_on_opening(image, opened.fresh.len());
    let [mut three, mut singly] = [(); 2].map(|()| opened.fresh.clone());
    let times = Times::take(&mut [
        &mut || {
            black_box(bench::open(black_box(image), &mut three));
        },
        &mut || {
            black_box(bench::open_singly(black_box(image), &mut singly));
        },
    ]);
    let [three, singly] = [0, 1].map(|way| times.of(way).median);
    format!("| {name} | {} | {three:.0} | {singly:.0} | {} |", image.len(), times.ratio(1, 0).shown(2))
}

/// The tables of both fetches.
pub fn print_fetching(all: &[Opened], progress: &mut Progress) {
    println!("\n## Bit by bit against three bytes\n");
    println!("| bits of a field | three bytes, ns | bit by bit, ns | bit by bit / three bytes |");
    println!("|---|---|---|---|");
    let image = pack(&largest());
    agree_on_fields(&image);
    for width in WIDTHS {
        progress.tell(&format!("fetching fields of {width} bits"));
        println!("{}", field_row(&image, width));
    }
    println!("\n| model | bytes | open, three bytes, ns | open, bit by bit, ns | bit by bit / three bytes |");
    println!("|---|---|---|---|---|");
    for one in all {
        progress.next("opening by either fetch", one.model);
        println!("{}", open_row(one));
    }
}

#[cfg(test)]
mod tests {
    use super::*;
    use crate::models::models;
    use jirvuntsag_packing::model_a;

    #[test]
    fn both_fetches_agree_at_every_bit_and_past_the_end() {
        agree_on_fields(&pack(&largest()));
        for length in 0..4 {
            agree_on_fields(&[0xa5, 0x3c, 0xff][..length]);
        }
    }

    #[test]
    fn openings_by_either_fetch_are_the_librarys() {
        for model in models() {
            let opened = Opened::new(&model);
            agree_on_opening(&model.image, opened.fresh.len());
        }
    }

    #[test]
    fn cut_and_damaged_images_are_refused_alike() {
        let image = pack(&model_a());
        let words = Opened::new(&models()[0]).fresh.len();
        for end in 0..=image.len() {
            agree_on_opening(&image[..end], words);
        }
        for bit in 0..8 * image.len() {
            let mut damaged = image.clone();
            damaged[bit / 8] ^= 0x80 >> (bit % 8);
            agree_on_opening(&damaged, words);
        }
    }
}

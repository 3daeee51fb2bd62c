//! Writes calls for the drivers in `host/c` to standard output: `cargo run --example cases -- COUNT [SEED]`.
//!
//! A case is, in little-endian words of 32 bits: the image's length and its bytes; the 89 words of a state; the table's
//! length and its words of 16 bits; the mark; the steps; the store's length and its words of 16 bits. The first case is
//! model A from its opening, the second the largest image; then come each cut and each flipped bit of model A and of a model
//! with queries, and COUNT random cases.

use std::io::{self, Write};
use std::process::ExitCode;

use jirvuntsag_generate::{case, overfill, state_words, Case, Rng};
use jirvuntsag_packing::{largest, largest_asking, model_a, pack, retries};
use jirvuntsag_reference::{open, table_len, STORE_WORDS};

const USAGE: &str = "usage: cases COUNT [SEED]
Writes model A, the largest image, each cut and flipped bit of model A and of a model with queries, and COUNT random cases
from SEED (1) on, as calls for the drivers in host/c, to standard output.";
/// Most steps of a run, so that a slow checker ends.
const STEPS: u16 = 300;

/// An image from its opening.
fn opening(image: Vec<u8>) -> Case {
    let mut table = vec![0; table_len(&image).2];
    let (_, _, state) = open(&image, &mut table);
    Case { image, state, table, mark: 1, steps: STEPS, store: vec![0; STORE_WORDS] }
}

/// The words of a case's state, one of them too large for its field in about one case of ten.
fn words(rng: &mut Rng, case: &Case) -> Vec<u32> {
    let mut words = state_words(&case.state);
    if rng.chance(10) {
        overfill(rng, &mut words);
    }
    words
}

/// The bytes of a case.
fn bytes(rng: &mut Rng, case: &Case) -> Vec<u8> {
    let word = |word: usize| (word as u32).to_le_bytes();
    let mut bytes = [&word(case.image.len())[..], &case.image].concat();
    bytes.extend(words(rng, case).into_iter().flat_map(u32::to_le_bytes));
    bytes.extend(word(case.table.len()));
    bytes.extend(case.table.iter().flat_map(|word| word.to_le_bytes()));
    bytes.extend(word(usize::from(case.mark)));
    bytes.extend(word(usize::from(case.steps.min(STEPS))));
    bytes.extend(word(case.store.len()));
    bytes.extend(case.store.iter().flat_map(|word| word.to_le_bytes()));
    bytes
}

/// Each cut and each flipped bit of an image.
fn cut_and_flipped(image: &[u8]) -> Vec<Vec<u8>> {
    let cuts = (0..image.len()).map(|bytes| image[..bytes].to_vec());
    let flips = (0..8 * image.len()).map(|bit| {
        let mut flipped = image.to_vec();
        flipped[bit / 8] ^= 0x80 >> (bit % 8);
        flipped
    });
    cuts.chain(flips).collect()
}

/// Model A and the largest image, a model with queries and the largest with them, and each cut and each flipped bit of model A and
/// of that model.
fn fixed_cases() -> Vec<Case> {
    let [plain, asking] = [model_a(), retries()].map(|spec| pack(&spec));
    let mut images = vec![plain.clone(), pack(&largest()), asking.clone(), pack(&largest_asking())];
    images.extend(cut_and_flipped(&plain));
    images.extend(cut_and_flipped(&asking));
    images.into_iter().map(opening).collect()
}

/// All cases to standard output.
fn write_all(count: u64, seed: u64) -> io::Result<()> {
    let mut rng = Rng::new(seed);
    let mut out = io::BufWriter::new(io::stdout().lock());
    for fixed in fixed_cases() {
        out.write_all(&bytes(&mut Rng::new(0), &fixed))?;
    }
    for i in 0..count {
        out.write_all(&bytes(&mut rng, &case(seed.wrapping_add(i))))?;
    }
    out.flush()
}

fn main() -> ExitCode {
    let arguments: Vec<String> = std::env::args().skip(1).collect();
    if arguments.iter().any(|argument| argument == "-h" || argument == "--help") {
        println!("{USAGE}");
        return ExitCode::SUCCESS;
    }
    let numbers: Result<Vec<u64>, _> = arguments.iter().map(|argument| argument.parse()).collect();
    let (count, seed) = match numbers.as_deref() {
        Ok([count]) => (*count, 1),
        Ok([count, seed]) => (*count, *seed),
        _ => {
            eprintln!("{USAGE}");
            return ExitCode::from(2);
        }
    };
    match write_all(count, seed) {
        Ok(()) => ExitCode::SUCCESS,
        Err(error) => {
            eprintln!("cases: standard output: {error}");
            ExitCode::from(2)
        }
    }
}

//! Seeds of tests: told at the start and on failure, and taken from the environment to try one again.

use std::io::Write;

use crate::rng::Rng;

/// The environment variable that sets the first seed.
pub const SEED_VARIABLE: &str = "JIRVUNTSAG_SEED";
/// The environment variable that says how many times as many seeds are tried.
pub const TIMES_VARIABLE: &str = "JIRVUNTSAG_TIMES";

/// Prints the seed if the case panics.
struct Told(u64);

impl Drop for Told {
    fn drop(&mut self) {
        if std::thread::panicking() {
            eprintln!("failed with {SEED_VARIABLE}={}", self.0);
        }
    }
}

/// Calls `test` with `count` seeds in a row, from the environment's seed or from `first`, or so many times as many as it asks.
pub fn each_seed(first: u64, count: u64, mut test: impl FnMut(u64, Rng)) {
    let first = asked(SEED_VARIABLE).unwrap_or(first);
    let count = count.saturating_mul(asked(TIMES_VARIABLE).unwrap_or(1));
    tell_start(first, count);
    for i in 0..count {
        let seed = first.wrapping_add(i);
        let _told = Told(seed);
        test(seed, Rng::new(seed));
    }
}

/// Says where a test starts, past the test harness, which hides what a passing test prints.
fn tell_start(first: u64, count: u64) {
    let thread = std::thread::current();
    let name = thread.name().unwrap_or("seeds");
    let line = format!("{name}: {count} seeds from {SEED_VARIABLE}={first}\n");
    // One write, since other tests write too; a closed standard error is no reason to stop.
    let _ = std::io::stderr().write_all(line.as_bytes());
}

/// The number that an environment variable gives, decimal or with 0x.
fn asked(variable: &str) -> Option<u64> {
    let text = std::env::var(variable).ok()?;
    let number = match text.strip_prefix("0x") {
        Some(hex) => u64::from_str_radix(hex, 16),
        None => text.parse(),
    };
    Some(number.unwrap_or_else(|_| panic!("{variable} is not a number: {text}")))
}

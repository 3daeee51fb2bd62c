//! Random queries of a rule.

use jirvuntsag_packing::{QuerySpec, TestSpec};

use crate::rng::Rng;

/// A query of a buffer of any kind: a tested buffer is seldom asked what never holds beside its test.
pub(crate) fn query(rng: &mut Rng, buffer: u8, tests: &[TestSpec]) -> QuerySpec {
    let kinds: [fn(u8) -> QuerySpec; 4] = match tests.iter().find(|test| test.buffer == buffer) {
        _ if rng.chance(10) => [QuerySpec::busy, QuerySpec::free, QuerySpec::error, QuerySpec::error],
        None => [QuerySpec::busy, QuerySpec::busy, QuerySpec::free, QuerySpec::error],
        Some(test) if test.isa == 0 => [QuerySpec::free, QuerySpec::free, QuerySpec::error, QuerySpec::error],
        Some(_) => [QuerySpec::free; 4],
    };
    rng.pick(&kinds)(buffer)
}

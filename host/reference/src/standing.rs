//! What queries see of a buffer (request 2026-06).

use crate::parts::Ask;

/// How a buffer stands: pending, visible, or visible after a request that found no fact.
#[derive(Clone, Copy)]
pub(crate) enum Standing {
    Busy,
    Free,
    Failed,
}

/// How many ways to stand there are.
pub(crate) const STANDINGS: usize = 3;

impl Standing {
    /// How a buffer with this delay and this error flag stands.
    #[inline]
    pub fn of(delay: u16, error: bool) -> Standing {
        match (delay, error) {
            (0, false) => Standing::Free,
            (0, true) => Standing::Failed,
            _ => Standing::Busy,
        }
    }

    /// The ways to stand of which a query holds.
    pub fn answering(asks: Ask) -> &'static [Standing] {
        match asks {
            Ask::Busy => &[Standing::Busy],
            Ask::Free => &[Standing::Free, Standing::Failed],
            Ask::Error => &[Standing::Failed],
        }
    }
}

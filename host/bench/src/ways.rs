//! Ways of running models, gathered to be timed in turn.

use crate::opened::Opened;
use crate::timing::{Span, Times};

/// Ways that are timed in turn.
#[derive(Default)]
pub struct Ways<'a> {
    all: Vec<Box<dyn FnMut() + 'a>>,
}

impl<'a> Ways<'a> {
    /// Adds a way; gives where it stands.
    pub fn add(&mut self, way: impl FnMut() + 'a) -> usize {
        self.all.push(Box::new(way));
        self.all.len() - 1
    }

    /// Adds what a step of a run is measured by: the run, and its first steps where these are measured apart.
    pub fn span<W: FnMut() + 'a>(
        &mut self,
        run: impl Fn(&'a Opened<'a>, u16) -> W,
        opened: &'a Opened<'a>,
        steps: u16,
    ) -> Span {
        let first = opened.model.apart(steps);
        let whole = self.add(run(opened, steps));
        let less = (first > 0).then(|| self.add(run(opened, first)));
        Span { run: whole, less, steps: steps - first }
    }

    /// Times them.
    pub fn take(mut self) -> Times {
        Times::take(&mut self.all.iter_mut().map(|way| way as &mut dyn FnMut()).collect::<Vec<_>>())
    }
}

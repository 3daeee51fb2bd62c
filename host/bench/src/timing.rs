//! Times of several ways to do the same, taken in turn, so that what else the machine does falls on all of them.

use std::time::Instant;

/// Nanoseconds that one way gets in a round, or one call if that takes longer: short, so that few slices are interrupted.
const SLICE: f64 = 4e5;
/// Nanoseconds for all rounds, as far as the least number of rounds allows.
const BUDGET: f64 = 1.5e9;
/// The same for ways that tell what they took, of which there are more, and longer ones.
const TOLD_BUDGET: f64 = 3e9;
/// Fewest and most rounds, in each of which every way is timed once.
const ROUNDS: (f64, f64) = (15.0, 301.0);

/// A way that tells itself how many nanoseconds it took, or why it could not be done.
pub type Telling<'a, E> = Box<dyn FnMut() -> Result<f64, E> + 'a>;

/// A median and the quartiles around it.
#[derive(Clone, Copy)]
pub struct Spread {
    /// A quarter of the rounds lie below.
    pub low: f64,
    /// Half of the rounds lie below.
    pub median: f64,
    /// A quarter of the rounds lie above.
    pub high: f64,
}

/// Nanoseconds of one call in each round, way by way.
pub struct Times {
    rounds: Vec<Vec<f64>>,
}

/// What a step is measured by: a run, less a shorter one where that is timed too, over the steps that it has more.
#[derive(Clone, Copy)]
pub struct Span {
    /// The way that runs.
    pub run: usize,
    /// The way that makes the first steps of the same run: what it takes to be called and to read the image is in both.
    pub less: Option<usize>,
    /// The steps of the run that are not of the shorter one.
    pub steps: u16,
}

impl Spread {
    /// Of some values; of none it is nothing but NaN.
    fn of(values: impl Iterator<Item = f64>) -> Spread {
        let mut sorted: Vec<f64> = values.collect();
        sorted.sort_by(f64::total_cmp);
        let at = |quarters: usize| sorted.get(sorted.len() * quarters / 4).copied().unwrap_or(f64::NAN);
        Spread { low: at(1), median: at(2), high: at(3) }
    }

    /// `median (quartile to quartile)`, with so many digits after the point.
    pub fn shown(&self, digits: usize) -> String {
        format!("{:.digits$} ({:.digits$} to {:.digits$})", self.median, self.low, self.high)
    }
}

impl Times {
    /// Times each way in every round, a different one first each time.
    pub fn take(ways: &mut [&mut dyn FnMut()]) -> Times {
        let once: Vec<f64> = ways.iter_mut().map(|way| round(way, 3)).collect();
        let calls: Vec<u32> = once.iter().map(|&time| calls(time)).collect();
        let count = rounds(once.iter().map(|time| time.max(SLICE)).sum(), BUDGET);
        let mut rounds = vec![Vec::with_capacity(count); ways.len()];
        for number in 0..count {
            for turn in 0..ways.len() {
                let way = (turn + number) % ways.len();
                let time = round(&mut ways[way], calls[way]);
                rounds[way].push(time);
            }
        }
        Times { rounds }
    }

    /// Times ways that tell themselves what they took, in this order in every round.
    pub fn told<E>(ways: &mut [Telling<E>]) -> Result<Times, E> {
        let mut whole = 0.0;
        for way in ways.iter_mut() {
            // What comes first is slower than what follows.
            way()?;
            whole += way()?.max(SLICE);
        }
        let count = rounds(whole, TOLD_BUDGET);
        let mut rounds = vec![Vec::with_capacity(count); ways.len()];
        for _ in 0..count {
            for (times, way) in rounds.iter_mut().zip(ways.iter_mut()) {
                times.push(way()?);
            }
        }
        Ok(Times { rounds })
    }

    /// Nanoseconds of one call.
    pub fn of(&self, way: usize) -> Spread {
        Spread::of(self.rounds[way].iter().copied())
    }

    /// What one way takes over what another takes in the same round.
    pub fn ratio(&self, way: usize, over: usize) -> Spread {
        Spread::of(self.rounds[way].iter().zip(&self.rounds[over]).map(|(one, other)| one / other))
    }

    /// Nanoseconds of one step.
    pub fn step(&self, span: Span) -> Spread {
        Spread::of(self.steps(span))
    }

    /// What a step takes over what another takes in the same round.
    pub fn step_ratio(&self, span: Span, over: Span) -> Spread {
        Spread::of(self.steps(span).zip(self.steps(over)).map(|(one, other)| one / other))
    }

    /// Nanoseconds of one step, round by round.
    fn steps(&self, span: Span) -> impl Iterator<Item = f64> + '_ {
        let less = move |round: usize| span.less.map_or(0.0, |way| self.rounds[way][round]);
        let of = move |(round, time): (usize, &f64)| (time - less(round)) / f64::from(span.steps);
        self.rounds[span.run].iter().enumerate().map(of)
    }
}

/// A way of ours as one that tells what it took: what one call takes, of as many as fit into a slice.
pub fn telling<'a, E>(mut way: impl FnMut() + 'a) -> Telling<'a, E> {
    let calls = calls(round(&mut way, 3));
    Box::new(move || Ok(round(&mut way, calls)))
}

/// Calls that fit into a slice, if one takes so long.
fn calls(time: f64) -> u32 {
    (SLICE / time).clamp(1.0, 1e6) as u32
}

/// Rounds, if one of them takes so long and all of them have so long.
fn rounds(whole: f64, budget: f64) -> usize {
    (budget / whole).clamp(ROUNDS.0, ROUNDS.1) as usize
}

/// Nanoseconds of one call, over so many calls.
fn round(way: &mut impl FnMut(), calls: u32) -> f64 {
    let start = Instant::now();
    (0..calls).for_each(|_| way());
    start.elapsed().as_nanos() as f64 / f64::from(calls)
}

#[cfg(test)]
mod tests {
    use super::*;

    #[test]
    fn a_step_is_what_a_run_takes_more_over_the_steps_that_it_has_more() {
        let times = Times { rounds: vec![vec![1_000.0, 1_900.0], vec![100.0, 100.0], vec![50.0, 300.0]] };
        let (alone, whole) = (Span { run: 0, less: Some(1), steps: 9 }, Span { run: 2, less: None, steps: 10 });
        let shown = |spread: Spread| (spread.low, spread.high);
        assert_eq!(shown(times.step(alone)), (100.0, 200.0));
        assert_eq!(shown(times.step(whole)), (5.0, 30.0));
        assert_eq!(times.step_ratio(alone, whole).high, 20.0);
    }

    #[test]
    fn ways_are_told_in_turn_until_one_fails() {
        let asked = std::cell::RefCell::new(Vec::new());
        let way = |name: &'static str, last: usize| -> Telling<'_, &'static str> {
            let asked = &asked;
            Box::new(move || {
                asked.borrow_mut().push(name);
                let times = asked.borrow().iter().filter(|&&one| one == name).count();
                if times > last {
                    Err(name)
                } else {
                    Ok(1e9)
                }
            })
        };
        let failed = Times::told(&mut [way("first", 99), way("second", 4)]).err();
        assert_eq!(failed, Some("second"));
        assert_eq!(asked.borrow()[4..], ["first", "second", "first", "second", "first", "second"]);
    }
}

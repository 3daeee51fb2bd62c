//! What is told of a model beside CLIPS: for each figure both times and their ratio.

use crate::timing::{Span, Spread, Times};

/// The ratio that is aimed at.
const AIM: f64 = 20.0;
/// What stands where a figure is left out.
const LEFT_OUT: &str = "left out";

/// The figures, in the order of the columns.
pub const COLUMNS: [&str; 4] = ["whole, from text", "whole, from a binary image", "run call", "a step alone"];
/// What their times are told in, and how many ns that is.
const UNITS: [(&str, f64); 4] = [("µs", 1e3), ("µs", 1e3), ("µs", 1e3), ("ns", 1.0)];

/// Where each way stands in a round; of ours each stands next to that of CLIPS.
mod ways {
    pub const TEXT: usize = 0;
    pub const OUR_WHOLE: usize = 1;
    pub const BINARY: usize = 2;
    pub const RUN: usize = 3;
    pub const OUR_RUN: usize = 4;
    pub const SHORT: usize = 5;
    pub const OUR_SHORT: usize = 6;
}

/// One figure of one model.
pub struct Figure {
    /// What CLIPS takes over what ours takes.
    ratio: Spread,
    /// Nanoseconds of CLIPS, and of ours.
    times: [f64; 2],
}

impl Figure {
    /// Two ways in each round.
    fn of(times: &Times, theirs: usize, ours: usize) -> Figure {
        Figure { ratio: times.ratio(theirs, ours), times: [theirs, ours].map(|way| times.of(way).median) }
    }

    /// A step alone on each side.
    fn of_step(times: &Times, theirs: Span, ours: Span) -> Figure {
        let step = |span| times.step(span).median;
        Figure { ratio: times.step_ratio(theirs, ours), times: [theirs, ours].map(step) }
    }
}

/// The figures of the whole way, from rounds that begin with its ways: from text, ours, from a binary image.
pub fn of_whole(times: &Times) -> Vec<Figure> {
    vec![Figure::of(times, ways::TEXT, ways::OUR_WHOLE), Figure::of(times, ways::BINARY, ways::OUR_WHOLE)]
}

/// The figures of runs, from rounds that go on with theirs: of both a run, and then one that is so many steps shorter.
pub fn of_runs(times: &Times, fewer: u16) -> Vec<Figure> {
    let alone = |run, short| Span { run, less: Some(short), steps: fewer };
    let step = Figure::of_step(times, alone(ways::RUN, ways::SHORT), alone(ways::OUR_RUN, ways::OUR_SHORT));
    vec![Figure::of(times, ways::RUN, ways::OUR_RUN), step]
}

/// A cell for each figure; where there is none it is left out.
fn cells(figures: &[Figure], cell: impl Fn(usize, &Figure) -> String) -> String {
    let one = |column| figures.get(column).map_or(LEFT_OUT.to_string(), |figure| cell(column, figure));
    (0..COLUMNS.len()).map(one).collect::<Vec<_>>().join(" | ")
}

/// The ratios as cells of a row.
pub fn ratios(figures: &[Figure]) -> String {
    cells(figures, |_, figure| figure.ratio.shown(1))
}

/// Both times as cells of a row.
pub fn times(figures: &[Figure]) -> String {
    cells(figures, |column, Figure { times: [theirs, ours], .. }| {
        let (_, unit) = UNITS[column];
        format!("{:.0} / {:.0}", theirs / unit, ours / unit)
    })
}

/// The heads of the columns of times.
pub fn timed_columns() -> String {
    let head = |(column, (unit, _)): (&str, (&str, f64))| format!("{column}, {unit}");
    COLUMNS.into_iter().zip(UNITS).map(head).collect::<Vec<_>>().join(" | ")
}

/// On how many models each figure reaches the aim, in words.
pub fn reached(models: &[Vec<Figure>]) -> String {
    let count = |(column, name): (usize, &str)| {
        let told: Vec<&Figure> = models.iter().filter_map(|figures| figures.get(column)).collect();
        let reached = told.iter().filter(|figure| figure.ratio.median >= AIM).count();
        format!("{name} on {reached} of {}", told.len())
    };
    let counts: Vec<String> = COLUMNS.into_iter().enumerate().map(count).collect();
    format!("The median is {AIM:.0} or more: {}.", counts.join("; "))
}

#[cfg(test)]
mod tests {
    use super::*;
    use crate::timing::Telling;

    /// Rounds of these ways, each of which takes as long each time.
    fn steady(ways: &[f64]) -> Times {
        let told = |&time| -> Telling<'_, ()> { Box::new(move || Ok(time)) };
        Times::told(&mut ways.iter().map(told).collect::<Vec<_>>()).expect("no way fails")
    }

    #[test]
    fn each_figure_takes_its_own_ways() {
        let times_of_all = steady(&[9e6, 1e5, 2e6, 1.2e6, 6e4, 2e5, 1e4]);
        let figures: Vec<Figure> = of_whole(&times_of_all).into_iter().chain(of_runs(&times_of_all, 1_000)).collect();
        let same = |ratio: &str| format!("{ratio} ({ratio} to {ratio})");
        assert_eq!(ratios(&figures), ["90.0", "20.0", "20.0", "20.0"].map(same).join(" | "));
        assert_eq!(times(&figures), "9000 / 100 | 2000 / 100 | 1200 / 60 | 1000 / 50");
    }

    #[test]
    fn what_is_left_out_counts_nowhere() {
        let (short, slow) = (of_whole(&steady(&[4e6, 1e5, 1.9e6])), of_whole(&steady(&[1.9e6, 1e5, 1.9e6])));
        assert_eq!(times(&short), "4000 / 100 | 1900 / 100 | left out | left out");
        let counts = "whole, from text on 1 of 2; whole, from a binary image on 0 of 2; run call on 0 of 0; a step alone on 0 of 0";
        assert_eq!(reached(&[short, slow]), format!("The median is 20 or more: {counts}."));
    }
}

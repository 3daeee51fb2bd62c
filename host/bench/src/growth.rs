//! How the cost of a step grows with a model, kept and fresh.

use crate::keeping::PAYS;
use crate::models::Measured;
use crate::opened::{by_proved, by_reference, fresh_by_proved, fresh_by_reference, Opened};
use crate::progress::Progress;
use crate::timing::{Span, Times};
use crate::ways::Ways;

/// Most steps of a fresh run: each takes longer than a kept one.
const FRESH_STEPS: u16 = 1_000;

/// What a model's steps are measured by, of both engines.
struct Spans {
    kept: Span,
    reference: Span,
    fresh: Span,
    fresh_reference: Span,
}

impl Spans {
    /// Adds the ways of a model.
    fn of<'a>(ways: &mut Ways<'a>, opened: &'a Opened<'a>) -> Spans {
        let steps = opened.model.steps;
        let fewer = steps.min(FRESH_STEPS);
        Spans {
            kept: ways.span(by_proved, opened, steps),
            reference: ways.span(by_reference, opened, steps),
            fresh: ways.span(fresh_by_proved, opened, fewer),
            fresh_reference: ways.span(fresh_by_reference, opened, fewer),
        }
    }

    /// The cells of a row, in ns a step.
    fn row(&self, times: &Times) -> String {
        let all = [self.kept, self.reference, self.fresh, self.fresh_reference];
        let [kept, reference, fresh, fresh_reference] = all.map(|span| times.step(span).median);
        let ratio = times.step_ratio(self.fresh, self.fresh_reference).shown(2);
        let saved = times.step_ratio(self.fresh, self.kept).shown(2);
        format!("{kept:.0} | {reference:.0} | {fresh:.0} | {fresh_reference:.0} | {ratio} | {saved}")
    }
}

/// The rows of a model in its sizes, all in turn, so that they can be compared; and from which size on keeping pays.
fn grown(sizes: &[Opened]) -> (Vec<String>, String) {
    let mut ways = Ways::default();
    let spans: Vec<Spans> = sizes.iter().map(|opened| Spans::of(&mut ways, opened)).collect();
    let times = ways.take();
    let row = |(opened, spans): (&Opened, &Spans)| format!("| {} | {} |", opened.model.name, spans.row(&times));
    let pays: Vec<bool> = spans.iter().map(|one| times.step_ratio(one.fresh, one.kept).median >= PAYS).collect();
    let names: Vec<&str> = sizes.iter().map(|opened| opened.model.name.as_str()).collect();
    (sizes.iter().zip(&spans).map(row).collect(), pays_from(&names, &pays))
}

/// From which size on keeping pays, in words.
fn pays_from(names: &[&str], pays: &[bool]) -> String {
    let before = pays.iter().rposition(|pays| !pays).map_or(0, |last| last + 1);
    match names.get(before) {
        Some(name) => format!("from *{name}* on"),
        None => format!("not yet at *{}*", names.last().unwrap_or(&"")),
    }
}

/// The table of models that grow.
pub fn print_growing(growing: &[Vec<Measured>], progress: &mut Progress) {
    let fresh = "proved, fresh | reference, fresh | proved / reference, fresh | fresh / kept";
    println!("\n| run, ns a step | proved | reference | {fresh} |");
    println!("|---|---|---|---|---|---|---|");
    let mut pays = Vec::new();
    for sizes in growing {
        sizes.iter().for_each(|one| progress.next("growing", one));
        let opened: Vec<Opened> = sizes.iter().map(Opened::new).collect();
        let (rows, from) = grown(&opened);
        rows.iter().for_each(|row| println!("{row}"));
        pays.push(from);
    }
    println!("\nKeeping pays {}.", pays.join("; "));
}

#[cfg(test)]
mod tests {
    use super::pays_from;

    #[test]
    fn keeping_pays_from_the_size_on_after_which_it_always_does() {
        let names = ["1 rule", "2 rules", "3 rules"];
        assert_eq!(pays_from(&names, &[false, true, true]), "from *2 rules* on");
        assert_eq!(pays_from(&names, &[true, false, true]), "from *3 rules* on");
        assert_eq!(pays_from(&names, &[true, true, true]), "from *1 rule* on");
        assert_eq!(pays_from(&names, &[true, true, false]), "not yet at *3 rules*");
    }
}

//! What keeping matches saves: a fresh step beside a kept one, and beside the reference engine's fresh step.

use crate::opened::{by_proved, fresh_by_proved, fresh_by_reference, Opened};
use crate::progress::Progress;
use crate::timing::Spread;
use crate::ways::Ways;

/// What a fresh step takes at least over a kept one where keeping is said to pay; less may be the machine's.
pub const PAYS: f64 = 1.1;

/// The figures of a model.
struct Figures {
    /// The fresh run call in ns, and over that of the reference engine.
    call: (f64, Spread),
    /// A kept and a fresh step in ns, and the second over the first.
    steps: ([f64; 2], Spread),
    /// The reference engine's fresh step in ns, and ours over it.
    reference: (f64, Spread),
    /// A fresh call of one step over a kept one.
    one: Spread,
}

/// Measures a model; both engines are handed the packed image in each call.
fn measured(opened: &Opened) -> Figures {
    let (mut ways, asked) = (Ways::default(), opened.model.steps);
    let kept = ways.span(by_proved, opened, asked);
    let fresh = ways.span(fresh_by_proved, opened, asked);
    let reference = ways.span(fresh_by_reference, opened, asked);
    let (one_kept, one_fresh) = (ways.add(by_proved(opened, 1)), ways.add(fresh_by_proved(opened, 1)));
    let times = ways.take();
    Figures {
        call: (times.of(fresh.run).median, times.ratio(fresh.run, reference.run)),
        steps: ([kept, fresh].map(|span| times.step(span).median), times.step_ratio(fresh, kept)),
        reference: (times.step(reference).median, times.step_ratio(fresh, reference)),
        one: times.ratio(one_fresh, one_kept),
    }
}

impl Figures {
    /// The cells of a row.
    fn row(&self) -> String {
        let (call, call_ratio) = &self.call;
        let ([kept, fresh], saved) = &self.steps;
        let (reference, ratio) = &self.reference;
        let [call_ratio, saved, ratio, one] = [call_ratio, saved, ratio, &self.one].map(|spread| spread.shown(2));
        format!("{call:.0} | {call_ratio} | {kept:.0} | {fresh:.0} | {saved} | {reference:.0} | {ratio} | {one}")
    }
}

/// Where keeping pays and where it does not, by what a fresh step takes over a kept one: the most first.
fn pays(mut ratios: Vec<(String, f64)>) -> String {
    ratios.sort_by(|(_, one), (_, other)| other.total_cmp(one));
    let named = |pays: bool| {
        let told = ratios.iter().filter(|(_, ratio)| (*ratio >= PAYS) == pays);
        let names: Vec<String> = told.map(|(name, ratio)| format!("{name} ({ratio:.2})")).collect();
        if names.is_empty() {
            "none".to_string()
        } else {
            names.join("; ")
        }
    };
    let (most, least) = (named(true), named(false));
    format!("Keeping pays, a fresh step taking {PAYS} times a kept one or more, on: {most}. Hardly or not on: {least}.")
}

/// The table of keeping matches, and of making them afresh.
pub fn print_kept(all: &[Opened], progress: &mut Progress) {
    let steps = "kept step, ns | fresh step, ns | fresh / kept | reference, fresh step, ns | proved / reference";
    println!("\n| model | fresh run, ns | proved / reference | {steps} | call of one step, fresh / kept |");
    println!("|---|---|---|---|---|---|---|---|---|");
    let mut ratios = Vec::new();
    for one in all {
        progress.next("keeping the table", one.model);
        let figures = measured(one);
        println!("| {} | {} |", one.model.name, figures.row());
        ratios.push((one.model.name.clone(), figures.steps.1.median));
    }
    println!("\n{}", pays(ratios));
}

#[cfg(test)]
mod tests {
    use super::pays;

    #[test]
    fn where_keeping_pays_is_told_with_the_most_first() {
        let ratios = [("even", 1.0), ("some", 1.5), ("much", 20.0)].map(|(name, ratio)| (name.to_string(), ratio));
        let told = pays(ratios.to_vec());
        assert!(told.ends_with("on: much (20.00); some (1.50). Hardly or not on: even (1.00)."), "{told}");
        assert!(pays(ratios[1..].to_vec()).ends_with("Hardly or not on: none."));
    }
}

//! What CLIPS tells of its firings, as the steps of a model, and where they are not ours.

use jirvuntsag_reference::{Event, Kind, FIRING};

/// The steps that were told, and the firings that made them: answers to requests and arrivals fire, too.
#[derive(Default)]
pub struct Told {
    /// The steps.
    pub events: Vec<Event>,
    /// The firings.
    pub firings: u32,
    clock: u32,
    waits: bool,
}

/// The first so many steps in what CLIPS tells.
pub fn told(lines: &[String], steps: u16) -> Told {
    let mut told = Told::default();
    for line in lines {
        let words: Vec<&str> = line.split_whitespace().collect();
        match words[..] {
            ["FIRE", _, rule, ..] => {
                let rule = rule.trim_end_matches(':');
                let begins = rule == "wait" || number(rule).is_some();
                if begins && told.events.len() == usize::from(steps) {
                    break;
                }
                told.fires(rule);
            }
            ["==>", _, "(clock", "(now", now] => told.reaches(now),
            _ => (),
        }
    }
    told
}

/// The number of a rule of the model by its name.
fn number(rule: &str) -> Option<u16> {
    rule.strip_prefix("rule-")?.parse().ok()
}

impl Told {
    /// A rule of the program fires.
    fn fires(&mut self, rule: &str) {
        self.firings += 1;
        self.waits = rule == "wait";
        if let Some(number) = number(rule) {
            self.clock += u32::from(FIRING);
            self.events.push(Event { clock: self.clock, kind: Kind::Fire(number) });
        }
    }

    /// The clock is changed; by waiting, if that fired last.
    fn reaches(&mut self, now: &str) {
        let Ok(now) = now.trim_end_matches(')').parse::<u32>() else { return };
        if self.waits {
            let ms = u16::try_from(now.saturating_sub(self.clock)).unwrap_or(u16::MAX);
            self.events.push(Event { clock: now, kind: Kind::Wait(ms) });
        } else if let Some(event) = self.events.last_mut() {
            event.clock = now;
        }
        self.clock = now;
    }
}

/// A step as the printing program writes it.
fn line(event: Option<&Event>) -> String {
    match event {
        Some(Event { clock, kind: Kind::Fire(rule) }) => format!("{clock} fire {rule}"),
        Some(Event { clock, kind: Kind::Wait(ms) }) => format!("{clock} wait {ms}"),
        None => "no step".to_string(),
    }
}

/// The first step that is not the same, in words.
pub fn difference(ours: &[Event], theirs: &[Event]) -> Option<String> {
    let at = (0..ours.len().max(theirs.len())).find(|&at| ours.get(at) != theirs.get(at))?;
    let (our, their) = (line(ours.get(at)), line(theirs.get(at)));
    Some(format!("step {} differs\n  ours:  {our}\n  CLIPS: {their}", at + 1))
}

#[cfg(test)]
mod tests {
    use super::*;

    const LINES: &str = "FIRE    1 rule-0: f-1,f-2
<== f-5     (clock (now 0))
==> f-6     (clock (now 50))
FIRE    2 find-ask-1-1-80: f-7,f-2,f-3,*
FIRE    3 wait: f-6
<== f-6     (clock (now 50))
==> f-8     (clock (now 150))
FIRE    4 arrive-1: f-8,f-9
FIRE    5 rule-12: f-1,f-10";

    fn events(steps: u16) -> Told {
        told(&LINES.lines().map(str::to_string).collect::<Vec<_>>(), steps)
    }

    #[test]
    fn firings_become_steps() {
        let fire = |clock, rule| Event { clock, kind: Kind::Fire(rule) };
        let wait = Event { clock: 150, kind: Kind::Wait(100) };
        assert_eq!(events(3).events, [fire(50, 0), wait, fire(200, 12)]);
        // What arrives after the second step is of that step.
        assert_eq!((events(2).events.len(), events(2).firings), (2, 4));
    }

    #[test]
    fn a_difference_shows_both_lines() {
        let (ours, mut theirs) = (events(3).events, events(2).events);
        assert_eq!(difference(&ours, &ours), None);
        let short = "step 3 differs\n  ours:  200 fire 12\n  CLIPS: no step";
        assert_eq!(difference(&ours, &theirs).as_deref(), Some(short));
        theirs[1].kind = Kind::Wait(99);
        let other = "step 2 differs\n  ours:  150 wait 100\n  CLIPS: 150 wait 99";
        assert_eq!(difference(&ours, &theirs).as_deref(), Some(other));
    }
}

//! What the two engines are held to on one case: each other, in all that they answer and leave.

use jirvuntsag_generate::Case;
use jirvuntsag_reference::STORE_WORDS;

use crate::{Engine, Needed, Opened, Ran, Refreshed, Told, PROVED, REFERENCE};

/// A number and the position that goes with it.
pub type Numbered = (u8, u32);

/// All that an engine answers to a case, with the tables and the stores that it leaves.
#[derive(PartialEq, Debug)]
struct Said {
    needed: Needed,
    opened: (Opened, Vec<u16>),
    ran: (Ran, Vec<u16>),
    traced: (Told, Vec<u16>),
    refreshed: (Refreshed, Vec<u16>),
    ran_fresh: Ran,
    traced_fresh: Told,
    lent: Lent,
}

/// What the runs answer that are lent the case's store, with the tables and the stores that they leave.
#[derive(PartialEq, Debug)]
struct Lent {
    ran: (Ran, Vec<u16>, Vec<u16>),
    traced: (Told, Vec<u16>, Vec<u16>),
    ran_fresh: (Ran, Vec<u16>),
    traced_fresh: (Told, Vec<u16>),
}

impl Lent {
    /// Makes every run on a case, each on copies of its table and its store.
    fn by(engine: &Engine, case: &Case) -> Lent {
        let Case { image, state, steps, .. } = case;
        let table = || case.table.clone();
        let store = || case.store.clone();
        let (mut ran, mut ran_store, mut traced, mut traced_store) = (table(), store(), table(), store());
        let (mut fresh, mut traced_fresh) = (store(), store());
        Lent {
            ran: ((engine.run_lent)(image, *state, &mut ran, *steps, Some(&mut ran_store)), ran, ran_store),
            traced: (
                (engine.trace_lent)(image, *state, &mut traced, *steps, Some(&mut traced_store)),
                traced,
                traced_store,
            ),
            ran_fresh: ((engine.run_fresh_lent)(image, *state, *steps, Some(&mut fresh)), fresh),
            traced_fresh: ((engine.trace_fresh_lent)(image, *state, *steps, Some(&mut traced_fresh)), traced_fresh),
        }
    }

    /// What each of the runs says first.
    fn numbers(&self) -> [Numbered; 4] {
        let (ran, told) = (&self.ran.0, &self.traced.0);
        let (fresh, told_fresh) = (&self.ran_fresh.0, &self.traced_fresh.0);
        [(ran.0, ran.1), (told.0, told.1), (fresh.0, fresh.1), (told_fresh.0, told_fresh.1)]
    }
}

impl Said {
    /// Makes every call on a case, each on a copy of the case's table.
    fn by(engine: &Engine, case: &Case) -> Said {
        let Case { image, state, mark, steps, .. } = case;
        let table = || case.table.clone();
        let (mut opened, mut ran, mut traced, mut refreshed) = (table(), table(), table(), table());
        Said {
            needed: (engine.table_len)(image),
            opened: ((engine.open)(image, &mut opened), opened),
            ran: ((engine.run)(image, *state, &mut ran, *steps), ran),
            traced: ((engine.trace)(image, *state, &mut traced, *steps), traced),
            refreshed: ((engine.refresh)(image, state, *mark, &mut refreshed), refreshed),
            ran_fresh: (engine.run_fresh)(image, *state, *steps),
            traced_fresh: (engine.trace_fresh)(image, *state, *steps),
            lent: Lent::by(engine, case),
        }
    }

    /// What each of the calls says first.
    fn numbers(&self) -> Vec<Numbered> {
        let (needed, fresh, told) = (&self.needed, &self.ran_fresh, &self.traced_fresh);
        let ((opened, _), (ran, _), (traced, _), (refreshed, _)) =
            (&self.opened, &self.ran, &self.traced, &self.refreshed);
        let plain = [
            (needed.0, needed.1),
            (opened.0, opened.1),
            (ran.0, ran.1),
            (traced.0, traced.1),
            (refreshed.0, refreshed.1),
            (fresh.0, fresh.1),
            (told.0, told.1),
        ];
        [&plain[..], &self.lent.numbers()].concat()
    }
}

/// Holds the two engines to each other on every call, and what they answer to the rules on numbers and positions. Gives number
/// and position if the image is refused.
pub fn hold_same(case: &Case) -> Option<Numbered> {
    let said = Said::by(&PROVED, case);
    assert_eq!(said, Said::by(&REFERENCE, case), "image {:02x?}", case.image);
    let (number, position) = said.numbers()[0];
    if number == 0 {
        let placed = said.numbers().into_iter().find(|&(number, position)| position != 0 || is_of_image(number));
        assert_eq!(placed, None, "an accepted image");
        return None;
    }
    assert_eq!(said.numbers(), [(number, position); 11], "all calls refuse an image alike");
    assert!(is_of_image(number), "{number}");
    let (at, bits) = (position as usize, 8 * case.image.len());
    match number {
        // A field that is wholly missing begins where the image ends, and a rule's last test may end there.
        2 | 12 => assert!(at <= bits, "bit {at} of {bits}"),
        3 | 11 | 13 => assert!(at < bits, "bit {at} of {bits}"),
        _ => assert_eq!(at, 0, "{number} is about no field"),
    }
    Some((number, position))
}

/// Whether an image is refused by this number.
fn is_of_image(number: u8) -> bool {
    matches!(number, 1..=4 | 11..=13)
}

/// A case that begins with the opening of an image: table and state are those of the reference, if it accepts.
pub fn opening(image: Vec<u8>, steps: u16) -> Case {
    let mut table = REFERENCE.zeros(&image);
    let (_, _, state) = (REFERENCE.open)(&image, &mut table);
    Case { image, state, table, mark: 3, steps, store: vec![0; STORE_WORDS] }
}

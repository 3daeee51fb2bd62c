//! The cases of `vectors/06.txt`, which have requests 2026-01 to 2026-06 in: a call and its answer on two lines.

use jirvuntsag_reference::{Buffer, State};

use crate::{Engine, Numbered};

const PATH: &str = concat!(env!("CARGO_MANIFEST_DIR"), "/../../vectors/06.txt");

/// A call and the answer that it must have, as they are written.
pub struct Case {
    /// The call's line.
    pub call: String,
    /// The answer's line.
    pub answer: String,
}

/// All cases.
pub fn cases() -> Vec<Case> {
    let text = std::fs::read_to_string(PATH).expect("vectors/06.txt");
    let lines: Vec<&str> = text.lines().collect();
    assert_eq!(lines.len() % 2, 0, "a call without an answer");
    lines.chunks_exact(2).map(|pair| Case { call: pair[0].into(), answer: pair[1].into() }).collect()
}

impl Case {
    /// The number and the position with which the answer begins; printed lines have neither.
    pub fn numbered(&self) -> Numbered {
        let mut parts = self.answer.split(' ');
        let mut part = || parts.next().expect("a number and a position");
        (part().parse().expect("a number"), part().parse().expect("a position"))
    }

    /// The image of an opening, and the words of the table handed in.
    fn opening(&self) -> Option<(Vec<u8>, usize)> {
        let parts: Vec<&str> = self.call.split(' ').collect();
        match parts[..] {
            ["open", image, table] => Some((bytes(image), words(table).len())),
            _ => None,
        }
    }

    /// The image of an opening that is accepted, and the words of the table handed in.
    pub fn accepted_opening(&self) -> Option<(Vec<u8>, usize)> {
        self.opening().filter(|_| self.numbered().0 == 0)
    }

    /// The image of an opening that is refused for its image, with number and position.
    pub fn refused_opening(&self) -> Option<(Vec<u8>, Numbered)> {
        let (image, _) = self.opening()?;
        Some((image, self.numbered())).filter(|(_, (number, _))| !matches!(number, 0 | 5))
    }

    /// What an engine answers, written as the answer is.
    pub fn answered_by(&self, engine: &Engine) -> String {
        let parts: Vec<&str> = self.call.split(' ').collect();
        match parts[..] {
            ["open", image, table] => {
                let mut table = words(table);
                let (number, at, state) = (engine.open)(&bytes(image), &mut table);
                format!("{number} {at} {} {}", show_state(&state), show_words(&table))
            }
            ["run", image, from, table, steps, lent] => {
                let (mut table, mut lent) = (words(table), store(lent));
                let steps = steps.parse().expect("steps");
                let (number, at, after, made) =
                    (engine.run_lent)(&bytes(image), state(from), &mut table, steps, Some(&mut lent));
                let (after, table, lent) = (show_state(&after), show_words(&table), show_store(&lent));
                format!("{number} {at} {after} {table} {made} {lent}")
            }
            ["fresh", image, from, steps, lent] => {
                let mut lent = store(lent);
                let steps = steps.parse().expect("steps");
                let (number, at, after, made) =
                    (engine.run_fresh_lent)(&bytes(image), state(from), steps, Some(&mut lent));
                format!("{number} {at} {} {made} {}", show_state(&after), show_store(&lent))
            }
            ["refresh", image, from, mark, table] => {
                let mut table = words(table);
                let mark = mark.parse().expect("mark");
                let (number, at, count) = (engine.refresh)(&bytes(image), &state(from), mark, &mut table);
                format!("{number} {at} {count} {}", show_words(&table))
            }
            ["print", image] => (engine.print)(&bytes(image)).bytes().map(|byte| format!("{byte:02x}")).collect(),
            _ => panic!("unknown call {}", self.call),
        }
    }
}

/// Bytes from lower-case hex, `-` for none.
fn bytes(hex: &str) -> Vec<u8> {
    if hex == "-" {
        return Vec::new();
    }
    assert!(hex.len().is_multiple_of(2), "odd hex {hex}");
    (0..hex.len()).step_by(2).map(|i| u8::from_str_radix(&hex[i..i + 2], 16).expect("hex")).collect()
}

/// Words joined by commas, `-` for none.
fn words(text: &str) -> Vec<u16> {
    if text == "-" {
        return Vec::new();
    }
    text.split(',').map(|word| word.parse().expect("word")).collect()
}

/// `CLOCK/B0/../B7`.
fn state(text: &str) -> State {
    let (clock, buffers) = text.split_once('/').expect("clock");
    let buffers: Vec<Buffer> = buffers.split('/').map(|text| buffer(&words(text))).collect();
    State { clock: clock.parse().expect("clock"), buffers: buffers.try_into().expect("eight buffers") }
}

/// Type, eight slots, delay, error flag.
fn buffer(words: &[u16]) -> Buffer {
    let &[isa, ref slots @ .., delay, flag] = words else { panic!("{} words", words.len()) };
    assert!(flag < 2, "flag {flag}");
    Buffer { isa, slots: slots.try_into().expect("eight slots"), delay, error: flag == 1 }
}

/// `PLACES/COUNT/F0/F1/..`; places that are not listed are nine zeros.
fn store(text: &str) -> Vec<u16> {
    let mut parts = text.split('/');
    let mut number = || parts.next().expect("places and a count").parse().expect("a number");
    let (places, count): (usize, usize) = (number(), number());
    let mut store = vec![count as u16];
    parts.for_each(|fact| store.extend(words(fact)));
    assert!(store.len() % 9 == 1 && store.len() <= 1 + 9 * places, "{text}");
    store.resize(1 + 9 * places, 0);
    store
}

/// The same from the words, with the places up to the last that is not nine zeros, or up to the count.
fn show_store(store: &[u16]) -> String {
    let (count, places) = store.split_first().expect("a count");
    let places: Vec<&[u16]> = places.chunks_exact(9).collect();
    let used = places.iter().rposition(|place| **place != [0; 9]).map_or(0, |last| last + 1);
    let shown = places[..used].iter().map(|place| format!("/{}", show_words(place)));
    format!("{}/{count}{}", places.len(), shown.collect::<String>())
}

fn show_words(words: &[u16]) -> String {
    if words.is_empty() {
        return "-".into();
    }
    words.iter().map(u16::to_string).collect::<Vec<_>>().join(",")
}

fn show_state(state: &State) -> String {
    let buffers = state.buffers.iter().map(|buffer| {
        let words = [&[buffer.isa], &buffer.slots[..], &[buffer.delay, buffer.error.into()]].concat();
        format!("/{}", show_words(&words))
    });
    format!("{}{}", state.clock, buffers.collect::<String>())
}

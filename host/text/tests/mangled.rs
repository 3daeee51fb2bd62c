//! Texts that were mangled: each is refused with places in it, or is a model whose image opens.

use jirvuntsag_compare::PROVED;
use jirvuntsag_generate::{each_seed, Rng};
use jirvuntsag_text::{Model, TextError};

/// The texts that are mangled; the second has queries.
const TEXTS: [&str; 2] =
    [include_str!("../../../examples/addition.model"), include_str!("../../../examples/retry.model")];

/// Words that mean something somewhere.
const WORDS: [&str; 33] = [
    "rule",
    "type",
    "fact",
    "buffer",
    "symbol",
    "failure",
    "latency",
    "activation",
    "utility",
    "variables",
    "==>",
    "=",
    "=goal>",
    "+retrieval>",
    "-goal>",
    "?goal>",
    "?retrieval>",
    "state",
    "busy",
    "free",
    "error",
    "version",
    "?a",
    "?",
    "nil",
    "chunk",
    "isa",
    "add",
    "arg1",
    "-1",
    "65536",
    "#",
    "é\u{3000}>",
];

/// A text with a word exchanged, left out or doubled, a line moved, or cut.
fn mangle(rng: &mut Rng, text: &str) -> String {
    let mut lines: Vec<Vec<&str>> = text.lines().map(|line| line.split(' ').collect()).collect();
    let line = rng.below(lines.len());
    let word = rng.below(lines[line].len());
    match rng.below(6) {
        0..=1 => lines[line][word] = rng.pick(&WORDS),
        2 => {
            lines[line].remove(word);
        }
        3 => {
            let again = lines[line][word];
            lines[line].insert(word, again);
        }
        4 => {
            let moved = lines.remove(line);
            let to = rng.below(lines.len());
            lines.insert(to, moved);
        }
        _ => lines.truncate(line.max(1)),
    }
    lines.iter().map(|words| words.join(" ") + "\n").collect()
}

/// A fault has a place that its text has.
fn assert_lies_in(text: &str, fault: &TextError) {
    assert!(fault.line <= text.lines().count(), "{fault}");
    let line = text.lines().nth(fault.line.saturating_sub(1)).unwrap_or("");
    assert!(fault.column <= line.chars().count() + 1, "{fault} in {line}");
}

#[test]
fn mangled_texts_are_answered() {
    let (mut accepted, mut refused) = (0, 0);
    each_seed(110_000, 6_000, |seed, mut rng| {
        let mut text = TEXTS[seed as usize % TEXTS.len()].to_owned();
        for _ in 0..rng.from_to(1, 6) {
            text = mangle(&mut rng, &text);
        }
        let first = Model::from_text(&text).err();
        match Model::read(&text).model {
            Ok(model) => {
                let image = model.image();
                let mut table = PROVED.zeros(&image);
                assert_eq!((PROVED.open)(&image, &mut table).0, 0, "{text}");
                let again = Model::from_text(&model.to_text()).expect("the same model");
                assert_eq!((again.image(), &again.names().rules), (image, &model.names().rules), "{text}");
                accepted += 1;
            }
            Err(faults) => {
                assert_eq!(faults.first(), first.as_ref(), "{text}");
                faults.iter().for_each(|fault| assert_lies_in(&text, fault));
                assert!(faults.is_sorted_by_key(|fault| fault.line), "{faults:?} of\n{text}");
                refused += 1;
            }
        }
    });
    assert!(accepted > 500 && refused > 500, "{accepted} accepted, {refused} refused");
}

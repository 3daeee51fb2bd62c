//! What a message repeats of a text is cut, and holds no character that a terminal would obey.

use jirvuntsag_packing::{model_a, pack};
use jirvuntsag_text::{Model, Names};

/// Texts in each of whose places a word could be repeated; `W` stands for it.
const PLACES: [&str; 24] = [
    "W",
    "(W",
    "!W",
    "failure W",
    "failure latency W",
    "symbol a W",
    "symbol W = 1\nsymbol W = 2",
    "symbol W = 1\nsymbol a = 1",
    "type W\ntype W",
    "type W a b c d e f g h i",
    "type ?W",
    "type =W",
    "type a W W",
    "buffer W\nbuffer W",
    "type W\nbuffer b other",
    "type a W\nbuffer b a other 1",
    "type a x\nbuffer b a x 1 W 1",
    "type a W\nbuffer b a W",
    "buffer b\nrule r utility W",
    "buffer b\nrule r variables W",
    "buffer b\nrule W\n=b> chunk",
    "buffer b\nrule r\n=W> chunk",
    "type t x\nbuffer b\nrule r\n=b> t x 1\n==>\n=b> x ?W",
    "type t x\nbuffer b\nrule W\n=b> chunk\n==>\n=b> W 1",
];

/// Words that are long, or that hold bytes with a meaning for terminals.
fn words() -> Vec<String> {
    let bad = ["\u{1b}[31mred", "a\u{7}", "\u{9b}2J", "a\u{202e}b", "a\u{200b}b"];
    let long = ["a".repeat(1_000_000), "\u{1b}".repeat(1_000_000), "ä".repeat(100_000)];
    bad.into_iter().map(str::to_owned).chain(long).collect()
}

/// Whether a message can be sent to a terminal: not long, and nothing in it but what can be seen.
fn assert_tame(message: &str) {
    assert!(message.len() < 1_000, "{} bytes: {}", message.len(), &message[..200]);
    let wild = message.chars().find(|letter| letter.is_control() || "\u{202e}\u{200b}".contains(*letter));
    assert_eq!(wild, None, "{}", message.escape_debug());
}

#[test]
fn every_message_is_cut_and_escaped() {
    for place in PLACES {
        for word in words() {
            let text = place.replace('W', &word);
            let error = Model::from_text(&text).expect_err(place);
            assert_tame(&error.to_string());
        }
    }
}

#[test]
fn a_word_is_shown_as_far_as_it_goes() {
    let said = |word: &str| Model::from_text(word).expect_err("no line").message;
    assert!(said(&"a".repeat(60)).starts_with(&format!("'{}' begins no line", "a".repeat(60))));
    assert!(said(&"a".repeat(61)).starts_with(&format!("'{}.. (61 characters)' begins no line", "a".repeat(60))));
    assert!(said("\u{1b}[0m\\ü").starts_with("'\\u{1b}[0m\\ü' begins no line"));
}

#[test]
fn names_of_a_file_are_cut_and_escaped() {
    for word in words() {
        let quoted: String = word.chars().map(|letter| format!("\\u{:04x}", u32::from(letter))).collect();
        let twice = format!("{{\"{quoted}\": 1, \"{quoted}\": 2}}");
        assert_tame(&Names::from_json(&twice).expect_err("twice").to_string());
        assert_tame(&Names::from_json(&word).expect_err("no value").to_string());
        let mut names = Names::invented(&model_a());
        names.rules[0].name = word.clone();
        names.rules[1].name = word;
        let model = Model::from_image(&pack(&model_a())).expect("model A");
        assert_tame(&model.with_names(names).expect_err("names that do not fit").to_string());
    }
}

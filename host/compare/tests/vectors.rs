//! Every case of the vectors, on both engines.

use std::collections::BTreeSet;

use jirvuntsag_compare::{cases, Engine, BOTH, PROVED, REFERENCE};

/// Holds an engine to every case, and tells all that differ.
fn hold(engine: &Engine) {
    let cases = cases();
    assert_eq!(cases.len(), 360);
    let mut wrong = String::new();
    for case in &cases {
        let given = case.answered_by(engine);
        if given != case.answer {
            wrong += &format!("{}\nwanted {}\ngiven  {given}\n", case.call, case.answer);
        }
    }
    assert!(wrong.is_empty(), "{} differs\n{wrong}", engine.name);
}

#[test]
fn the_reference_answers_every_case() {
    hold(&REFERENCE);
}

#[test]
fn the_proved_library_answers_every_case() {
    hold(&PROVED);
}

#[test]
fn every_number_of_a_fresh_run_comes_up_but_1() {
    let fresh = cases().into_iter().filter(|case| case.call.starts_with("fresh "));
    let numbers: Vec<u8> = fresh.map(|case| case.numbered().0).collect();
    assert_eq!(numbers.len(), 62);
    assert_eq!(BTreeSet::from_iter(numbers), BTreeSet::from([0, 2, 3, 4, 6, 8, 9, 11, 12, 13, 14, 15]));
}

#[test]
fn every_number_about_a_field_comes_up_with_a_position_and_no_other_has_one() {
    let called = cases().into_iter().filter(|case| !case.call.starts_with("print "));
    let placed: BTreeSet<u8> =
        called.map(|case| case.numbered()).filter(|said| said.1 != 0).map(|said| said.0).collect();
    assert_eq!(placed, BTreeSet::from([2, 3, 11, 12, 13]));
}

/// Whether a flag of the state that an answer leaves is set: the last word of a buffer, where the state is the third part.
fn leaves_a_flag(answer: &str) -> bool {
    let state = answer.split(' ').nth(2).expect("a state");
    state.split('/').skip(1).any(|buffer| buffer.ends_with(",1"))
}

#[test]
fn images_with_queries_and_states_with_flags_come_up() {
    let runs: Vec<_> =
        cases().into_iter().filter(|case| !case.call.starts_with("re") && !case.call.starts_with("p")).collect();
    let asking = runs.iter().filter(|case| case.call.contains(" 02") && matches!(case.numbered().0, 0 | 7..=9));
    assert!(asking.count() >= 20);
    for number in [0, 6, 9] {
        assert!(runs.iter().any(|case| case.numbered().0 == number && leaves_a_flag(&case.answer)), "{number}");
    }
}

#[test]
fn a_refused_opening_is_told_by_the_table_length_too() {
    let cases = cases();
    let refused: Vec<_> = cases.iter().filter_map(|case| case.refused_opening()).collect();
    assert!(!refused.is_empty());
    for (image, (number, position)) in &refused {
        for engine in BOTH {
            assert_eq!((engine.table_len)(image), (*number, *position, 0), "{}", engine.name);
        }
    }
}

#[test]
fn an_accepted_table_has_the_length_that_is_told() {
    let openings: Vec<_> = cases().iter().filter_map(|case| case.accepted_opening()).collect();
    assert!(!openings.is_empty());
    for (image, words) in &openings {
        for engine in BOTH {
            assert_eq!((engine.table_len)(image), (0, 0, *words), "{}", engine.name);
        }
    }
}

//! A variable takes no empty slot, and a constant nil takes no other: runs worked out by hand, on both engines.

use jirvuntsag_compare::{hold_fresh_to, Engine, BOTH};
use jirvuntsag_reference::{Kind, State};
use jirvuntsag_text::Model;

/// The image of a model whose types have the slots a and b; symbols are numbered as they first stand.
fn image(rest: &str) -> Vec<u8> {
    let text = format!("failure latency 200\ntype pair a b\ntype fact a b\n{rest}\n");
    Model::from_text(&text).unwrap_or_else(|fault| panic!("{fault}\n{text}")).image()
}

/// Opens an image: state and table.
fn opened(engine: &Engine, image: &[u8]) -> (State, Vec<u16>) {
    let mut table = engine.zeros(image);
    let (number, at, state) = (engine.open)(image, &mut table);
    assert_eq!((number, at), (0, 0), "{}", engine.name);
    (state, table)
}

/// The steps of a run from the opening, kept or fresh, and the state after them.
fn steps(engine: &Engine, image: &[u8], asked: u16) -> (Vec<Kind>, State) {
    let (state, mut table) = opened(engine, image);
    let told = (engine.trace)(image, state, &mut table, asked);
    hold_fresh_to(engine, image, state, asked, &told);
    let (_, _, after, events) = told;
    (events.iter().map(|event| event.kind).collect(), after)
}

/// Holds both engines to whether a rule with this test of the goal fires on a goal with these slots.
fn assert_fires(test: &str, goal: &str, fires: bool) {
    let image = image(&format!("buffer goal pair {goal}\nrule r\n =goal> pair {test}\n ==>\n -goal>"));
    let wanted = if fires { vec![Kind::Fire(0)] } else { vec![] };
    for engine in BOTH {
        assert_eq!(steps(engine, &image, 2).0, wanted, "{}: {test} on {goal}", engine.name);
    }
}

#[test]
fn a_half_filled_goal_sets_off_no_rule_for_a_full_one() {
    for (goal, fires) in [("a 1 b 2", true), ("a 1", false), ("b 2", false), ("", false)] {
        assert_fires("a ?x b ?y", goal, fires);
    }
}

#[test]
fn a_slot_that_no_test_names_may_be_empty() {
    for (goal, fires) in [("a 1", true), ("a 1 b 2", true), ("b 2", false)] {
        assert_fires("a ?x", goal, fires);
    }
}

#[test]
fn a_constant_nil_tests_for_an_empty_slot() {
    for (goal, fires) in [("a 1", true), ("a 1 b 2", false), ("", false), ("b 2", false)] {
        assert_fires("a ?x b nil", goal, fires);
    }
    for (goal, fires) in [("", true), ("a 1", false), ("b 2", false), ("a 1 b 2", false)] {
        assert_fires("a nil b nil", goal, fires);
    }
}

#[test]
fn a_variable_in_two_slots_is_filled_in_both() {
    for (goal, fires) in [("a 1 b 1", true), ("a 1 b 2", false), ("", false), ("a 1", false), ("b 1", false)] {
        assert_fires("a ?x b ?x", goal, fires);
    }
}

#[test]
fn a_variable_in_two_buffers_is_filled_in_both() {
    for (goal, other, fires) in [("a 1", "b 1", true), ("", "", false), ("a 1", "", false), ("", "b 1", false)] {
        let buffers = format!("buffer goal pair {goal}\nbuffer other fact {other}");
        let image = image(&format!("{buffers}\nrule r\n =goal> pair a ?x\n =other> fact b ?x\n ==>\n -goal>"));
        for engine in BOTH {
            assert_eq!(steps(engine, &image, 1).0.len(), usize::from(fires), "{}: {goal}, {other}", engine.name);
        }
    }
}

#[test]
fn a_request_finds_facts_with_empty_slots_and_a_variable_does_not_take_them() {
    let facts = "fact fact a 1 activation 1 latency 0\nfact fact a 1 b 2 activation 0 latency 0";
    // Asked for a alone, or for an empty b, the first fact comes, on which rule 1 does not fire.
    for (asked, found, fires) in [("a ?x", [1, 0], false), ("a ?x b nil", [1, 0], false), ("b 2", [1, 2], true)] {
        let buffers = "buffer goal pair a 1\nbuffer retrieval";
        let ask = format!("rule ask\n =goal> pair a ?x\n ==>\n -goal>\n +retrieval> fact {asked}");
        let take = "rule take\n =retrieval> fact a ?x b ?y\n ==>";
        let image = image(&format!("{facts}\n{buffers}\n{ask}\n{take}"));
        let wanted = if fires { vec![Kind::Fire(0), Kind::Fire(1)] } else { vec![Kind::Fire(0)] };
        for engine in BOTH {
            let (kinds, after) = steps(engine, &image, 2);
            assert_eq!((kinds, &after.buffers[1].slots[..2]), (wanted.clone(), &found[..]), "{}: {asked}", engine.name);
        }
    }
}

/// Rule 0 empties the second slot of a full goal, and rule 1 fills that of a half-filled one.
fn fills_and_empties() -> Vec<u8> {
    let empties = "rule empties\n =goal> pair a ?x b ?y\n ==>\n =goal> b nil";
    let fills = "rule fills\n =goal> pair a ?x b nil\n ==>\n =goal> b ?x";
    image(&format!("buffer goal pair a 1\n{empties}\n{fills}"))
}

#[test]
fn a_kept_match_follows_a_slot_that_is_filled_and_emptied() {
    let image = fills_and_empties();
    for engine in BOTH {
        let (mut state, mut table) = opened(engine, &image);
        for step in 0..6 {
            let entries = if step % 2 == 0 { [[0, 0, 0], [1, 1, 0]] } else { [[1, 1, 1], [0, 0, 0]] };
            let kept = [&entries[0][..], &[0; 6], &entries[1], &[0; 6]].concat();
            assert_eq!(table, kept, "{} before step {step}", engine.name);
            state = (engine.run)(&image, state, &mut table, 1).2;
        }
        assert_eq!(steps(engine, &image, 4).0, [1, 0, 1, 0].map(Kind::Fire), "{}", engine.name);
    }
}

#[test]
fn a_kept_nil_is_stale_where_it_is_chosen() {
    let image = fills_and_empties();
    for engine in BOTH {
        let (state, mut table) = opened(engine, &image);
        table[..3].copy_from_slice(&[1, 1, 0]);
        let before = table.clone();
        assert_eq!((engine.run)(&image, state, &mut table, 3), (7, 0, state, 0), "{}", engine.name);
        assert_eq!(table, before, "{}", engine.name);
    }
}

#[test]
fn a_kept_nil_stays_where_another_is_chosen() {
    let rules = "rule full\n =goal> pair a ?x b ?y\n ==>\nrule other utility 1\n =other> chunk\n ==>";
    let image = image(&format!("buffer goal pair a 1\nbuffer other\n{rules}"));
    for engine in BOTH {
        let (state, mut table) = opened(engine, &image);
        table[..3].copy_from_slice(&[1, 1, 0]);
        let before = table.clone();
        let (number, _, after, made) = (engine.run)(&image, state, &mut table, 3);
        assert_eq!((number, after.buffers, made), (0, state.buffers, 3), "{}", engine.name);
        assert_eq!(table, before, "{}", engine.name);
    }
}

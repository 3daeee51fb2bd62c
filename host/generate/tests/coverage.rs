//! The generator is deterministic and reaches every answer.

use std::cmp::Reverse;
use std::collections::{BTreeMap, BTreeSet};

use jirvuntsag_generate::{broken_state, case, damage, each_seed, model, state, Damage};
use jirvuntsag_packing::{pack, pack_with_fields};
use jirvuntsag_reference::{
    open, refresh, run, run_fresh, table_len, trace, Deed, Event, Kind, Model, Rule, State, Term,
};

#[test]
fn equal_seeds_give_equal_cases() {
    each_seed(1, 200, |seed, _| assert_eq!(case(seed), case(seed)));
}

#[test]
fn models_and_states_are_what_they_are_called() {
    each_seed(1_000, 3_000, |_, mut rng| {
        let spec = model(&mut rng);
        let model = Model::decode(&pack(&spec)).expect("a valid model");
        assert!(model.is_well_formed(&state(&mut rng, &spec)));
        let (way, broken) = broken_state(&mut rng, &spec);
        assert!(!model.is_well_formed(&broken), "{way:?}");
    });
}

#[test]
fn cuts_and_appended_bytes_are_refused() {
    each_seed(5_000, 1_000, |_, mut rng| {
        let packed = pack_with_fields(&model(&mut rng));
        let (damage, image) = damage(&mut rng, &packed);
        let (number, at, _) = table_len(&image);
        match damage {
            Damage::Cut(bytes) => {
                let missing = packed.first_missing(bytes).expect("a missing field");
                assert_eq!((number, at as usize), (2, missing.at));
            }
            Damage::Append(_) => assert!(number == 4 || number == 1, "{number}"),
            Damage::Oversize => assert_eq!(number, 1),
            Damage::Flip(_) | Damage::Field(..) => assert_ne!(number, 1),
        }
    });
}

#[test]
fn every_answer_comes_up() {
    let mut answers: BTreeMap<(&str, u8), u32> = BTreeMap::new();
    let (mut fired, mut waited, mut long) = (0, 0, 0);
    each_seed(10_000, 6_000, |seed, _| {
        let case = case(seed);
        let mut note = |call, number| *answers.entry((call, number)).or_default() += 1;
        note("open", open(&case.image, &mut case.table.clone()).0);
        note("refresh", refresh(&case.image, &case.state, case.mark, &mut case.table.clone()).0);
        let (number, _, _, made) = run(&case.image, case.state, &mut case.table.clone(), case.steps);
        note("run", number);
        note("fresh", run_fresh(&case.image, case.state, case.steps).0);
        note("table_len", table_len(&case.image).0);
        long += u32::from(made > 5);
        let (.., events) = trace(&case.image, case.state, &mut case.table.clone(), case.steps.min(20));
        fired += events.iter().filter(|event| matches!(event.kind, Kind::Fire(_))).count();
        waited += events.iter().filter(|event| matches!(event.kind, Kind::Wait(_))).count();
    });
    println!("{answers:?} fired {fired} waited {waited} long {long}");
    for number in 0..=13 {
        let given = |call| answers.contains_key(&(call, number));
        let of_image = matches!(number, 0..=4 | 11..=13);
        assert_eq!(given("table_len"), of_image, "table_len {number}");
        assert_eq!(given("open"), of_image || number == 5, "open {number}");
        assert_eq!(given("refresh"), of_image || matches!(number, 5 | 6 | 10), "refresh {number}");
        assert_eq!(given("run"), of_image || matches!(number, 5..=9), "run {number}");
        assert_eq!(given("fresh"), of_image || matches!(number, 6 | 8 | 9), "fresh {number}");
    }
    assert!(fired > 1_000 && waited > 500 && long > 200, "{fired} {waited} {long}");
}

/// How a rule stands to the empty slots of a state.
#[derive(Clone, Copy, PartialEq, Eq, Debug)]
enum Stands {
    /// It matches, and a variable has a value.
    Filled,
    /// It matches, and a constant nil stands on an empty slot.
    Empty,
    /// It would match if something were in the slots of its variables.
    Lacks,
    /// It lacks that, and one variable stands on several empty slots.
    LacksTwice,
    /// It lacks that, and one variable stands on an empty slot and on a filled one.
    LacksHalf,
}

impl Stands {
    fn matches(self) -> bool {
        matches!(self, Stands::Filled | Stands::Empty)
    }
}

/// How a rule stands to a state, if that has to do with empty slots and with nothing else.
fn stand(model: &Model, (number, rule): (usize, Rule), state: &State) -> Option<Stands> {
    let (mut filled, mut lacking, mut values, mut constant) = (*state, Vec::new(), [0; 8], false);
    for test in rule.tests {
        let buffer = usize::from(test.buffer);
        for (slot, term) in test.pattern.named() {
            match (term, state.buffers[buffer].slots[slot]) {
                (Term::Symbol(symbol), _) => constant |= symbol == 0,
                (Term::Variable(variable), 0) => lacking.push((usize::from(variable), buffer, slot)),
                (Term::Variable(variable), value) => values[usize::from(variable)] = value,
            }
        }
    }
    for &(variable, buffer, slot) in &lacking {
        filled.buffers[buffer].slots[slot] = if values[variable] == 0 { 4_000 } else { values[variable] };
    }
    let times = |variable| lacking.iter().filter(|place| place.0 == variable).count();
    match lacking.iter().map(|place| times(place.0)).max() {
        _ if model.fresh_entry(number, &filled)[0] == 0 => None,
        None if constant => Some(Stands::Empty),
        None => (rule.variables > 0).then_some(Stands::Filled),
        Some(_) if lacking.iter().any(|place| values[place.0] != 0) => Some(Stands::LacksHalf),
        Some(1) => Some(Stands::Lacks),
        Some(_) => Some(Stands::LacksTwice),
    }
}

/// How each rule of a model stands to a state.
fn stands(model: &Model, state: &State) -> Vec<Option<Stands>> {
    model.rules().enumerate().map(|rule| stand(model, rule, state)).collect()
}

/// Notes what the steps of a short run have to do with empty slots.
fn note_steps(model: &Model, mut state: State, seen: &mut BTreeSet<String>) {
    for _ in 0..10 {
        let before = stands(model, &state);
        let (_, after, events) = model.trace(state, &mut model.fresh_table(&state), 1);
        note_changes(&before, &stands(model, &after), seen);
        if let [Event { kind: Kind::Fire(number), .. }] = events[..] {
            note_requests(model, number, &after, seen);
        }
        state = after;
    }
}

/// Notes rules that match or do not match after a step, since that filled or emptied a slot.
fn note_changes(before: &[Option<Stands>], after: &[Option<Stands>], seen: &mut BTreeSet<String>) {
    for change in before.iter().zip(after) {
        match change {
            (Some(old), Some(new)) if !old.matches() && new.matches() => seen.insert("a slot is filled".into()),
            (Some(old), Some(new)) if old.matches() && !new.matches() => seen.insert("a slot is emptied".into()),
            _ => false,
        };
    }
}

/// Notes facts with an empty slot that the requests of a rule have brought, which fired in the step to this state.
fn note_requests(model: &Model, number: u16, after: &State, seen: &mut BTreeSet<String>) {
    let actions = model.rules().nth(usize::from(number)).into_iter().flat_map(|rule| rule.actions);
    for action in actions.filter(|action| matches!(action.deed, Deed::Request(_))) {
        let found = &after.buffers[usize::from(action.buffer)];
        for slot in (0..model.slot_count(found.isa)).filter(|&slot| found.slots[slot] == 0) {
            // A variable has a value, so that it is a constant nil by which an empty slot is named.
            let named = action.pattern.named().any(|(one, _)| one == slot);
            seen.insert(if named { "an empty slot is asked for" } else { "an empty slot is brought" }.into());
        }
    }
}

/// Notes kept entries that have nil for a variable, and whether one of them is chosen.
fn note_kept(model: &Model, table: &[u16], seen: &mut BTreeSet<String>) {
    let mut matching: Vec<(usize, Rule)> =
        model.rules().enumerate().filter(|(number, _)| table[9 * number] == 1).collect();
    matching.sort_by_key(|(number, rule)| (Reverse(rule.utility), *number));
    for (rank, (number, rule)) in matching.iter().enumerate() {
        if table[9 * number + 1..][..usize::from(rule.variables)].contains(&0) {
            seen.insert(if rank == 0 { "nil is chosen" } else { "nil is kept" }.into());
        }
    }
}

#[test]
fn both_sides_of_an_empty_slot_come_up() {
    let mut cases: BTreeMap<String, u32> = BTreeMap::new();
    each_seed(20_000, 3_000, |seed, _| {
        let case = case(seed);
        let Ok(model) = Model::decode(&case.image) else { return };
        if model.run(case.state, &mut case.table.clone(), 0).0 != 0 {
            return;
        }
        let stands = stands(&model, &case.state);
        let mut seen: BTreeSet<String> = stands.iter().flatten().map(|one| format!("{one:?}")).collect();
        note_steps(&model, case.state, &mut seen);
        note_kept(&model, &case.table, &mut seen);
        seen.into_iter().for_each(|what| *cases.entry(what).or_default() += 1);
    });
    println!("{cases:?}");
    let floors = [
        ("Filled", 200),
        ("Empty", 100),
        ("Lacks", 50),
        ("LacksTwice", 10),
        ("LacksHalf", 20),
        ("a slot is filled", 10),
        ("a slot is emptied", 20),
        ("an empty slot is brought", 50),
        ("an empty slot is asked for", 20),
        ("nil is kept", 20),
        ("nil is chosen", 20),
    ];
    for (what, least) in floors {
        assert!(cases.get(what).is_some_and(|&count| count >= least), "{what}: {cases:?}");
    }
}

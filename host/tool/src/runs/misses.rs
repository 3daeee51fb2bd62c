//! Why a rule does not match.

use std::collections::BTreeMap;

use jirvuntsag_packing::{QuerySpec, Term, TestSpec};
use jirvuntsag_text::{Model, Names};

use super::engine::State;

/// The symbol that an empty slot holds.
const NIL: u16 = 0;

/// The first test of a rule, given by its number, or else the first query, that does not hold in a state, in words; nothing
/// if all hold.
pub fn first_miss(model: &Model, rule: usize, state: &State) -> Option<String> {
    let (mut values, names) = (BTreeMap::new(), model.names());
    let (rule, variables) = (&model.spec().rules[rule], &names.rules[rule].variables);
    let test = rule.tests.iter().find_map(|test| miss(test, state, names, variables, &mut values));
    test.or_else(|| rule.queries.iter().find_map(|query| denied(query, state, names)))
}

/// Why one query does not hold.
fn denied(query: &QuerySpec, state: &State, names: &Names) -> Option<String> {
    let buffer = &state.buffers[usize::from(query.buffer)];
    let (busy, free) = (QuerySpec::busy(query.buffer), QuerySpec::free(query.buffer));
    let why = match buffer.delay {
        0 if *query == busy => "nothing is pending there".into(),
        0 if *query == free || buffer.has_failed() => return None,
        0 => "its error flag is not set".into(),
        _ if *query == busy => return None,
        delay => format!("it is pending for another {delay} ms"),
    };
    Some(format!("{} fails: {why}", names.query(query)))
}

/// Why one test does not hold; the values of variables are those of their first places.
fn miss(
    test: &TestSpec,
    state: &State,
    names: &Names,
    variables: &[String],
    values: &mut BTreeMap<u16, u16>,
) -> Option<String> {
    let held = &state.buffers[usize::from(test.buffer)];
    let buffer = &names.buffers[usize::from(test.buffer)];
    let isa = |number: usize| &names.types[number].name;
    if held.delay > 0 {
        return Some(format!("{buffer} is pending for another {} ms", held.delay));
    }
    if held.isa != u16::from(test.isa) {
        return Some(format!("{buffer} holds {}, not {}", isa(held.isa.into()), isa(test.isa.into())));
    }
    test.pattern.named().find_map(|(slot, term)| {
        let found = held.slots[slot];
        let slot = &names.types[usize::from(test.isa)].slots[slot];
        let wanted = match term {
            Term::Symbol(number) => number,
            // a variable says that something is there: nil is neither a value of it nor one to be compared
            Term::Variable(number) if found == NIL => {
                let variable = &variables[usize::from(number)];
                return Some(format!("{slot} of {buffer} is empty, and variable ?{variable} takes no empty slot"));
            }
            Term::Variable(number) => *values.entry(number).or_insert(found),
        };
        (found != wanted)
            .then(|| format!("{slot} of {buffer} is {}, not {}", names.symbol(found), names.symbol(wanted)))
    })
}

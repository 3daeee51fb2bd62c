//! The models that are measured, as specifications.

use jirvuntsag_packing::{model_a, ActionSpec, ChunkSpec, FactSpec, ModelSpec, QuerySpec, RuleSpec, Term, TestSpec};

/// The value that slots hold whose tests hold.
const HELD: Term = Term::Symbol(7);
/// A value that no slot holds.
const ABSENT: Term = Term::Symbol(4_000);

/// Where a token is.
#[derive(Clone, Copy, PartialEq, Eq)]
pub struct Place {
    buffer: u8,
    slot: usize,
}

/// The first slot of the first buffer.
pub const FIRST: Place = Place { buffer: 0, slot: 0 };
/// The last slot of the last of four buffers.
pub const LAST: Place = Place { buffer: 3, slot: 1 };

/// Counts round and round through so many successors, from 1 on: 0 is nil, which no variable takes.
pub fn counting(facts: u16) -> ModelSpec {
    let successor =
        |first| FactSpec { chunk: ChunkSpec::new(1, &[first, first % facts + 1]), activation: 10, latency: 100 };
    let mut spec = model_a();
    spec.facts = (1..=facts).map(successor).collect();
    // A target that is never reached.
    spec.opening[0].slots[1] = 4_095;
    spec
}

/// A rule of a ring: it fires when the token is its number, and hands it on.
fn token(number: u16, ring: u16, at: Place, tested: impl Iterator<Item = u8>) -> RuleSpec {
    let wanted = |buffer, slot| if at == (Place { buffer, slot }) { Term::Symbol(number) } else { HELD };
    let test = |buffer| TestSpec::new(buffer, 1, &[(0, wanted(buffer, 0)), (1, wanted(buffer, 1))]);
    RuleSpec {
        tests: tested.map(test).collect(),
        actions: vec![ActionSpec::modify(at.buffer, &[(at.slot, next(number, ring))])],
        ..RuleSpec::default()
    }
}

/// The number that follows in a ring.
fn next(number: u16, ring: u16) -> Term {
    Term::Symbol((number + 1) % ring)
}

/// Buffers with two slots each, of which those at the places hold tokens, 0 at first.
fn ring_model(buffers: usize, places: &[Place], rules: Vec<RuleSpec>) -> ModelSpec {
    let mut opening = vec![ChunkSpec::new(1, &[7, 7]); buffers];
    for at in places {
        opening[usize::from(at.buffer)].slots[at.slot] = 0;
    }
    ModelSpec { types: vec![2], opening, rules, ..ModelSpec::default() }
}

/// Rules that each test four buffers and differ in one of them alone, which each step changes.
pub fn tokens(rules: u16, at: Place) -> ModelSpec {
    ring_model(4, &[at], (0..rules).map(|number| token(number, rules, at, 0..4)).collect())
}

/// Rules with so many tests, of eight buffers, that differ in the last slot of the last test, which each step changes.
pub fn tests_a_rule(rules: u16, tests: u8) -> ModelSpec {
    let at = Place { buffer: tests - 1, slot: 1 };
    ring_model(8, &[at], (0..rules).map(|number| token(number, rules, at, 0..tests)).collect())
}

/// Rules of which the first few test the buffer that changes, and the others three that do not, and fail at the last slot.
pub fn few_of_many(few: u16, rules: u16) -> ModelSpec {
    let late = RuleSpec {
        tests: vec![
            TestSpec::new(1, 1, &[(0, HELD), (1, HELD)]),
            TestSpec::new(2, 1, &[(0, HELD), (1, HELD)]),
            TestSpec::new(3, 1, &[(0, HELD), (1, ABSENT)]),
        ],
        ..RuleSpec::default()
    };
    let rule = |number| if number < few { token(number, few, FIRST, 0..1) } else { late.clone() };
    ring_model(4, &[FIRST], (0..rules).map(rule).collect())
}

/// A rule for each pair of two tokens in two buffers: each step hands on the first, and at the end of its ring the second too.
pub fn pairs(ring: u16) -> ModelSpec {
    let test = |buffer, token| TestSpec::new(buffer, 1, &[(0, Term::Symbol(token))]);
    let hand_on = |buffer, token| ActionSpec::modify(buffer, &[(0, next(token, ring))]);
    let rule = |number: u16| {
        let (first, second) = (number % ring, number / ring);
        let mut actions = vec![hand_on(0, first)];
        if first == ring - 1 {
            actions.push(hand_on(1, second));
        }
        RuleSpec { tests: vec![test(0, first), test(1, second)], actions, ..RuleSpec::default() }
    };
    let places = [FIRST, Place { buffer: 1, slot: 0 }];
    ring_model(2, &places, (0..ring * ring).map(rule).collect())
}

/// Rules that match whatever the one buffer holds in its two slots, of which none is empty; each step swaps them, so that
/// all entries change.
pub fn all_match(rules: u16) -> ModelSpec {
    let (one, other) = (Term::Variable(0), Term::Variable(1));
    let swap = RuleSpec {
        variables: 2,
        tests: vec![TestSpec::new(0, 1, &[(0, one), (1, other)])],
        actions: vec![ActionSpec::modify(0, &[(0, other), (1, one)])],
        ..RuleSpec::default()
    };
    let mut spec = ring_model(1, &[], vec![swap; usize::from(rules)]);
    spec.opening[0].slots[0] = 1;
    spec
}

/// Two rules that take turns, and others that match at all times, on another buffer, and rest below them.
pub fn resting(rules: u16) -> ModelSpec {
    let rule = |number| match number {
        0 | 1 => RuleSpec { utility: 1, ..token(number, 2, FIRST, 0..1) },
        _ => RuleSpec { tests: vec![TestSpec::new(1, 1, &[(0, HELD), (1, HELD)])], ..RuleSpec::default() },
    };
    ring_model(2, &[FIRST], (0..rules).map(rule).collect())
}

/// Eight buffers, of which each step changes so many: 32 rules that test all of them take turns, and 32 test each other one
/// alone; of these one matches, another one after each change.
pub fn touching(buffers: u8) -> ModelSpec {
    const RING: u16 = 32;
    let hand_on = |number: u16| {
        let own = TestSpec::new(0, 1, &[(0, Term::Symbol(number))]);
        RuleSpec {
            utility: 1,
            tests: std::iter::once(own).chain((1..8).map(|buffer| TestSpec::new(buffer, 1, &[]))).collect(),
            actions: (0..buffers).map(|buffer| ActionSpec::modify(buffer, &[(0, next(number, RING))])).collect(),
            ..RuleSpec::default()
        }
    };
    let rests = |number: u16| {
        let at = Place { buffer: 1 + (number / RING) as u8, slot: 0 };
        RuleSpec { actions: Vec::new(), ..token(number % RING, RING, at, at.buffer..at.buffer + 1) }
    };
    let places: Vec<Place> = (0..8).map(|buffer| Place { buffer, slot: 0 }).collect();
    ring_model(8, &places, (0..RING).map(hand_on).chain((0..7 * RING).map(rests)).collect())
}

/// What a model notes and clears.
#[derive(Clone, Copy, PartialEq, Eq)]
pub enum Noted {
    /// The same each time, which is a fact of the image.
    Known,
    /// Another number each time.
    New,
    /// Another number each time, which is asked for in the step after it was cleared.
    Recalled,
}

/// Types of the model that notes: the goal with its step and number, what follows a number, a sheet with a number on it.
const GOAL: u8 = 1;
const FOLLOWS: u8 = 2;
const SHEET: u8 = 3;
/// The number on a sheet that is blank.
const BLANK: u16 = 4_000;

/// Takes a sheet, writes a number on it and clears it, again and again, in three steps each, with numbers from 2 to 500 and
/// round again. Facts come at once.
pub fn notes(noted: Noted) -> ModelSpec {
    const NUMBERS: u16 = 500;
    let at_once = |chunk| FactSpec { chunk, activation: 10, latency: 0 };
    let follows = |first: u16| at_once(ChunkSpec::new(FOLLOWS, &[first, first % NUMBERS + 1]));
    let blank = at_once(ChunkSpec::new(SHEET, &[BLANK, BLANK]));
    let opening =
        vec![ChunkSpec::new(GOAL, &[1, 1]), ChunkSpec::new(FOLLOWS, &[1, 2]), ChunkSpec::nil(), ChunkSpec::nil()];
    ModelSpec {
        failure: 0,
        types: vec![2, 2, 2],
        opening,
        facts: (1..=NUMBERS).map(follows).chain([blank]).collect(),
        rules: note_rules(noted),
        ..ModelSpec::default()
    }
}

/// The rules of that model: to take a sheet and the next number, to write, and to clear.
fn note_rules(noted: Noted) -> Vec<RuleSpec> {
    let (number, next) = (Term::Variable(0), Term::Variable(1));
    let step = |step: u16| (0, Term::Symbol(step));
    let rule = |variables, tests, actions| RuleSpec { variables, tests, actions, ..RuleSpec::default() };
    let goal = |named: &[(usize, Term)]| TestSpec::new(0, GOAL, named);
    let sheet = || TestSpec::new(2, SHEET, &[]);
    let mut take = vec![
        ActionSpec::modify(0, &[step(2), (1, next)]),
        ActionSpec::request(1, FOLLOWS, &[(0, next)]),
        ActionSpec::request(2, SHEET, &[(0, Term::Symbol(BLANK))]),
    ];
    if noted == Noted::Recalled {
        take.push(ActionSpec::request(3, SHEET, &[(0, number)]));
    }
    let written = if noted == Noted::Known { vec![] } else { vec![(0, number)] };
    let write = vec![ActionSpec::modify(0, &[step(3)]), ActionSpec::modify(2, &written)];
    let clear = vec![ActionSpec::modify(0, &[step(1)]), ActionSpec::clear(2)];
    let follows = TestSpec::new(1, FOLLOWS, &[(0, number), (1, next)]);
    vec![
        rule(2, vec![goal(&[step(1), (1, number)]), follows], take),
        rule(1, vec![goal(&[step(2), (1, number)]), sheet()], write),
        rule(0, vec![goal(&[step(3)]), sheet()], clear),
    ]
}

/// A token that asks for a late chunk in one of seven other buffers at each step, and 56 rules that wait for one.
pub fn pending() -> ModelSpec {
    let hand_on = |number: u16| {
        let mut rule = token(number, 7, FIRST, 0..1);
        rule.utility = 1;
        rule.actions.push(ActionSpec::request(1 + number as u8, 1, &[(0, Term::Symbol(number))]));
        rule
    };
    let waits = |number: u16| RuleSpec {
        tests: vec![TestSpec::new(1 + (number % 7) as u8, 1, &[(0, Term::Symbol(number / 7)), (1, HELD)])],
        ..RuleSpec::default()
    };
    let late = |number: u16| FactSpec {
        chunk: ChunkSpec::new(1, &[number, 7]),
        activation: 1,
        latency: if number.is_multiple_of(2) { 120 } else { 1_000 },
    };
    let mut opening = vec![ChunkSpec::new(1, &[0, 7])];
    opening.resize(8, ChunkSpec::nil());
    ModelSpec {
        types: vec![2],
        opening,
        facts: (0..7).map(late).collect(),
        rules: (0..7).map(hand_on).chain((0..56).map(waits)).collect(),
        ..ModelSpec::default()
    }
}

/// A ring of so many numbers, of which every other one is known: three rules for each ask for it where the memory is free, take what
/// is found, and go on where the request was an error.
pub fn asking(ring: u16) -> ModelSpec {
    let known = |number| FactSpec { chunk: ChunkSpec::new(2, &[number]), activation: 1, latency: 100 };
    ModelSpec {
        failure: 150,
        types: vec![2, 1],
        opening: vec![ChunkSpec::new(1, &[0, 1]), ChunkSpec::nil()],
        facts: (0..ring).step_by(2).map(known).collect(),
        rules: (0..ring).flat_map(|number| ask_rules(number, ring)).collect(),
        ..ModelSpec::default()
    }
}

/// The three rules of a number in that ring: the goal has the number, and 1 before it is asked for, 2 after that.
fn ask_rules(number: u16, ring: u16) -> [RuleSpec; 3] {
    let (asked, step) = ((0, Term::Symbol(number)), |step| (1, Term::Symbol(step)));
    let goal = |at| TestSpec::new(0, 1, &[asked, step(at)]);
    let go_on = || ActionSpec::modify(0, &[(0, next(number, ring)), step(1)]);
    let ask = RuleSpec {
        tests: vec![goal(1)],
        queries: vec![QuerySpec::free(1)],
        actions: vec![ActionSpec::modify(0, &[step(2)]), ActionSpec::request(1, 2, &[asked])],
        ..RuleSpec::default()
    };
    let take = RuleSpec {
        tests: vec![goal(2), TestSpec::new(1, 2, &[asked])],
        actions: vec![go_on(), ActionSpec::clear(1)],
        ..RuleSpec::default()
    };
    let give_up = RuleSpec {
        tests: vec![goal(2)],
        queries: vec![QuerySpec::error(1)],
        actions: vec![go_on()],
        ..RuleSpec::default()
    };
    [ask, take, give_up]
}

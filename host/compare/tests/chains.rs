//! Chains of calls, refused ones among them: each is handed the state and the table that the call before it left, and the store
//! if it is lent one.

use std::collections::BTreeMap;

use jirvuntsag_compare::{hold_fresh_to, Engine, Numbered, Ran, BOTH, PROVED, REFERENCE};
use jirvuntsag_generate::{broken_state, clock, damage, each_seed, mark, model, steps, store, Rng};
use jirvuntsag_packing::{pack_with_fields, ModelSpec, Packed};
use jirvuntsag_reference::{Event, Model, State, STORE_WORDS};

/// Links of a chain.
const LINKS: usize = 24;
/// Steps of the runs that are made beside a chain after each link, the kept ones on a copy of its table.
const BESIDE: u16 = 12;

/// One link: a call, or something that befalls state or table between two calls.
#[derive(Clone, Debug)]
enum Link {
    Run(u16),
    Trace(u16),
    Refresh(u16),
    RunLent(u16),
    TraceLent(u16),
    /// A run that is lent this store, fit or not, in place of the one in hand; the next is lent what it leaves.
    OtherStore(Vec<u16>),
    /// A run, a refresh and a fresh run that are handed this image.
    DamagedImage(Vec<u8>),
    /// A run, a refresh and a fresh run that are handed this state.
    BrokenState(Box<State>),
    /// A run and a refresh that are handed the table with one word more.
    LongTable,
    /// The error flag of a buffer that holds nil is changed by hand, and the table refreshed with that buffer marked.
    TurnFlag(usize),
    SetClock(u32),
    SetWord(usize, u16),
}

/// What an engine has in hand.
#[derive(Clone, PartialEq, Debug)]
struct Hand {
    state: State,
    table: Vec<u16>,
    store: Vec<u16>,
}

/// What the calls of a link answer: numbers with their positions, counts and steps.
#[derive(PartialEq, Debug, Default)]
struct Said {
    numbers: Vec<Numbered>,
    counts: Vec<u16>,
    events: Vec<Event>,
    /// What a fresh run beside them answers, which takes no part in the chain.
    fresh: Option<Ran>,
}

impl Said {
    fn note(&mut self, number: u8, position: u32, count: u16) {
        self.numbers.push((number, position));
        self.counts.push(count);
    }

    /// Whether each call was refused, so that nothing may have changed.
    fn refused(&self) -> bool {
        self.numbers.iter().all(|(number, _)| matches!(number, 1..=6 | 10..=13 | 15))
    }
}

/// A link that fits anywhere in a chain.
fn link(rng: &mut Rng, spec: &ModelSpec, packed: &Packed, at: &State) -> Link {
    match rng.below(28) {
        0..=6 => Link::Run(steps(rng).min(200)),
        7..=9 => Link::Trace(steps(rng).min(200)),
        10..=12 => Link::Refresh(mark(rng, spec.opening.len())),
        13..=14 => Link::DamagedImage(damage(rng, packed).1),
        15 => Link::BrokenState(Box::new(broken_state(rng, spec).1)),
        16 => Link::LongTable,
        17 => Link::SetClock(clock(rng)),
        18 => Link::TurnFlag(rng.below(spec.opening.len())),
        20..=23 => Link::RunLent(steps(rng).min(200)),
        24..=26 => Link::TraceLent(steps(rng).min(200)),
        27 => Link::OtherStore(store(rng, spec, at).1),
        _ => Link::SetWord(rng.word() as usize, rng.pick(&[0, 1, 1, 2, 65_535])),
    }
}

/// A run of three steps and a refresh by this state, where both may be refused.
fn run_and_refresh(engine: &Engine, image: &[u8], state: State, table: &mut [u16], said: &mut Said) -> State {
    let (number, position, after, made) = (engine.run)(image, state, table, 3);
    said.note(number, position, made);
    let (number, position, count) = (engine.refresh)(image, &after, 1, table);
    said.note(number, position, count);
    after
}

/// Makes a run and a refresh that are handed something else than what is in hand, and leaves there what they left.
fn misuse(engine: &Engine, image: &[u8], link: &Link, hand: &mut Hand) -> Said {
    let mut said = Said::default();
    match link {
        Link::DamagedImage(damaged) => {
            said.fresh = Some((engine.run_fresh)(damaged, hand.state, 3));
            hand.state = run_and_refresh(engine, damaged, hand.state, &mut hand.table, &mut said);
        }
        Link::BrokenState(broken) => {
            assert_eq!((engine.run_fresh)(image, **broken, 3), (6, 0, **broken, 0), "a broken state is refused afresh");
            let after = run_and_refresh(engine, image, **broken, &mut hand.table, &mut said);
            assert_eq!(after, **broken, "a broken state comes back as it was");
        }
        _ => {
            let mut longer = [&hand.table[..], &[1]].concat();
            hand.state = run_and_refresh(engine, image, hand.state, &mut longer, &mut said);
            assert_eq!(longer.pop(), Some(1), "the word too many comes back as it was");
            hand.table = longer;
        }
    }
    said
}

/// Changes what is in hand as a caller may between two calls.
fn change(engine: &Engine, image: &[u8], link: &Link, hand: &mut Hand) -> Said {
    let mut said = Said::default();
    match *link {
        Link::TurnFlag(buffer) => {
            let of = &mut hand.state.buffers[buffer];
            of.error = !of.error && of.isa == 0;
            let (number, position, count) = (engine.refresh)(image, &hand.state, 1 << buffer, &mut hand.table);
            said.note(number, position, count);
        }
        Link::SetClock(clock) => hand.state.clock = clock,
        Link::SetWord(at, value) => {
            let words = hand.table.len().max(1);
            if let Some(word) = hand.table.get_mut(at % words) {
                *word = value;
            }
        }
        _ => panic!("{link:?} is a call"),
    }
    said
}

/// Makes a link's calls on what is in hand, and leaves there what they left.
fn make(engine: &Engine, image: &[u8], link: &Link, hand: &mut Hand) -> Said {
    let mut said = Said::default();
    match link {
        Link::Run(steps) => {
            let (number, position, state, made) = (engine.run)(image, hand.state, &mut hand.table, *steps);
            hand.state = state;
            said.note(number, position, made);
        }
        Link::Trace(steps) => {
            let (number, position, state, events) = (engine.trace)(image, hand.state, &mut hand.table, *steps);
            hand.state = state;
            said.note(number, position, events.len() as u16);
            said.events = events;
        }
        Link::Refresh(mark) => {
            let (number, position, count) = (engine.refresh)(image, &hand.state, *mark, &mut hand.table);
            said.note(number, position, count);
        }
        Link::RunLent(steps) => {
            let (number, position, state, made) =
                (engine.run_lent)(image, hand.state, &mut hand.table, *steps, Some(&mut hand.store));
            hand.state = state;
            said.note(number, position, made);
        }
        Link::TraceLent(steps) => {
            let (number, position, state, events) =
                (engine.trace_lent)(image, hand.state, &mut hand.table, *steps, Some(&mut hand.store));
            hand.state = state;
            said.note(number, position, events.len() as u16);
            said.events = events;
        }
        Link::OtherStore(other) => {
            let mut lent = other.clone();
            let (number, position, state, made) =
                (engine.run_lent)(image, hand.state, &mut hand.table, 3, Some(&mut lent));
            hand.state = state;
            said.note(number, position, made);
            match number {
                1..=6 | 11..=13 | 15 => assert!(lent == *other, "refused by {number}"),
                _ => hand.store = lent,
            }
        }
        Link::TurnFlag(_) | Link::SetClock(_) | Link::SetWord(..) => said = change(engine, image, link, hand),
        Link::DamagedImage(_) | Link::BrokenState(_) | Link::LongTable => said = misuse(engine, image, link, hand),
    }
    said
}

/// Whether a table that was fresh before the link must be fresh after it.
fn keeps(link: &Link, said: &Said) -> bool {
    match link {
        Link::Run(_) | Link::Trace(_) | Link::Refresh(_) | Link::SetClock(_) => true,
        Link::RunLent(_) | Link::TraceLent(_) | Link::OtherStore(_) | Link::TurnFlag(_) => true,
        Link::DamagedImage(_) | Link::BrokenState(_) | Link::LongTable => said.refused(),
        Link::SetWord(..) => false,
    }
}

/// A model that was opened, and what both engines have in hand of it.
struct Chain {
    image: Vec<u8>,
    decoded: Model,
    proved: Hand,
    reference: Hand,
    /// Whether nothing has befallen the table but calls.
    kept: bool,
}

impl Chain {
    /// Opens an image on both engines.
    fn open(image: &[u8]) -> Chain {
        let decoded = Model::decode(image).expect("a valid model");
        let [proved, reference] = BOTH.map(|engine| {
            let mut table = engine.zeros(image);
            let (_, _, state) = (engine.open)(image, &mut table);
            Hand { state, table, store: vec![0; STORE_WORDS] }
        });
        Chain { image: image.to_vec(), decoded, proved, reference, kept: true }
    }

    /// Adds a link and holds the engines to each other, to what a refusal leaves, and to the fresh table.
    fn add(&mut self, link: &Link) -> Said {
        let before = self.proved.clone();
        let said = make(&PROVED, &self.image, link, &mut self.proved);
        let other = make(&REFERENCE, &self.image, link, &mut self.reference);
        assert_eq!((&said, &self.proved), (&other, &self.reference), "{link:?} from {before:?}");
        if !said.numbers.is_empty() && said.refused() {
            assert_eq!(self.proved, before, "refused: {link:?}");
        }
        self.kept = self.kept && keeps(link, &said);
        if self.kept {
            assert_eq!(self.proved.table, self.decoded.fresh_table(&self.proved.state), "kept after {link:?}");
            self.hold_fresh(&before, link, &said);
        }
        said
    }

    /// While the table is kept nobody can tell a fresh run from a kept one: that of the link, and one from where it led.
    fn hold_fresh(&self, before: &Hand, link: &Link, said: &Said) {
        let Hand { state, table, store } = &self.proved;
        for engine in BOTH {
            if let Link::Trace(steps) = *link {
                let (number, position) = said.numbers[0];
                let told = (number, position, *state, said.events.clone());
                hold_fresh_to(engine, &self.image, before.state, steps, &told);
            }
            if let Link::Run(steps) = *link {
                let (number, position) = said.numbers[0];
                let ran = (number, position, *state, said.counts[0]);
                assert_eq!((engine.run_fresh)(&self.image, before.state, steps), ran, "{} {link:?}", engine.name);
            }
            if let Link::RunLent(steps) | Link::TraceLent(steps) = *link {
                let (number, position) = said.numbers[0];
                let (ran, mut lent) = ((number, position, *state, said.counts[0]), before.store.clone());
                let fresh = (engine.run_fresh_lent)(&self.image, before.state, steps, Some(&mut lent));
                assert_eq!(fresh, ran, "{} {link:?}", engine.name);
                assert!(lent == *store, "{} {link:?}: the stores differ", engine.name);
            }
            let kept = (engine.trace)(&self.image, *state, &mut table.clone(), BESIDE);
            hold_fresh_to(engine, &self.image, *state, BESIDE, &kept);
        }
    }
}

/// Makes one chain and counts the numbers that came up.
fn chain(rng: &mut Rng, numbers: &mut BTreeMap<u8, u32>) {
    let spec = model(rng);
    let packed = pack_with_fields(&spec);
    let mut chain = Chain::open(&packed.bytes);
    for _ in 0..LINKS {
        let said = chain.add(&link(rng, &spec, &packed, &chain.proved.state));
        said.numbers.iter().for_each(|(number, _)| *numbers.entry(*number).or_default() += 1);
        if !chain.decoded.is_well_formed(&chain.proved.state) {
            // A damaged image that is accepted may leave a state that this one refuses from here on.
            break;
        }
    }
}

#[test]
fn chains_of_calls_with_refused_ones_between() {
    let mut numbers = BTreeMap::new();
    each_seed(50_000, 6_000, |_, mut rng| chain(&mut rng, &mut numbers));
    println!("{numbers:?}");
    for number in 0..=15 {
        assert!(numbers.contains_key(&number), "no chain met {number}: {numbers:?}");
    }
}

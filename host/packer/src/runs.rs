//! Many runs in one call, on the proved library.

use std::sync::atomic::{AtomicU8, Ordering};

use jirvuntsag_proved::{calls, Buffer, Event, Number, Refusal, State, Step, Store};
use jirvuntsag_text::read_image;

/// Words of a state.
const STATE: usize = 89;
/// Words of a buffer.
const BUFFER: usize = 11;
/// Flags of an image: one for each rule, and the last one for waits.
const FLAGS: usize = 257;
/// Words of a learned fact.
const FACT: usize = 9;
/// What stands in place of a count where a run is lent no store.
const NOTHING: u16 = u16::MAX;
/// A run is traced in pieces, since most are short.
const PIECES: [u16; 3] = [64, 512, 4_096];

/// What is to be run.
#[derive(Clone, Copy, Debug)]
pub struct Runs<'a> {
    /// All images, one after the other.
    pub images: &'a [u8],
    /// Where each image ends.
    pub ends: &'a [u32],
    /// For each run the number of its image.
    pub jobs: &'a [u32],
    /// For each run its first state; none at all if each run begins with its image's opening.
    pub states: &'a [u32],
    /// For each run what its store has learned before: the count, and nine words for each fact; or 65,535 alone where it is
    /// lent no store. None at all if no run is lent one.
    pub stores: &'a [u16],
    /// For each image which events are kept: 257 flags; none at all if no event is.
    pub keep: &'a [u8],
    /// The most steps of each run.
    pub steps: u16,
    /// Another thread makes this 1 where no further run is to be begun.
    pub stop: Option<&'a AtomicU8>,
}

/// An image that was opened.
struct Opened<'a> {
    image: &'a [u8],
    state: State,
    table: Vec<u16>,
    keep: &'a [u8],
}

/// A run that was made.
struct Made {
    number: Number,
    state: State,
    store: Option<Vec<u16>>,
    made: u16,
    events: Vec<Event>,
}

/// Makes all runs, or those that were made when it was stopped. Part 1 has 92 words for each: the number, the steps made, the
/// events kept, the state; part 2 has three words for each event that is kept; part 3 has what the stores have then, in the
/// words of [`Runs::stores`], and nothing where no run is lent one.
pub fn run_all(runs: &Runs) -> Result<Vec<Vec<u8>>, String> {
    let opened = open_all(runs)?;
    if !runs.states.is_empty() && runs.states.len() != STATE * runs.jobs.len() {
        return Err(format!("{} words are no {} states", runs.states.len(), runs.jobs.len()));
    }
    let stores = stores_of(runs)?;
    let (mut rows, mut events, mut learned) = (Vec::new(), Vec::new(), Vec::new());
    let going_on = || runs.stop.is_none_or(|stop| stop.load(Ordering::Relaxed) == 0);
    for (at, &job) in runs.jobs.iter().enumerate().take_while(|_| going_on()) {
        let image =
            opened.get(job as usize).ok_or_else(|| format!("run {at} is of image {job}, which is not there"))?;
        let state = match runs.states.get(STATE * at..STATE * (at + 1)) {
            Some(words) => {
                state_of(words).ok_or_else(|| format!("a word of state {at} is over 65,535, or a flag over 1"))?
            }
            None => image.state,
        };
        let store = stores.get(at).copied().flatten().map(store_words);
        let made = run_one(image, state, store, runs.steps);
        let counts = [made.number.number().into(), made.made.into(), made.events.len() as u32];
        put(&mut rows, counts.into_iter().chain(words_of(&made.state)));
        put(&mut events, made.events.iter().flat_map(event_words));
        if !runs.stores.is_empty() {
            learned.extend(learned_words(made.store.as_deref()).iter().flat_map(|word| word.to_ne_bytes()));
        }
    }
    Ok(vec![rows, events, learned])
}

/// What each run's store has learned before, the count and the facts; nothing where it is lent none, none at all if no run is.
fn stores_of<'a>(runs: &Runs<'a>) -> Result<Vec<Option<&'a [u16]>>, String> {
    let (mut stores, mut left) = (Vec::new(), runs.stores);
    while let Some(&count) = left.first() {
        let at = stores.len();
        let facts = if count == NOTHING { 0 } else { usize::from(count) };
        if facts > Store::PLACES {
            return Err(format!("the store of run {at} has {facts} facts, and there are {} places", Store::PLACES));
        }
        let (told, rest) = left
            .split_at_checked(1 + FACT * facts)
            .ok_or_else(|| format!("the words end within the store of run {at}"))?;
        stores.push((count != NOTHING).then_some(told));
        left = rest;
    }
    match stores.len() {
        count if count == 0 || count == runs.jobs.len() => Ok(stores),
        count => Err(format!("{count} stores are not one for each of {} runs", runs.jobs.len())),
    }
}

/// All words of a store that has learned this before.
fn store_words(told: &[u16]) -> Vec<u16> {
    let mut words = vec![0; Store::WORDS];
    words[..told.len()].copy_from_slice(told);
    words
}

/// The count and the facts of a store, or what stands for none.
fn learned_words(store: Option<&[u16]>) -> &[u16] {
    match store {
        Some(words @ [count, ..]) => &words[..1 + FACT * usize::from(*count)],
        Some([]) | None => &[NOTHING],
    }
}

/// Opens each image once.
fn open_all<'a>(runs: &Runs<'a>) -> Result<Vec<Opened<'a>>, String> {
    if !runs.keep.is_empty() && runs.keep.len() != FLAGS * runs.ends.len() {
        return Err(format!("{} flags are no {FLAGS} for each image", runs.keep.len()));
    }
    let starts = std::iter::once(0).chain(runs.ends.iter().map(|&end| end as usize));
    let slices = starts.zip(runs.ends).map(|(start, &end)| runs.images.get(start..end as usize));
    let open = |(at, image): (usize, Option<&'a [u8]>)| {
        let image = image.ok_or_else(|| format!("image {at} ends before it begins, or past all"))?;
        let refused = |refusal| format!("image {at}: {}", explained(image, refusal));
        let mut table = vec![0; calls::table_length(image).map_err(refused)?];
        let (number, state) = calls::open(image, &mut table);
        number.ended().map_err(refused)?;
        let keep = runs.keep.get(FLAGS * at..FLAGS * (at + 1)).unwrap_or(&[]);
        Ok(Opened { image, state, table, keep })
    };
    slices.enumerate().map(open).collect()
}

/// Why the library refuses an image: the field, the rule that it breaks and what was found.
fn explained(image: &[u8], refusal: Refusal) -> String {
    read_image(image).map_or_else(|refused| refused.to_string(), |_| refusal.to_string())
}

/// Makes a run from a state, with a store or none.
fn run_one(opened: &Opened, state: State, mut store: Option<Vec<u16>>, steps: u16) -> Made {
    let mut table = opened.table.clone();
    if state != opened.state {
        let (number, _) = calls::refresh(opened.image, &state, differing(&state, &opened.state), &mut table);
        if number.ended().is_err() {
            return Made { number, state, store, made: 0, events: Vec::new() };
        }
    }
    if opened.keep.is_empty() {
        let lent = store.as_deref_mut();
        let (number, state, made) = calls::run_lent(opened.image, &state, &mut table, steps, lent);
        return Made { number, state, store, made, events: Vec::new() };
    }
    trace_one(opened, state, table, store, steps)
}

/// Makes a run piece by piece and keeps the events that are wanted.
fn trace_one(opened: &Opened, state: State, mut table: Vec<u16>, store: Option<Vec<u16>>, steps: u16) -> Made {
    let number = Number::Ended(jirvuntsag_proved::End::Done);
    let mut run = Made { number, state, store, made: 0, events: Vec::new() };
    for piece in PIECES.into_iter().chain(std::iter::repeat(PIECES[2])) {
        let asked = piece.min(steps - run.made);
        let lent = run.store.as_deref_mut();
        let (number, state, events) = calls::trace_lent(opened.image, &run.state, &mut table, asked, lent);
        run.made += events.len() as u16;
        run.events.extend(events.into_iter().filter(|event| wanted(opened.keep, event)));
        (run.number, run.state) = (number, state);
        if number.number() != 0 || run.made == steps {
            break;
        }
    }
    run
}

/// Whether an event is to be kept.
fn wanted(keep: &[u8], event: &Event) -> bool {
    let flag = match event.step {
        Step::Fire { rule } => usize::from(rule),
        Step::Wait { .. } => FLAGS - 1,
    };
    keep.get(flag).is_some_and(|&flag| flag != 0)
}

/// The mark of the buffers that differ. One that the image does not have is nil in every state that is well formed.
fn differing(one: &State, other: &State) -> u16 {
    let marks = one.buffers.iter().zip(&other.buffers).enumerate();
    marks.filter(|(_, (one, other))| one != other).fold(0, |mark, (at, _)| mark | 1 << at)
}

/// The state of 89 words, if each of them fits.
fn state_of(words: &[u32]) -> Option<State> {
    let mut state = State { clock: words[0], ..State::default() };
    for (buffer, words) in state.buffers.iter_mut().zip(words[1..].chunks_exact(BUFFER)) {
        let mut small = [0; BUFFER];
        for (to, &word) in small.iter_mut().zip(words) {
            *to = u16::try_from(word).ok()?;
        }
        let [isa, slots @ .., delay, flag] = small;
        let error = [false, true].get(usize::from(flag)).copied()?;
        *buffer = Buffer { isa, slots, delay, error };
    }
    Some(state)
}

/// The 89 words of a state.
fn words_of(state: &State) -> impl Iterator<Item = u32> + '_ {
    let buffer = |buffer: &Buffer| [&[buffer.isa], &buffer.slots[..], &[buffer.delay, buffer.error.into()]].concat();
    std::iter::once(state.clock).chain(state.buffers.iter().flat_map(buffer).map(u32::from))
}

/// The clock after a step; 0 and the rule, or 1 and the ms.
fn event_words(event: &Event) -> [u32; 3] {
    match event.step {
        Step::Fire { rule } => [event.clock, 0, rule.into()],
        Step::Wait { ms } => [event.clock, 1, ms.into()],
    }
}

/// Words as bytes, in the order of this machine.
fn put(bytes: &mut Vec<u8>, words: impl Iterator<Item = u32>) {
    bytes.extend(words.flat_map(u32::to_ne_bytes));
}

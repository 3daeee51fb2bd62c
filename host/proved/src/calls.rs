//! The nine calls as they are: on an image's bytes and the words of a table and a store, with all that they give back, refused or not.

use crate::linked::{self, Lent};
use crate::number::{Number, Refusal};
use crate::state::{Event, State};
use crate::words::{self, events, number_and_count, state_of, words_of};

/// The words that the table of this image needs: nine for each rule, 0 for an image without rules; or why it is refused.
pub fn table_length(image: &[u8]) -> Result<usize, Refusal> {
    let (number, words) = number_and_count(linked::table_len(image));
    number.ended().map(|_| usize::from(words))
}

/// Opens an image. If it is refused the state is all zeros and the table as it was; otherwise the table is the fresh one.
pub fn open(image: &[u8], table: &mut [u16]) -> (Number, State) {
    let mut words = [0; words::STATE];
    let (number, _) = number_and_count(linked::open(image, table, &mut words));
    (number, state_of(&words))
}

/// Runs at most `steps` steps: the number, the state after the steps made, and how many these are.
pub fn run(image: &[u8], state: &State, table: &mut [u16], steps: u16) -> (Number, State, u16) {
    let mut words = words_of(state);
    let (number, made) = number_and_count(linked::run(image, &mut words, table, steps));
    (number, state_of(&words), made)
}

/// Runs as [`run`] does, and tells each step made.
pub fn trace(image: &[u8], state: &State, table: &mut [u16], steps: u16) -> (Number, State, Vec<Event>) {
    let mut words = words_of(state);
    let mut noted = vec![0; words::EVENT * usize::from(steps)];
    let (number, made) = number_and_count(linked::trace(image, &mut words, table, steps, &mut noted));
    (number, state_of(&words), events(&noted, made))
}

/// Makes the entries of the rules that test or query a marked buffer afresh: the number and how many rules these are.
/// Buffer b has weight 2 to the power b in `mark`.
pub fn refresh(image: &[u8], state: &State, mark: u16, table: &mut [u16]) -> (Number, u16) {
    number_and_count(linked::refresh(image, &words_of(state), mark, table))
}

/// Runs at most `steps` steps without a table, and matches every rule afresh at each: the number, the state after the steps
/// made, and how many these are. All three are those of [`run`] handed the fresh table of the state.
pub fn run_fresh(image: &[u8], state: &State, steps: u16) -> (Number, State, u16) {
    let mut words = words_of(state);
    let (number, made) = number_and_count(linked::run_fresh(image, &mut words, steps));
    (number, state_of(&words), made)
}

/// Runs as [`run_fresh`] does, and tells each step made.
pub fn trace_fresh(image: &[u8], state: &State, steps: u16) -> (Number, State, Vec<Event>) {
    let mut words = words_of(state);
    let mut noted = vec![0; words::EVENT * usize::from(steps)];
    let (number, made) = number_and_count(linked::trace_fresh(image, &mut words, steps, &mut noted));
    (number, state_of(&words), events(&noted, made))
}

/// Runs as [`run`] does, where a store may be lent, the words of [`crate::Store`]: a chunk that is cleared joins it.
/// With none it is [`run`].
pub fn run_lent(
    image: &[u8],
    state: &State,
    table: &mut [u16],
    steps: u16,
    store: Option<&mut [u16]>,
) -> (Number, State, u16) {
    let mut words = words_of(state);
    let answer = linked::run_lent(image, &mut words, table, steps, &mut [], Lent::of(store));
    let (number, made) = number_and_count(answer);
    (number, state_of(&words), made)
}

/// Runs as [`run_lent`] does, and tells each step made.
pub fn trace_lent(
    image: &[u8],
    state: &State,
    table: &mut [u16],
    steps: u16,
    store: Option<&mut [u16]>,
) -> (Number, State, Vec<Event>) {
    let mut words = words_of(state);
    let mut noted = vec![0; words::EVENT * usize::from(steps)];
    let answer = linked::run_lent(image, &mut words, table, steps, &mut noted, Lent::of(store));
    let (number, made) = number_and_count(answer);
    (number, state_of(&words), events(&noted, made))
}

/// Runs as [`run_fresh`] does, where a store may be lent. All that it answers and leaves is what [`run_lent`] does, handed
/// the fresh table of the state and the same store.
pub fn run_fresh_lent(image: &[u8], state: &State, steps: u16, store: Option<&mut [u16]>) -> (Number, State, u16) {
    let mut words = words_of(state);
    let answer = linked::run_fresh_lent(image, &mut words, steps, &mut [], Lent::of(store));
    let (number, made) = number_and_count(answer);
    (number, state_of(&words), made)
}

/// Runs as [`run_fresh_lent`] does, and tells each step made.
pub fn trace_fresh_lent(
    image: &[u8],
    state: &State,
    steps: u16,
    store: Option<&mut [u16]>,
) -> (Number, State, Vec<Event>) {
    let mut words = words_of(state);
    let mut noted = vec![0; words::EVENT * usize::from(steps)];
    let answer = linked::run_fresh_lent(image, &mut words, steps, &mut noted, Lent::of(store));
    let (number, made) = number_and_count(answer);
    (number, state_of(&words), events(&noted, made))
}

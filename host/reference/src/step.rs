//! One step: fire, wait or stop.

use crate::board::Board;
use crate::learning::Learner;
use crate::matching::Known;
use crate::memory::Wanted;
use crate::model::Model;
use crate::parts::{Action, Deed, Pattern};
use crate::place::place;
use crate::state::{Buffer, State};
use crate::store::FULL;
use crate::{FIRING, WORDS};

/// What a step did, or the number with which it was not made.
#[derive(Clone, Copy, PartialEq, Eq, Debug)]
pub(crate) enum Step {
    Fire(u16),
    Wait(u16),
    Stop(u8),
}

/// A run under way: the state, the table and what is known of it, and the store if one is lent.
pub(crate) struct Runner<'a> {
    model: &'a Model,
    board: Board,
    entries: &'a mut [[u16; WORDS]],
    known: Known,
    learner: Option<Learner<'a>>,
}

impl<'a> Runner<'a> {
    /// Takes up a state, a table of the right length, and a store if one is lent.
    pub fn new(model: &'a Model, state: &State, table: &'a mut [u16], learner: Option<Learner<'a>>) -> Self {
        let (entries, _) = table.as_chunks_mut::<WORDS>();
        let known = Known::of(&model.plan, entries);
        Runner { model, board: Board::new(&model.plan, state), entries, known, learner }
    }

    /// The state after the steps made.
    pub fn state(&self) -> State {
        self.board.state()
    }

    /// The clock after the steps made.
    pub fn clock(&self) -> u32 {
        self.board.clock
    }

    /// Makes one step and refreshes the table with its mark.
    #[inline]
    pub fn step(&mut self) -> Step {
        let (step, mark) = match self.known.matching.first() {
            Some(rank) => self.fire(rank),
            None => wait(self.model, &mut self.board),
        };
        if mark != 0 {
            self.model.plan.refresh(&self.board, mark, self.entries, &mut self.known);
        }
        step
    }

    /// Fires the rule at this rank if its entry is the fresh one, and clock and store have room.
    #[inline]
    fn fire(&mut self, rank: usize) -> (Step, u8) {
        let plan = &self.model.plan;
        let number = plan.rules[rank].number;
        let entry = &self.entries[usize::from(number)];
        // An entry written by this run stays fresh: whatever changes its buffers marks them.
        if !self.known.fresh.contains(rank) {
            if plan.fresh_entry(rank, &self.board) != *entry {
                return (Step::Stop(7), 0);
            }
            self.known.fresh.insert(rank);
        }
        fire(self.model, number, entry, &mut self.board, self.learner.as_mut())
    }
}

/// Fires a rule whose entry is fresh; gives the mark.
#[inline]
fn fire(
    model: &Model,
    number: u16,
    entry: &[u16; WORDS],
    board: &mut Board,
    mut learner: Option<&mut Learner>,
) -> (Step, u8) {
    let Some(clock) = board.clock.checked_add(u32::from(FIRING)) else {
        return (Step::Stop(8), 0);
    };
    let head = &model.parts.rules[usize::from(number)];
    let actions = model.parts.actions(head);
    if let Some(learner) = &mut learner {
        if !learner.gather(&model.memory, actions, board) {
            return (Step::Stop(FULL), 0);
        }
    }
    board.clock = clock;
    // An action leaves a delay of its own, so all delays may lose their 50 first.
    let mut mark = board.pass(FIRING);
    // The entry holds the values from before the step, and an action reads no buffer but its own.
    for action in actions {
        act(model, action, entry, board, learner.as_deref());
        mark |= 1 << action.buffer;
    }
    if let Some(learner) = learner {
        learner.join();
    }
    show(model, board, mark);
    (Step::Fire(number), mark)
}

/// One action on its buffer.
#[inline]
fn act(model: &Model, action: &Action, entry: &[u16; WORDS], board: &mut Board, learned: Option<&Learner>) {
    match action.deed {
        // A modified buffer was tested, so it is visible: its delay is 0 and stays 0.
        Deed::Modify => {
            for (slot, term) in action.pattern.packed() {
                board.set(place(action.buffer, slot), term.value(entry));
            }
            board.clear_error(action.buffer);
        }
        Deed::Request(isa) => board.put(action.buffer, request(model, learned, isa, &action.pattern, entry)),
        Deed::Clear => board.put(action.buffer, Buffer::default()),
    }
}

/// What a request leaves in its buffer: the best fact that fits, of the image or learned, or nil late. Learned facts have
/// activation 0 and come after the image's: the last to be looked at.
#[inline]
fn request(model: &Model, learned: Option<&Learner>, isa: u8, pattern: &Pattern, entry: &[u16; WORDS]) -> Buffer {
    let wanted = Wanted::new(pattern, entry);
    let of_image = model.memory.answer(isa, &wanted);
    let found = of_image.or_else(|| learned.and_then(|learned| learned.answer(isa, &wanted)));
    found.unwrap_or_else(|| model.memory.nothing())
}

/// Waits for the smallest delay above 0; gives the mark.
#[inline]
fn wait(model: &Model, board: &mut Board) -> (Step, u8) {
    let Some(least) = board.least_delay() else {
        return (Step::Stop(9), 0);
    };
    let Some(clock) = board.clock.checked_add(u32::from(least)) else {
        return (Step::Stop(8), 0);
    };
    board.clock = clock;
    let mark = board.pass(least);
    show(model, board, mark);
    (Step::Wait(least), mark)
}

/// Notes what the marked buffers show now.
#[inline]
fn show(model: &Model, board: &mut Board, mark: u8) {
    let mut left = mark;
    while left != 0 {
        board.show(&model.plan, left.trailing_zeros() as usize);
        left &= left - 1;
    }
}

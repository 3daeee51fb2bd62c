//! Matching: fresh entries, and a table kept in step with its marks.

use crate::board::Board;
use crate::model::Model;
use crate::place::Place;
use crate::plan::{Plan, Ranked};
use crate::set::{member, Set};
use crate::state::State;
use crate::WORDS;

/// An entry of a rule that does not match.
pub(crate) const NO_MATCH: [u16; WORDS] = [0; WORDS];
/// What an empty slot holds.
const NIL: u16 = 0;

/// What is known of a table's entries, by rank.
#[derive(Clone, Copy, Default)]
pub(crate) struct Known {
    /// Entries whose first word is 1.
    pub matching: Set,
    /// Entries that are fresh, since they were written or compared.
    pub fresh: Set,
    /// Entries that are nine zeros, which need not be written again.
    zeros: Set,
}

impl Known {
    /// First words of a table that was handed in; nothing else is taken on trust.
    pub fn of(plan: &Plan, entries: &[[u16; WORDS]]) -> Known {
        let mut known = Known::default();
        for (entry, &rank) in entries.iter().zip(&plan.ranks) {
            if entry[0] == 1 {
                known.matching.insert(usize::from(rank));
            }
        }
        known
    }
}

impl Plan {
    /// Of the rules in a word, those that match; `visit` meets each of them.
    #[inline]
    pub fn matches(&self, word: usize, among: u64, board: &Board, mut visit: impl FnMut(&Ranked)) -> u64 {
        // Types, visibility, queries and empty slots first, for 64 rules at a time.
        let sets = board.shown.iter().take(self.buffers).map(|&shown| &self.fits[usize::from(shown)]);
        let fit = sets.fold(among, |fit, set| fit & set.word(word));
        let mut left = fit & self.answered(word, board) & !self.unbound(word, board);
        let mut matched = 0;
        while left != 0 {
            let rank = member(word, left);
            let rule = &self.rules[rank];
            if self.slots_agree(rule, board) {
                visit(rule);
                matched |= 1 << (rank & 63);
            }
            left &= left - 1;
        }
        matched
    }

    /// Rules of a word of which all queries hold.
    #[inline]
    fn answered(&self, word: usize, board: &Board) -> u64 {
        let (mut answered, mut left) = (u64::MAX, self.queried);
        while left != 0 {
            let buffer = left.trailing_zeros() as usize & 7;
            answered &= self.answers[buffer][board.standing(buffer) as usize].word(word);
            left &= left - 1;
        }
        answered
    }

    /// Rules of a word of which a variable stands on an empty slot. A slot test with a variable fails when the slot holds
    /// nil (request 2026-01); a constant nil still tests for an empty slot. First places will do: the others hold the same.
    #[inline]
    fn unbound(&self, word: usize, board: &Board) -> u64 {
        let (mut unbound, mut left) = (0, self.bound);
        while left != 0 {
            let place = left.trailing_zeros();
            if board.at(place as Place) == NIL {
                unbound |= self.binders[place as usize].word(word);
            }
            left &= left - 1;
        }
        unbound
    }

    /// Whether the slots agree; given up at the first that differs.
    #[inline]
    fn slots_agree(&self, rule: &Ranked, board: &Board) -> bool {
        let gate = &rule.gate;
        board.at(gate.place) & gate.care == gate.symbol && self.others_agree(rule, board)
    }

    /// The comparisons behind the gate.
    #[inline]
    fn others_agree(&self, rule: &Ranked, board: &Board) -> bool {
        let equals = &self.equals[usize::from(rule.equals.0)..usize::from(rule.equals.1)];
        let sames = &self.sames[usize::from(rule.sames.0)..usize::from(rule.sames.1)];
        equals.iter().all(|equal| board.at(equal.place) == equal.symbol)
            && sames.iter().all(|same| board.at(same.place) == board.at(same.first))
    }

    /// The entry of a rule at this rank under the definition of a match.
    pub fn fresh_entry(&self, rank: usize, board: &Board) -> [u16; WORDS] {
        let mut entry = NO_MATCH;
        let (word, bit) = (rank >> 6, 1 << (rank & 63));
        self.matches(word, bit, board, |rule| rule.write_entry(board, &mut entry));
        entry
    }

    /// Rules of a word that test or query a buffer of the mark.
    #[inline]
    fn touched(&self, word: usize, mark: u8) -> u64 {
        let (mut touched, mut left) = (0, mark);
        while left != 0 {
            let buffer = left.trailing_zeros() as usize & 7;
            touched |= self.testers[buffer].word(word) | self.askers[buffer].word(word);
            left &= left - 1;
        }
        touched
    }

    /// Writes the fresh entries of the rules that test or query a buffer of the mark; gives their number.
    #[inline]
    pub fn refresh(&self, board: &Board, mark: u8, entries: &mut [[u16; WORDS]], known: &mut Known) -> u16 {
        let mut count = 0;
        for word in 0..self.words {
            let touched = self.touched(word, mark);
            let matched = self.matches(word, touched, board, |rule| {
                rule.write_entry(board, &mut entries[usize::from(rule.number)]);
            });
            let lost = touched & !matched;
            let zeros = known.zeros.word_mut(word);
            let mut left = lost & !*zeros;
            while left != 0 {
                entries[usize::from(self.rules[member(word, left)].number)] = NO_MATCH;
                left &= left - 1;
            }
            *zeros = *zeros & !touched | lost;
            let matching = known.matching.word_mut(word);
            *matching = *matching & !touched | matched;
            *known.fresh.word_mut(word) |= touched;
            count += touched.count_ones() as u16;
        }
        count
    }
}

impl Ranked {
    /// Writes the entry of a rule that matches, in place to spare a copy.
    #[inline]
    pub fn write_entry(&self, board: &Board, entry: &mut [u16; WORDS]) {
        *entry = NO_MATCH;
        entry[0] = 1;
        for (word, &source) in entry[1..].iter_mut().zip(&self.sources).take(usize::from(self.variables)) {
            *word = board.at(source);
        }
    }
}

impl Model {
    /// Words of a table for this model.
    pub fn table_len(&self) -> usize {
        WORDS * self.rule_count()
    }

    /// The fresh table for a state.
    pub fn fresh_table(&self, state: &State) -> Vec<u16> {
        let mut table = vec![0; self.table_len()];
        self.write_fresh(state, &mut table);
        table
    }

    /// The fresh entry of a rule; nine zeros for a number without a rule.
    pub fn fresh_entry(&self, rule: usize, state: &State) -> [u16; WORDS] {
        match self.plan.ranks.get(rule) {
            Some(&rank) => self.plan.fresh_entry(usize::from(rank), &Board::new(&self.plan, state)),
            None => NO_MATCH,
        }
    }

    /// Writes the fresh table over one of the right length.
    pub(crate) fn write_fresh(&self, state: &State, table: &mut [u16]) {
        let (entries, _) = table.as_chunks_mut::<WORDS>();
        // Every rule tests or queries a buffer, so the full mark touches them all.
        self.plan.refresh(&Board::new(&self.plan, state), u8::MAX, entries, &mut Known::default());
    }
}

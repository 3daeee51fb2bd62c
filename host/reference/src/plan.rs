//! The rules rearranged for matching: by preference, with their comparisons in flat lists.

use crate::parts::{Parts, Query, RuleHead};
use crate::place::{place, Place};
use crate::set::Set;
use crate::standing::{Standing, STANDINGS};
use crate::{BUFFERS, SLOTS};

/// The rules in the order in which they are chosen; a rule's rank is its index here.
#[derive(Clone, Debug)]
pub(crate) struct Plan {
    pub rules: Vec<Ranked>,
    /// Words of a set that these rules need.
    pub words: usize,
    /// Number of buffers.
    pub buffers: usize,
    /// The rank of each rule by number.
    pub ranks: Vec<u16>,
    /// For each buffer the ranks of the rules that test it.
    pub testers: [Set; BUFFERS],
    /// For each buffer the ranks of the rules that query it.
    pub askers: [Set; BUFFERS],
    /// The buffers that some rule queries, bit b for buffer b.
    pub queried: u8,
    /// For each buffer and how it stands, the ranks of the rules whose query of it holds or that do not query it.
    pub answers: [[Set; STANDINGS]; BUFFERS],
    /// For each buffer and what it shows, the ranks of the rules that can still match.
    pub fits: Vec<Set>,
    /// What a buffer can show: types 0 to T, or nothing.
    pub shows: usize,
    /// For each place the ranks of the rules of which a variable first stands there.
    pub binders: Vec<Set>,
    /// The places that are a variable's first in some rule, bit p for place p.
    pub bound: u64,
    /// Slots that must hold a symbol besides the gates, rule after rule.
    pub equals: Vec<Equal>,
    /// Slots that must hold the same value, rule after rule.
    pub sames: Vec<Same>,
}

/// A rule ready for matching; the alignment makes its address a shift.
#[derive(Clone, Copy, Debug)]
#[repr(align(32))]
pub(crate) struct Ranked {
    pub number: u16,
    pub variables: u8,
    /// The first symbol of the rule, kept here since most rules fail at it.
    pub gate: Gate,
    /// First place of each variable, where its value is read.
    pub sources: [Place; 8],
    pub equals: (u16, u16),
    pub sames: (u16, u16),
}

/// A slot and the symbol it must hold under a mask; a mask of 0 lets everything pass.
#[derive(Clone, Copy, Debug)]
pub(crate) struct Gate {
    pub place: Place,
    pub care: u16,
    pub symbol: u16,
}

/// A slot and the symbol it must hold.
#[derive(Clone, Copy, Debug)]
pub(crate) struct Equal {
    pub place: Place,
    pub symbol: u16,
}

/// A variable's later place and its first.
#[derive(Clone, Copy, Debug)]
pub(crate) struct Same {
    pub place: Place,
    pub first: Place,
}

/// No place: the variable has not stood in a test yet.
const NOWHERE: Place = 255;

impl Ranked {
    /// A rule before its tests are listed.
    const EMPTY: Ranked = Ranked {
        number: 0,
        variables: 0,
        gate: Gate { place: 0, care: 0, symbol: 0 },
        sources: [NOWHERE; 8],
        equals: (0, 0),
        sames: (0, 0),
    };
}

impl Plan {
    /// Ranks the rules and lists their comparisons.
    pub fn new(parts: &Parts) -> Plan {
        let order = preference(parts);
        let shows = usize::from(parts.types.count) + 2;
        let mut plan = Plan {
            rules: Vec::with_capacity(order.len()),
            words: order.len().div_ceil(64),
            buffers: usize::from(parts.buffers),
            ranks: vec![0; order.len()],
            testers: [Set::default(); BUFFERS],
            askers: [Set::default(); BUFFERS],
            queried: 0,
            answers: [[Set::default(); STANDINGS]; BUFFERS],
            fits: vec![Set::default(); usize::from(parts.buffers) * shows],
            shows,
            binders: vec![Set::default(); usize::from(parts.buffers) * SLOTS],
            bound: 0,
            equals: Vec::with_capacity(parts.tests.len()),
            sames: Vec::new(),
        };
        for (rank, &key) in order.iter().enumerate() {
            let number = key as u16;
            plan.ranks[usize::from(number)] = rank as u16;
            plan.add(parts, number);
            plan.add_queries(rank, parts.queries(&parts.rules[usize::from(number)]));
        }
        plan.admit_untested();
        plan.admit_unasked();
        plan
    }

    /// Lists one rule's comparisons under its rank.
    fn add(&mut self, parts: &Parts, number: u16) {
        let rank = self.rules.len();
        let head = &parts.rules[usize::from(number)];
        let (equals, sames) = (&mut self.equals, &mut self.sames);
        let (first_equal, first_same) = (equals.len(), sames.len());
        self.rules.push(Ranked { number, variables: head.variables, ..Ranked::EMPTY });
        let Some(rule) = self.rules.last_mut() else { return };
        for test in parts.tests(head) {
            let buffer = usize::from(test.buffer);
            self.testers[buffer].insert(rank);
            self.fits[buffer * self.shows + usize::from(test.isa)].insert(rank);
            for (slot, term) in test.pattern.packed() {
                let (place, symbol) = (place(test.buffer, slot), term.0);
                match term.variable() {
                    None if rule.gate.care == 0 => rule.gate = Gate { place, care: u16::MAX, symbol },
                    None => equals.push(Equal { place, symbol }),
                    Some(number) => match &mut rule.sources[number] {
                        source @ &mut NOWHERE => {
                            *source = place;
                            self.binders[usize::from(place)].insert(rank);
                            self.bound |= 1 << place;
                        }
                        source => sames.push(Same { place, first: *source }),
                    },
                }
            }
        }
        rule.equals = (first_equal as u16, equals.len() as u16);
        rule.sames = (first_same as u16, sames.len() as u16);
    }

    /// Lists the queries of the rule at a rank.
    fn add_queries(&mut self, rank: usize, queries: &[Query]) {
        for query in queries {
            let buffer = usize::from(query.buffer);
            self.queried |= 1 << buffer;
            self.askers[buffer].insert(rank);
            for &standing in Standing::answering(query.asks) {
                self.answers[buffer][standing as usize].insert(rank);
            }
        }
    }

    /// A rule that does not query a buffer fits however that buffer stands.
    fn admit_unasked(&mut self) {
        for (answers, askers) in self.answers.iter_mut().zip(&self.askers) {
            answers.iter_mut().for_each(|set| set.join_all_but(askers));
        }
    }

    /// A rule that does not test a buffer fits whatever that buffer shows.
    fn admit_untested(&mut self) {
        for (buffer, fits) in self.fits.chunks_exact_mut(self.shows).enumerate() {
            for set in fits {
                set.join_all_but(&self.testers[buffer]);
            }
        }
    }
}

/// Keys that rise as preference falls: highest utility first, then lowest number, which is the lower half.
fn preference(parts: &Parts) -> Vec<u32> {
    let key = |(number, rule): (usize, &RuleHead)| {
        let fallen = (i32::from(i16::MAX) - i32::from(rule.utility)) as u32;
        fallen << 16 | number as u32
    };
    let mut keys: Vec<u32> = parts.rules.iter().enumerate().map(key).collect();
    keys.sort_unstable();
    keys
}

//! Random valid models.

use jirvuntsag_packing::{
    pack, ActionSpec, ChunkSpec, Deed, FactSpec, ModelSpec, PatternSpec, QuerySpec, RuleSpec, Term, TestSpec,
};

use crate::places::{variable_places, Place};
use crate::queries::query;
use crate::rng::Rng;
use crate::shape::Shape;

/// Times on both sides of a firing, and the ends.
const LATENCIES: [u16; 12] = [0, 0, 1, 49, 50, 51, 99, 100, 101, 200, 65_534, 65_535];
/// Utilities around the change of sign, and ties.
const UTILITIES: [u16; 12] = [0, 0, 0, 0, 1, 1_000, 0x7ffe, 0x7fff, 0x8000, 0x8001, 0xfffe, 0xffff];
/// Activations with ties.
const ACTIVATIONS: [u16; 8] = [0, 0, 1, 10, 10, 10, 65_534, 65_535];
/// Most bytes of a valid image.
const LIMIT: usize = 65_536;

/// What is settled about a model while its rules are made.
struct Draft<'a> {
    rng: &'a mut Rng,
    shape: Shape,
    spec: ModelSpec,
    /// For each buffer the types it mostly holds; tests and requests that keep to them meet.
    lanes: Vec<[u8; 2]>,
}

/// A random valid model of any shape.
pub fn model(rng: &mut Rng) -> ModelSpec {
    let shape = Shape::random(rng);
    model_of(rng, shape)
}

/// A random valid model of a shape; rules are dropped if the image would be too large.
pub fn model_of(rng: &mut Rng, shape: Shape) -> ModelSpec {
    let mut draft = Draft { rng, shape, spec: ModelSpec::default(), lanes: Vec::new() };
    draft.declare();
    for _ in 0..shape.buffers {
        let chunk = draft.opening_chunk();
        draft.spec.opening.push(chunk);
    }
    let facts = if shape.types == 0 { 0 } else { shape.facts };
    for _ in 0..facts {
        let fact = draft.fact();
        draft.spec.facts.push(fact);
    }
    for _ in 0..shape.rules {
        let rule = match draft.spec.rules.last().cloned() {
            Some(last) if draft.rng.chance(10) => draft.filler(&last),
            _ => draft.rule(),
        };
        draft.spec.rules.push(rule);
    }
    let mut spec = draft.spec;
    while pack(&spec).len() > LIMIT {
        spec.rules.truncate(spec.rules.len() * 15 / 16);
    }
    spec
}

impl Draft<'_> {
    /// Version, failure latency, slot counts and lanes.
    fn declare(&mut self) {
        self.spec.version = Some(self.shape.version);
        self.spec.failure = self.time();
        for _ in 0..self.shape.types {
            let most = self.shape.slots;
            let count = self.count(0, most);
            self.spec.types.push(count as u8);
        }
        for _ in 0..self.shape.buffers {
            let lane = [self.any_type(1), self.any_type(0)];
            self.lanes.push(lane);
        }
    }

    /// A number from `least` to `most`, in full models mostly the most.
    fn count(&mut self, least: usize, most: usize) -> usize {
        if self.rng.chance(self.shape.full) {
            most
        } else {
            self.rng.from_to(least, most)
        }
    }

    /// A latency, mostly one of the telling ones.
    fn time(&mut self) -> u16 {
        if self.rng.chance(80) {
            self.rng.pick(&LATENCIES)
        } else {
            self.rng.word() as u16
        }
    }

    /// A symbol, mostly below the shape's number of symbols.
    fn symbol(&mut self) -> u16 {
        if self.rng.chance(2) {
            return 4_095;
        }
        self.rng.below(self.shape.symbols.clamp(1, 4_096)) as u16
    }

    /// A symbol that is not nil.
    fn filled(&mut self) -> u16 {
        match self.symbol() {
            0 => self.rng.from_to(1, self.shape.symbols.clamp(2, 4_096) - 1) as u16,
            symbol => symbol,
        }
    }

    /// A type from `lowest` to T, 0 if there is none.
    fn any_type(&mut self, lowest: usize) -> u8 {
        self.rng.from_to(lowest.min(self.shape.types), self.shape.types) as u8
    }

    /// A type for a buffer, mostly from its lane.
    fn type_for(&mut self, buffer: usize) -> u8 {
        match self.rng.below(20) {
            0..=11 => self.lanes[buffer][0],
            12..=16 => self.lanes[buffer][1],
            17..=18 => 0,
            _ => self.any_type(0),
        }
    }

    /// A chunk of a type with random slots, of which a few are empty.
    fn chunk(&mut self, isa: u8) -> ChunkSpec {
        let count = self.spec.slot_count(isa);
        let slots = (0..count).map(|_| if self.rng.chance(20) { 0 } else { self.filled() }).collect();
        ChunkSpec { isa, slots }
    }

    /// The opening chunk of the next buffer.
    fn opening_chunk(&mut self) -> ChunkSpec {
        let isa = self.type_for(self.spec.opening.len());
        self.chunk(isa)
    }

    /// A fact, mostly of a type that some buffer holds.
    fn fact(&mut self) -> FactSpec {
        let buffer = self.rng.below(self.shape.buffers);
        let isa = match self.type_for(buffer) {
            0 => self.any_type(1),
            isa => isa,
        };
        let activation = if self.rng.chance(70) { self.rng.pick(&ACTIVATIONS) } else { self.rng.word() as u16 };
        FactSpec { chunk: self.chunk(isa), activation, latency: self.time() }
    }

    /// A rule whose variables all stand in its tests.
    fn rule(&mut self) -> RuleSpec {
        let utility = if self.rng.chance(75) { self.rng.pick(&UTILITIES) } else { self.rng.word() as u16 };
        // Seldom no tests: such a rule matches in most states, and runs would stay at it.
        let untested = self.has_queries() && self.rng.chance(8);
        let (tests, variables) = if untested { (Vec::new(), 0) } else { self.tests() };
        let queries = self.queries(&tests);
        let size = self.count(0, self.shape.actions.min(self.shape.buffers));
        let buffers = self.rng.subset(self.shape.buffers, size);
        let mut actions = buffers.iter().map(|&buffer| self.action(buffer, &tests, variables)).collect();
        if self.shape.actions > 0 && self.rng.chance(self.shape.lively) {
            self.enliven(&tests, &queries, &mut actions);
        }
        RuleSpec { utility, variables: variables as u8, tests, queries, actions }
    }

    /// Whether the rules have queries.
    fn has_queries(&self) -> bool {
        self.shape.version == 2
    }

    /// The tests of a rule, at least one, and how many variables stand in them.
    fn tests(&mut self) -> (Vec<TestSpec>, u16) {
        let least = if self.rng.chance(60) { self.shape.variables.min(1) } else { 0 };
        let variables = self.rng.from_to(least, self.shape.variables) as u16;
        let size = self.count(1, self.shape.tests.clamp(1, self.shape.buffers));
        let buffers = self.rng.subset(self.shape.buffers, size);
        let mut tests: Vec<TestSpec> = buffers.iter().map(|&buffer| self.test(buffer, variables)).collect();
        let variables = renumber(&mut tests);
        (tests, variables)
    }

    /// The queries of a rule: none in about half of the rules, at least one if it has no tests.
    fn queries(&mut self, tests: &[TestSpec]) -> Vec<QuerySpec> {
        let least = usize::from(tests.is_empty());
        if !self.has_queries() || least == 0 && self.rng.chance(50) {
            return Vec::new();
        }
        let size = self.count(least, self.shape.queries.clamp(least, self.shape.buffers));
        let buffers = self.rng.subset(self.shape.buffers, size);
        buffers.into_iter().map(|buffer| query(self.rng, buffer as u8, tests)).collect()
    }

    /// A rule that fills a slot for another, where that has a variable; any rule if it has none.
    fn filler(&mut self, other: &RuleSpec) -> RuleSpec {
        let places = variable_places(other);
        let Some(&Place { buffer, slot, .. }) = places.get(self.rng.below(places.len())) else { return self.rule() };
        let mut tests = other.tests.clone();
        for test in tests.iter_mut().filter(|test| test.buffer == buffer) {
            let emptied = |(at, term)| (at, if at == slot { Term::Symbol(0) } else { term });
            test.pattern = PatternSpec::new(&test.pattern.named().map(emptied).collect::<Vec<_>>());
        }
        let variables = renumber(&mut tests) as u8;
        let actions = vec![ActionSpec::modify(buffer, &[(slot, Term::Symbol(self.filled()))])];
        RuleSpec { utility: other.utility, variables, tests, queries: other.queries.clone(), actions }
    }

    /// Lets the rule change a buffer that it tests, or asks if it tests none, so that it mostly does not match again at once.
    fn enliven(&mut self, tests: &[TestSpec], queries: &[QuerySpec], actions: &mut Vec<ActionSpec>) {
        let change = if tests.is_empty() { self.change_asked(queries) } else { self.change_tested(tests) };
        // One action for each buffer, and buffers rise.
        actions.retain(|action| action.buffer != change.buffer);
        actions.push(change);
        actions.sort_by_key(|action| action.buffer);
    }

    /// An action that mostly ends a query: a request makes its buffer busy, or free of an error.
    fn change_asked(&mut self, queries: &[QuerySpec]) -> ActionSpec {
        let QuerySpec { buffer, .. } = self.rng.pick(queries);
        if self.shape.types == 0 || self.rng.chance(20) {
            return ActionSpec::clear(buffer);
        }
        let isa = self.type_for(usize::from(buffer)).max(1);
        ActionSpec { buffer, deed: Deed::Request(isa, self.pattern(isa, 0, 0)) }
    }

    /// An action that mostly ends a test.
    fn change_tested(&mut self, tests: &[TestSpec]) -> ActionSpec {
        let test = &tests[self.rng.below(tests.len())];
        let named: Vec<(usize, Term)> = test.pattern.named().collect();
        let deed = if !named.is_empty() && self.rng.chance(80) {
            let (slot, term) = self.rng.pick(&named);
            // Another symbol ends a test for a symbol, and nil one for a variable.
            let symbol = match term {
                Term::Symbol(0) => self.filled(),
                Term::Symbol(_) => self.symbol(),
                Term::Variable(_) => 0,
            };
            Deed::Modify(PatternSpec::new(&[(slot, Term::Symbol(symbol))]))
        } else if self.shape.types > 0 && (test.isa == 0 || self.rng.chance(50)) {
            let isa = self.type_for(usize::from(test.buffer)).max(1);
            Deed::Request(isa, self.pattern(isa, 0, 0))
        } else {
            Deed::Clear
        };
        ActionSpec { buffer: test.buffer, deed }
    }

    /// A test of a buffer.
    fn test(&mut self, buffer: usize, variables: u16) -> TestSpec {
        let isa = self.type_for(buffer);
        TestSpec { buffer: buffer as u8, isa, pattern: self.pattern(isa, variables, 60) }
    }

    /// An action on a buffer; modifies only if it is tested.
    fn action(&mut self, buffer: usize, tests: &[TestSpec], variables: u16) -> ActionSpec {
        let tested = tests.iter().find(|test| usize::from(test.buffer) == buffer);
        let deed = match (self.rng.below(10), tested) {
            _ if self.rng.chance(self.shape.clears) => Deed::Clear,
            (0..=4, Some(test)) => Deed::Modify(self.pattern(test.isa, variables, 50)),
            (0..=8, _) if self.shape.types > 0 => {
                let isa = self.type_for(buffer).max(1);
                Deed::Request(isa, self.pattern(isa, variables, 50))
            }
            _ => Deed::Clear,
        };
        ActionSpec { buffer: buffer as u8, deed }
    }

    /// Some slots of a type with terms; `share` in a hundred of them are variables.
    fn pattern(&mut self, isa: u8, variables: u16, share: usize) -> PatternSpec {
        let count = self.spec.slot_count(isa);
        // Mostly few slots, so that patterns often fit.
        let size = match self.rng.below(10) {
            _ if self.rng.chance(self.shape.full) => count,
            0..=1 => 0,
            2..=7 => self.rng.from_to(0, count.min(2)),
            _ => self.rng.from_to(0, count),
        };
        let named: Vec<(usize, Term)> =
            self.rng.subset(count, size).into_iter().map(|slot| (slot, self.term(variables, share))).collect();
        PatternSpec::new(&named)
    }

    /// A variable or a symbol.
    fn term(&mut self, variables: u16, share: usize) -> Term {
        if variables > 0 && self.rng.chance(share) {
            Term::Variable(self.rng.below(usize::from(variables)) as u16)
        } else {
            Term::Symbol(self.symbol())
        }
    }
}

/// Closes the gaps among the variables that stand in the tests; gives their number.
fn renumber(tests: &mut [TestSpec]) -> u16 {
    let mut used = [false; 8];
    for test in tests.iter() {
        for term in &test.pattern.terms {
            if let Term::Variable(number) = term {
                used[usize::from(*number)] = true;
            }
        }
    }
    let below = |number: usize| used[..number].iter().filter(|&&one| one).count() as u16;
    for test in tests.iter_mut() {
        for term in &mut test.pattern.terms {
            if let Term::Variable(number) = term {
                *number = below(usize::from(*number));
            }
        }
    }
    below(8)
}

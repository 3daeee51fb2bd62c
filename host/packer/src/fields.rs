//! From the fields of an image, one word each and in the image's order, to the model that they say.

use jirvuntsag_packing::{
    ActionSpec, ChunkSpec, Deed, FactSpec, ModelSpec, PatternSpec, QuerySpec, RuleSpec, Term, TestSpec,
};
use jirvuntsag_text::{Flaw, VERSIONS, WITH_QUERIES};

/// Terms from here on are variables.
const VARIABLES: u16 = 4_096;

/// The fields that are left.
struct Fields<'a> {
    left: std::slice::Iter<'a, u16>,
}

/// The model of these fields; every one must be used.
pub fn model_of(fields: &[u16]) -> Result<ModelSpec, String> {
    let mut fields = Fields { left: fields.iter() };
    let spec = fields.model()?;
    match fields.left.len() {
        0 => Ok(spec),
        more => Err(Flaw::Follows.told(format_args!("{more} fields follow the last one"))),
    }
}

impl Fields<'_> {
    /// The next field, which has so many bits.
    fn next(&mut self, what: &str, width: u8) -> Result<u16, String> {
        match self.left.next() {
            None => Err(Flaw::Missing.told(format_args!("the fields end before {what}"))),
            Some(field) if u32::from(*field) >> width != 0 => {
                Err(format!("{what} is {field}, which is too large for its field of {width} bits"))
            }
            Some(field) => Ok(*field),
        }
    }

    /// A field of at most eight bits.
    fn small(&mut self, what: &str, width: u8) -> Result<u8, String> {
        Ok(self.next(what, width)? as u8)
    }

    fn model(&mut self) -> Result<ModelSpec, String> {
        let version = self.next("the version", 8)?;
        if !VERSIONS.contains(&version) {
            return Err(Flaw::Version.told(format_args!("the version is {version}")));
        }
        let (buffers, types) = (self.next("the number of buffers", 4)?, self.next("the number of types", 6)?);
        let (rules, facts) = (self.next("the number of rules", 9)?, self.next("the number of facts", 10)?);
        let failure = self.next("the failure latency", 16)?;
        let mut spec = ModelSpec { version: Some(version as u8), failure, ..ModelSpec::default() };
        spec.types = (0..types).map(|_| self.small("a slot count", 4)).collect::<Result<_, _>>()?;
        spec.opening = (0..buffers).map(|_| self.chunk(&spec)).collect::<Result<_, _>>()?;
        spec.facts = (0..facts).map(|_| self.fact(&spec)).collect::<Result<_, _>>()?;
        spec.rules = (0..rules).map(|_| self.rule(version)).collect::<Result<_, _>>()?;
        Ok(spec)
    }

    fn chunk(&mut self, spec: &ModelSpec) -> Result<ChunkSpec, String> {
        let isa = self.small("a type", 6)?;
        if usize::from(isa) > spec.types.len() {
            return Err(Flaw::UnknownType.told(format_args!("type {isa} is not declared")));
        }
        let slots = (0..spec.slot_count(isa)).map(|_| self.next("a slot", 12)).collect::<Result<_, _>>()?;
        Ok(ChunkSpec { isa, slots })
    }

    fn fact(&mut self, spec: &ModelSpec) -> Result<FactSpec, String> {
        let chunk = self.chunk(spec)?;
        Ok(FactSpec { chunk, activation: self.next("an activation", 16)?, latency: self.next("a latency", 16)? })
    }

    fn rule(&mut self, version: u16) -> Result<RuleSpec, String> {
        let utility = self.next("a utility", 16)?;
        let (tests, actions) = (self.next("a number of tests", 4)?, self.next("a number of actions", 4)?);
        let variables = self.small("a number of variables", 4)?;
        let tests = (0..tests).map(|_| self.test()).collect::<Result<_, _>>()?;
        let queries = if version == WITH_QUERIES { self.next("a number of queries", 4)? } else { 0 };
        let queries = (0..queries).map(|_| self.query()).collect::<Result<_, _>>()?;
        let actions = (0..actions).map(|_| self.action()).collect::<Result<_, _>>()?;
        Ok(RuleSpec { utility, variables, tests, queries, actions })
    }

    fn query(&mut self) -> Result<QuerySpec, String> {
        Ok(QuerySpec { buffer: self.small("a buffer", 3)?, kind: self.small("a query's kind", 2)? })
    }

    fn test(&mut self) -> Result<TestSpec, String> {
        Ok(TestSpec { buffer: self.small("a buffer", 3)?, isa: self.small("a type", 6)?, pattern: self.pattern()? })
    }

    fn action(&mut self) -> Result<ActionSpec, String> {
        let buffer = self.small("a buffer", 3)?;
        let deed = match self.next("an action's kind", 2)? {
            0 => Deed::Modify(self.pattern()?),
            1 => Deed::Request(self.small("a type", 6)?, self.pattern()?),
            2 => Deed::Clear,
            kind => return Err(Flaw::ActionKind.told(format_args!("an action's kind is {kind}"))),
        };
        Ok(ActionSpec { buffer, deed })
    }

    fn pattern(&mut self) -> Result<PatternSpec, String> {
        let mask = self.small("a mask", 8)?;
        let terms = (0..mask.count_ones()).map(|_| self.next("a term", 13).map(term_of)).collect::<Result<_, _>>()?;
        Ok(PatternSpec { mask, terms })
    }
}

fn term_of(field: u16) -> Term {
    match field {
        symbol if symbol < VARIABLES => Term::Symbol(symbol),
        variable => Term::Variable(variable - VARIABLES),
    }
}

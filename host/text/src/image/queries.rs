//! The queries of a rule.

use jirvuntsag_packing::{ModelSpec, QuerySpec, RuleSpec};

use super::fields::Fields;
use super::rules::{buffer, count};
use crate::flaw::Flaw;
use crate::query::STATES;
use crate::refused::Refused;

/// The queries of a rule whose tests are read: one at least if it has none of those.
pub fn queries(fields: &mut Fields, spec: &ModelSpec, rule: &RuleSpec, whose: &str) -> Result<Vec<QuerySpec>, Refused> {
    let lowest = u16::from(rule.tests.is_empty());
    let number = count(fields, spec, lowest, Flaw::QueryCount, &format!("queries of {whose}"))?;
    let mut queries: Vec<QuerySpec> = Vec::new();
    for at in 0..number {
        let before = queries.last().map(|query| query.buffer);
        queries.push(query(fields, spec, before, &format!("query {at} of {whose}"))?);
    }
    Ok(queries)
}

/// One query.
fn query(fields: &mut Fields, spec: &ModelSpec, before: Option<u8>, whose: &str) -> Result<QuerySpec, Refused> {
    let buffer = buffer(fields, spec, before, whose)?;
    let kind = fields.at_most(2, STATES.len() - 1, Flaw::QueryKind, || format!("the kind of {whose}"))? as u8;
    Ok(QuerySpec { buffer, kind })
}

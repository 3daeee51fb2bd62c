//! The fields of a rule.

use jirvuntsag_packing::{ActionSpec, Deed, ModelSpec, PatternSpec, RuleSpec, Term, TestSpec};

use super::fields::{numbered, Fields, Wrong};
use super::queries::queries;
use super::type_of;
use crate::flaw::Flaw;
use crate::limits::VARIABLES;
use crate::refused::Refused;
use crate::version::WITH_QUERIES;

/// What a rule's terms and actions must know of the rule.
struct Scope<'m> {
    spec: &'m ModelSpec,
    variables: u8,
}

/// The buffers that there are, by number.
fn buffers(spec: &ModelSpec) -> String {
    numbered("buffer", 0, spec.opening.len())
}

/// One rule, as the image's version has it.
pub fn rule(fields: &mut Fields, spec: &ModelSpec, version: u16, number: u16) -> Result<RuleSpec, Refused> {
    let whose = format!("rule {number}");
    let with_queries = version == WITH_QUERIES;
    let utility = fields.take(16, || format!("the utility of {whose}"))?;
    let tests = count(fields, spec, u16::from(!with_queries), Flaw::TestCount, &format!("tests of {whose}"))?;
    let actions = count(fields, spec, 0, Flaw::ActionCount, &format!("actions of {whose}"))?;
    let what = || format!("the number of variables of {whose}");
    let variables = fields.at_most(4, VARIABLES, Flaw::VariableCount, what)? as u8;
    let scope = Scope { spec, variables };
    let mut rule = RuleSpec { utility, variables, ..RuleSpec::default() };
    for number in 0..tests {
        let test = test(fields, &scope, &rule.tests, &format!("test {number} of {whose}"))?;
        rule.tests.push(test);
    }
    if let Some(variable) = (0..u16::from(variables)).find(|&variable| !stands(&rule.tests, variable)) {
        let cause = format!("variable {variable} of {whose} stands in none of its tests, which end before this bit");
        return Err(fields.refused_here(Flaw::UntestedVariable, cause));
    }
    if with_queries {
        rule.queries = queries(fields, spec, &rule, &whose)?;
    }
    for number in 0..actions {
        let action = action(fields, &scope, &rule, &format!("action {number} of {whose}"))?;
        rule.actions.push(action);
    }
    Ok(rule)
}

/// A number of tests, queries or actions, `lowest` to the number of buffers.
pub fn count(fields: &mut Fields, spec: &ModelSpec, lowest: u16, flaw: Flaw, of: &str) -> Result<u16, Refused> {
    let wrong = |count: u16| {
        if count < lowest {
            return Some((flaw, count.to_string()));
        }
        let there = || format!("{count}, but the image has {}", buffers(spec));
        (usize::from(count) > spec.opening.len()).then(|| (flaw, there()))
    };
    fields.judged(4, || format!("the number of {of}"), wrong)
}

/// Whether a variable stands in one of these tests.
fn stands(tests: &[TestSpec], variable: u16) -> bool {
    tests.iter().any(|test| test.pattern.terms.contains(&Term::Variable(variable)))
}

/// A buffer below the count and above the one before it.
pub fn buffer(fields: &mut Fields, spec: &ModelSpec, before: Option<u8>, whose: &str) -> Result<u8, Refused> {
    let wrong = |buffer: u16| {
        if usize::from(buffer) >= spec.opening.len() {
            return Some((Flaw::UnknownBuffer, format!("{buffer}, but the image has {}", buffers(spec))));
        }
        let before = before.filter(|&before| buffer <= u16::from(before))?;
        let found = format!("{buffer}, but the one before it is {before}; the image has {}", buffers(spec));
        Some((Flaw::BufferOrder, found))
    };
    Ok(fields.judged(3, || format!("the buffer of {whose}"), wrong)? as u8)
}

/// One test.
fn test(fields: &mut Fields, scope: &Scope, before: &[TestSpec], whose: &str) -> Result<TestSpec, Refused> {
    let buffer = buffer(fields, scope.spec, before.last().map(|test| test.buffer), whose)?;
    let isa = type_of(fields, scope.spec, 0, whose)?;
    Ok(TestSpec { buffer, isa, pattern: pattern(fields, scope, isa, whose)? })
}

/// One action.
fn action(fields: &mut Fields, scope: &Scope, rule: &RuleSpec, whose: &str) -> Result<ActionSpec, Refused> {
    let buffer = buffer(fields, scope.spec, rule.actions.last().map(|action| action.buffer), whose)?;
    let tested = rule.tests.iter().find(|test| test.buffer == buffer).map(|test| test.isa);
    let wrong = |kind| match (kind, tested) {
        (0, None) => Some(untested(scope.spec, rule, buffer)),
        (0, Some(_)) | (1 | 2, _) => None,
        _ => Some((Flaw::ActionKind, kind.to_string())),
    };
    let kind = fields.judged(2, || format!("the kind of {whose}"), wrong)?;
    let deed = match (kind, tested) {
        (0, Some(isa)) => Deed::Modify(pattern(fields, scope, isa, whose)?),
        (1, _) => {
            let isa = type_of(fields, scope.spec, 1, whose)?;
            Deed::Request(isa, pattern(fields, scope, isa, whose)?)
        }
        (2, _) => Deed::Clear,
        _ => unreachable!("kind {kind} of {whose} was refused"),
    };
    Ok(ActionSpec { buffer, deed })
}

/// What is wrong with a modify of a buffer that the rule does not test.
fn untested(spec: &ModelSpec, rule: &RuleSpec, buffer: u8) -> Wrong {
    let tested: Vec<String> = rule.tests.iter().map(|test| test.buffer.to_string()).collect();
    let tested = match tested.len() {
        0 => "no buffer".into(),
        1 => format!("buffer {}", tested[0]),
        _ => format!("buffers {}", tested.join(", ")),
    };
    let asked = if rule.queries.iter().any(|query| query.buffer == buffer) { " and only queries this one" } else { "" };
    let found =
        format!("0 (modify) of buffer {buffer}, but the rule tests {tested}{asked}; the image has {}", buffers(spec));
    (Flaw::UntestedBuffer, found)
}

/// A mask within the type's slots and a term for each of its ones.
fn pattern(fields: &mut Fields, scope: &Scope, isa: u8, whose: &str) -> Result<PatternSpec, Refused> {
    let slots = scope.spec.slot_count(isa);
    let past = |mask| {
        let has = || format!("type {isa} has {}: bits from {slots} on must be 0", numbered("slot", 0, slots));
        (mask & 0xff_u16 >> slots != 0).then(|| (Flaw::UnknownSlot, format!("{mask:08b}, but {}", has())))
    };
    let mask = fields.judged(8, || format!("the mask of {whose}"), past)? as u8;
    let named = (0..8).filter(|slot| mask & 0x80 >> slot != 0);
    let terms = named.map(|slot| term(fields, scope, &format!("the term for slot {slot} of {whose}")));
    Ok(PatternSpec { mask, terms: terms.collect::<Result<_, _>>()? })
}

/// A kind bit and twelve bits, one field.
fn term(fields: &mut Fields, scope: &Scope, what: &str) -> Result<Term, Refused> {
    let count = scope.variables.into();
    let wrong = |field: u16| {
        let variable = field.checked_sub(0x1000).filter(|&variable| usize::from(variable) >= count)?;
        let found = format!("variable {variable}, but the rule has {}", numbered("variable", 0, count));
        Some((Flaw::UnknownVariable, found))
    };
    let field = fields.judged(13, || what.into(), wrong)?;
    Ok(match field.checked_sub(0x1000) {
        Some(variable) => Term::Variable(variable),
        None => Term::Symbol(field),
    })
}

//! The rules of a model.

use std::collections::BTreeSet;

use jirvuntsag_reference::{Action, Deed, Model, Rule, FIRING};

use super::memory::Ask;
use super::shape::Shape;
use super::text::{template, terms};
use super::ANSWERS;

/// A rule for each rule, and one for each buffer that some rule clears without a test of it.
pub fn parts(model: &Model, shapes: &[Shape]) -> Vec<String> {
    let mut parts = Vec::new();
    for buffer in cleared_untested(model) {
        parts.push(template(&format!("clear-{buffer}"), &[], 0..0));
        parts.push(clears(&shapes[usize::from(buffer)]));
    }
    let saliences = saliences(model);
    let rules = model.rules().zip(saliences).enumerate();
    parts.extend(rules.map(|(number, (one, salience))| rule(shapes, number, &one, salience)));
    parts
}

/// The higher in the order of choice, the higher the salience: all differ, the least is 1.
fn saliences(model: &Model) -> Vec<usize> {
    let utilities: Vec<i32> = model.rules().map(|rule| i32::from(rule.utility)).collect();
    let mut order: Vec<usize> = (0..utilities.len()).collect();
    order.sort_by_key(|&number| (-utilities[number], number));
    let mut saliences = vec![0; order.len()];
    for (rank, number) in order.into_iter().enumerate() {
        saliences[number] = utilities.len() - rank;
    }
    saliences
}

/// Whether a rule tests a buffer.
fn tests(rule: &Rule, buffer: u8) -> bool {
    rule.tests.iter().any(|test| test.buffer == buffer)
}

/// Buffers that some rule clears without a test of them.
fn cleared_untested(model: &Model) -> BTreeSet<u8> {
    let mut buffers = BTreeSet::new();
    for rule in model.rules() {
        let clears = rule.actions.iter().filter(|action| action.deed == Deed::Clear);
        buffers.extend(clears.map(|action| action.buffer).filter(|&buffer| !tests(&rule, buffer)));
    }
    buffers
}

/// The rule that clears a buffer for rules that do not test it, and so cannot name its fact.
fn clears(shape: &Shape) -> String {
    let (buffer, empty) = (shape.buffer, shape.empty("0"));
    format!(
        "(defrule clear-{buffer} (declare (salience {ANSWERS}))
  ?clear <- (clear-{buffer})
  ?buffer <- (buffer-{buffer})
  =>
  (retract ?clear)
  (modify ?buffer{empty}))"
    )
}

/// One rule.
fn rule(shapes: &[Shape], number: usize, rule: &Rule, salience: usize) -> String {
    let mut text = format!("(defrule rule-{number} (declare (salience {salience}))");
    let mut bound = BTreeSet::new();
    for test in rule.tests {
        let changes = |action: &Action| action.buffer == test.buffer && Ask::of(action).is_none();
        let name = if rule.actions.iter().any(changes) { format!("?b{} <- ", test.buffer) } else { String::new() };
        text += &format!("\n  {name}{}", shapes[usize::from(test.buffer)].pattern(test, &mut bound));
    }
    text += "\n  =>";
    for action in rule.actions {
        text += &format!("\n  {}", deed(&shapes[usize::from(action.buffer)], rule, action));
    }
    if shapes.iter().any(|shape| shape.late) {
        text += &format!("\n  (pass {FIRING})");
    }
    // CLIPS fires a rule once on the same facts, but a rule that changes nothing that it tests may fire again.
    if !rule.actions.iter().any(|action| tests(rule, action.buffer)) {
        text += &format!("\n  (refresh rule-{number})");
    }
    text + ")"
}

/// One action.
fn deed(shape: &Shape, rule: &Rule, action: &Action) -> String {
    let (buffer, terms) = (action.buffer, terms(&action.pattern));
    match (Ask::of(action), action.deed) {
        (Some(ask), _) => format!("(assert ({}{terms}))", ask.name()),
        (None, Deed::Clear) if tests(rule, buffer) => format!("(modify ?b{buffer}{})", shape.empty("0")),
        (None, Deed::Clear) => format!("(assert (clear-{buffer}))"),
        (None, _) => format!("(modify ?b{buffer}{terms})"),
    }
}

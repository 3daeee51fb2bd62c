//! A model as a program for CLIPS, as one would write it there by hand.
//!
//! A buffer is one fact, of a template of its own, and a rule is a rule, whose salience is its place in the order of choice.
//! Only a model with requests has a clock. A request is a fact that a rule of the memory answers, and what it answers stands
//! in the buffer with the clock at which it is due, 0 if it is visible. `(begin)` starts the model afresh. A model with queries is
//! not written.

mod clock;
mod memory;
mod rules;
mod shape;
mod text;

use jirvuntsag_reference::{Deed, Model, Rule};
use shape::Shape;

/// Salience of the rules that answer a request or clear a buffer: before anything arrives.
const ANSWERS: u16 = 2_000;
/// Salience of the rules by which a late chunk becomes visible: before any rule of the model, of which none is above 256.
const ARRIVES: u16 = 1_000;
/// Salience of waiting: after any rule of the model, of which none is below 1.
const WAITS: u16 = 0;

/// Whether a model is one that can be written: queries are not.
pub fn expresses(model: &Model) -> bool {
    model.rules().all(|rule| rule.queries.is_empty())
}

/// The program: templates, facts and rules, and the function `begin`.
pub fn program(model: &Model) -> String {
    let shapes: Vec<Shape> = (0..model.buffers()).map(|buffer| Shape::of(model, buffer)).collect();
    let mut parts: Vec<String> = shapes.iter().map(Shape::template).collect();
    parts.push(opening(model, &shapes));
    parts.extend(clock::parts(&shapes));
    parts.extend(memory::parts(model, &shapes));
    parts.extend(rules::parts(model, &shapes));
    parts.join("\n") + "\n"
}

/// As many firings as so many steps can take: a request, and what it brings, fire too.
pub fn most_firings(model: &Model, steps: u16) -> u32 {
    let others = |rule: Rule| rule.actions.iter().filter(|action| action.deed != Deed::Modify).count();
    let most = model.rules().map(others).max().unwrap_or(0) as u32;
    u32::from(steps) * (1 + 2 * most)
}

/// The opening chunks.
fn opening(model: &Model, shapes: &[Shape]) -> String {
    let fact = |shape: &Shape| {
        let chunk = &model.opening()[shape.buffer];
        format!("\n  (buffer-{}{})", shape.buffer, shape.chunk("0", chunk.isa, &chunk.slots))
    };
    format!("(deffacts opening{})", shapes.iter().map(fact).collect::<String>())
}

#[cfg(test)]
mod tests {
    use super::*;
    use jirvuntsag_packing::{model_a, pack, retries};

    /// Model A has all there is: a modify, a request, a clear, variables and two utilities.
    #[test]
    fn model_a_reads_as_one_would_write_it() {
        let model = Model::decode(&pack(&model_a())).expect("a valid model");
        let program = program(&model);
        let parts = [
            "(deftemplate buffer-1 (slot isa) (slot due) (slot s0) (slot s1))",
            "  (fact-1 (rank 1) (latency 100) (s0 2) (s1 3))",
            "(defrule rule-1 (declare (salience 1))
  ?b0 <- (buffer-0 (isa 2) (s0 ?v0&~0))
  (buffer-1 (due 0) (isa 1) (s0 ?v0) (s1 ?v1&~0))
  =>
  (modify ?b0 (s0 ?v1))
  (assert (ask-1-1-80 (s0 ?v1)))
  (pass 50))",
            "(defrule rule-2 (declare (salience 3))",
        ];
        for part in parts {
            assert!(program.contains(part), "{part}\nis not in\n{program}");
        }
        assert_eq!(most_firings(&model, 7), 21);
    }

    #[test]
    fn queries_are_not_written() {
        let [plain, asking] = [model_a(), retries()].map(|spec| Model::decode(&pack(&spec)).expect("a valid model"));
        assert!(expresses(&plain) && !expresses(&asking));
    }
}

//! The clock, waiting, and chunks that arrive.

use super::shape::Shape;
use super::{ARRIVES, WAITS};

/// Without requests nothing is late, and no clock is needed: it is 50 times the firings.
const BEGIN: &str = "(deffunction begin () (reset))";

/// The clock as a fact, so that rules see it, and as a number.
const CLOCK: &str = "(deftemplate clock (slot now))
(defglobal ?*now* = 0 ?*clock* = 0)
(deffunction begin () (reset) (bind ?*clock* (assert (clock (now 0)))))
(deffunction pass (?ms)
  (bind ?*now* (+ ?*now* ?ms))
  (bind ?*clock* (modify ?*clock* (now ?*now*))))";

/// All that has to do with time, and the function `begin`.
pub fn parts(shapes: &[Shape]) -> Vec<String> {
    let late: Vec<usize> = shapes.iter().filter(|shape| shape.late).map(|shape| shape.buffer).collect();
    let wait = match late[..] {
        [] => return vec![BEGIN.to_string()],
        [buffer] => wait_for_one(buffer),
        _ => wait_for_least(&late),
    };
    [CLOCK.to_string(), wait].into_iter().chain(late.into_iter().map(arrives)).collect()
}

/// Waiting where one buffer alone may be late.
fn wait_for_one(buffer: usize) -> String {
    format!(
        "(defrule wait (declare (salience {WAITS}))
  (buffer-{buffer} (due ?due&~0))
  =>
  (pass (- ?due ?*now*)))"
    )
}

/// Waiting where several may be late: to look for the least when it is needed is quicker than to keep it by patterns.
fn wait_for_least(late: &[usize]) -> String {
    let buffers: String = late.iter().map(|buffer| format!(" buffer-{buffer}")).collect();
    format!(
        "(deffunction least-due ()
  (bind ?least 0)
  (do-for-all-facts ((?late{buffers})) (> ?late:due 0)
    (if (or (= ?least 0) (< ?late:due ?least)) then (bind ?least ?late:due)))
  ?least)
(defrule wait (declare (salience {WAITS}))
  (clock)
  =>
  (bind ?due (least-due))
  (if (> ?due 0) then (pass (- ?due ?*now*))))"
    )
}

/// The rule by which a late chunk becomes visible.
fn arrives(buffer: usize) -> String {
    format!(
        "(defrule arrive-{buffer} (declare (salience {ARRIVES}))
  (clock (now ?now))
  ?buffer <- (buffer-{buffer} (due ?due&~0&:(<= ?due ?now)))
  =>
  (modify ?buffer (due 0)))"
    )
}

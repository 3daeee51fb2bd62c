"""A variable takes no empty slot (request 2026-01), and what stays as it was: a constant nil, and requests."""
import itertools
import unittest

from jirvuntsag import Miss, Model, Refused, Run, calls, explain
from jirvuntsag.matches import first_miss

from . import ROOT
from .packing import Rule, pack

# two slots of one buffer, and a buffer beside it; the rule for a full goal would be chosen if it matched
PAIRS = """
type pair left right
buffer goal pair left a
buffer beside

rule full utility 2
  =goal> pair left ?x right ?y
  ==>
  -goal>

rule half utility 1
  =goal> pair left ?x right nil
  ==>
  =goal> right b

rule twins
  =goal> pair left ?x right ?x
  ==>
  -goal>

rule beside-it
  =goal> pair left ?x
  =beside> pair right ?x
  ==>
  -beside>
"""

# what is told of these rules when left of the goal is a, and right is empty
HALF_TOLD = """\
    full       does not match: right of goal is empty, and variable ?y takes no empty slot (it has not fired)
    half       matches with x=a (it has not fired)
    twins      does not match: right of goal is empty, and variable ?x takes no empty slot (it has not fired)
    beside-it  does not match: beside holds chunk, not pair (it has not fired)
"""

# an image of one rule: type 1 in buffer 0, whose two slots have two variables; what is written is symbol 7
TWO_VARIABLES = pack([2], [(1, 5, 6)], rules=[Rule([(0, 1, {0: "v0", 1: "v1"})], [(0, "modify", {0: 7})])])


def goal_of(left="nil", right="nil"):
    """A run of the pairs whose goal holds these values."""
    run = Model.from_text(PAIRS).open()
    run.put("goal", "pair", {"left": left, "right": right})
    return run


class Reasons(unittest.TestCase):
    """What `why_not` says."""

    def test_a_variable_on_an_empty_slot(self):
        miss = goal_of("a").why_not("full")
        self.assertEqual(miss, Miss("goal", "empty", "right", "y", "nil"))
        self.assertEqual(str(miss), "right of goal is empty, and variable ?y takes no empty slot")

    def test_one_variable_in_two_slots(self):
        for left, right, slot in ("nil", "nil", "left"), ("nil", "a", "left"), ("a", "nil", "right"):
            told = str(goal_of(left, right).why_not("twins"))
            self.assertEqual(told, f"{slot} of goal is empty, and variable ?x takes no empty slot")
        self.assertEqual(str(goal_of("a", "b").why_not("twins")), "right of goal is b, not a")
        self.assertIsNone(goal_of("a", "a").why_not("twins"))

    def test_one_variable_in_two_buffers(self):
        run = goal_of("a")
        run.put("beside", "pair", {"left": "a"})
        self.assertEqual(str(run.why_not("beside-it")), "right of beside is empty, and variable ?x takes no empty slot")
        run.put("goal", "pair", {"right": "a"})
        self.assertEqual(str(run.why_not("beside-it")), "left of goal is empty, and variable ?x takes no empty slot")

    def test_constants_are_told_as_before(self):
        self.assertEqual(str(goal_of("a", "b").why_not("half")), "right of goal is b, not nil")
        model = Model.from_text("type t s\nbuffer goal t\nrule r\n=goal> t s a\n==>")
        self.assertEqual(str(model.open().why_not("r")), "s of goal is nil, not a")

    def test_without_names(self):
        run = Model(TWO_VARIABLES).open()
        run.put(0, 1, {0: 5})
        self.assertEqual(run.why_not(0), Miss(0, "empty", 1, 1, 0))
        self.assertEqual(str(run.why_not(0)), "slot 1 of buffer 0 is empty, and variable ?1 takes no empty slot")

    def test_the_rules_of_a_run_that_is_told(self):
        told = explain(goal_of("a"), 0).split("The rules then:\n")[1]
        self.assertEqual(told, HALF_TOLD)


class Matching(unittest.TestCase):
    """Which rules match, and what they do."""

    def matching(self, *values):
        """The rules that match a goal of these values."""
        return [match.name for match in goal_of(*values).matching()]

    def test_a_variable_stands_for_something_that_is_there(self):
        self.assertEqual(self.matching("a", "b"), ["full"])
        self.assertEqual(self.matching("a", "a"), ["full", "twins"])
        self.assertEqual(self.matching("nil", "b"), [])
        self.assertEqual(self.matching("nil", "nil"), [])

    def test_a_constant_nil_holds_on_an_empty_slot(self):
        run = goal_of("a")
        self.assertEqual(run.matching(), [(1, "half", 1000, {"x": "a"})])
        self.assertEqual(run.table, [(0,) * 9, (1, run.words[2], *[0] * 7), (0,) * 9, (0,) * 9])

    def test_there_is_a_reason_exactly_where_the_entry_is_zero(self):
        for left, right, other in itertools.product(["nil", "a", "b"], repeat=3):
            run = goal_of(left, right)
            run.put("beside", "pair", {"right": other})
            misses = [first_miss(run.model, rule, run.words) for rule in range(4)]
            self.assertEqual([miss is None for miss in misses], [entry[0] == 1 for entry in run.table])

    def test_a_half_filled_goal_sets_off_no_rule_for_a_full_one(self):
        run = goal_of("a")
        self.assertEqual([str(event) for event in run.steps(5)], ["50 fire half", "100 fire full"])

    def test_a_slot_that_a_rule_empties_is_empty(self):
        empties = Rule([(0, 1, {0: "v0", 1: "v1"})], [(0, "modify", {1: 0})])
        run = Model(pack([2], [(1, 5, 6)], rules=[empties])).open()
        self.assertEqual([str(event) for event in run.steps(5)], ["50 fire 0"])
        self.assertEqual(str(run.why_not(0)), "slot 1 of buffer 0 is empty, and variable ?1 takes no empty slot")


class KeptTables(unittest.TestCase):
    """A table from before the request may have nil for a variable: it is stale."""

    # the goal is (5, nil), and the entry is what a match gave before: 1, then 5 and nil
    STATE = [0, 1, 5, *[0] * 86]
    STALE = [1, 5, *[0] * 7]

    def test_it_is_refused_by_7_when_it_is_chosen(self):
        self.assertEqual(calls.run_steps(TWO_VARIABLES, self.STATE, self.STALE, 0)[:2], (0, 0))
        number, made, state, table, _ = calls.run_steps(TWO_VARIABLES, self.STATE, self.STALE, 3)
        self.assertEqual((number, made, list(state), list(table)), (7, 0, self.STATE, self.STALE))

    def test_one_that_is_not_chosen_is_not_noticed(self):
        better = Rule([(0, 1, {0: "v0"})], [(0, "modify", {0: 7})], 1)
        image = pack([2], [(1, 5, 6)], rules=[Rule([(0, 1, {0: "v0", 1: "v1"})], []), better])
        number, made, _, table, _ = calls.run_steps(image, self.STATE, [*self.STALE, 1, 5, *[0] * 7], 1)
        self.assertEqual((number, made, list(table)), (0, 1, [*[0] * 9, 1, 7, *[0] * 7]))

    def test_a_refresh_makes_it_fresh(self):
        number, count, table, _ = calls.refresh_table(TWO_VARIABLES, self.STATE, 1, self.STALE)
        self.assertEqual((number, count, list(table)), (0, 1, [0] * 9))
        self.assertEqual(calls.run_steps(TWO_VARIABLES, self.STATE, table, 1)[:2], (9, 0))

    def test_a_run_that_was_pickled_with_it(self):
        # this is how a run of that time comes out of its pickle
        old = Run(Model(TWO_VARIABLES), self.STATE, self.STALE)
        for ask in old.run, old.copy().step:
            with self.assertRaises(Refused) as refused:
                ask()
            self.assertEqual((refused.exception.number, refused.exception.made), (7, 0))
        self.assertIsNone(old.model.at(old.words).step())


class Requests(unittest.TestCase):
    """A request finds facts with empty slots as before."""

    def brought(self, slots, *facts):
        """What a request for these slots brings, of these facts, as values by slot."""
        ask = Rule([(0, 1, {})], [(1, "request", 1, slots)])
        run = Model(pack([2], [(1, 1, 1), (0,)], [((1, *fact), 0, 0) for fact in facts], [ask])).open()
        run.step()
        return run.buffers[1].slots

    def test_a_slot_that_the_request_does_not_name_may_be_empty(self):
        self.assertEqual(self.brought({0: 5}, (5, 0)), {0: 5, 1: 0})

    def test_a_constant_nil_asks_for_an_empty_slot(self):
        self.assertEqual(self.brought({1: 0}, (5, 6), (7, 0)), {0: 7, 1: 0})
        self.assertEqual(self.brought({1: 0}, (5, 6)), {})

    def test_what_came_with_an_empty_slot_sets_off_no_rule_for_a_full_chunk(self):
        ask = Rule([(0, 1, {0: "v0"}), (1, 0, {})], [(1, "request", 1, {0: "v0"})])
        use = Rule([(1, 1, {0: "v0", 1: "v1"})], [(1, "clear")])
        run = Model(pack([2], [(1, 5, 0), (0,)], [((1, 5, 0), 0, 0)], [ask, use])).open()
        self.assertEqual([str(event) for event in run.steps(5)], ["50 fire 0"])
        self.assertEqual(str(run.why_not(1)), "slot 1 of buffer 1 is empty, and variable ?1 takes no empty slot")


class Page(unittest.TestCase):
    """What docs/MODELS.md says of empty slots."""

    TEXT = (ROOT / "docs" / "MODELS.md").read_text(encoding="utf-8")

    def opened(self, mark):
        """A run of the model that the page has in a block of this mark."""
        return Model.from_text(self.TEXT.split(f"\n```{mark}\n")[1].split("```")[0]).open()

    def test_its_example_runs_as_it_says(self):
        run = self.opened("empty-slots")
        self.assertIn(f"`serve` does not match: `{run.why_not('serve')}`.", self.TEXT)
        self.assertIn("At 50 ms `add-water` fires, and at 100 ms `serve`.", self.TEXT)
        self.assertEqual([str(event) for event in run.steps(5)], ["50 fire add-water", "100 fire serve"])

    def test_why_rules_of_the_first_example_do_not_match_its_opening(self):
        run = self.opened("model")
        told = {str(run.why_not(rule)) for rule in ("increment", "stop")}
        self.assertEqual(told, {"count of goal is empty, and variable ?n takes no empty slot"})
        self.assertIn(f"here `increment` and `stop` do not match, because `{told.pop()}`.", self.TEXT)

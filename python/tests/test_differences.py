"""What docs/DIFFERENCES.md says of this machine, each on a model of a rule or two."""
import unittest

from jirvuntsag import Model, Store

from . import COUNTING
from .packing import Rule, pack

NIL = (0,)


def run_of(*opening, facts=(), rules=(), types=(2,), failure=200, store=Store()):
    """A run of a small model; type 1 has two slots, if nothing else is said."""
    version = 2 if any(rule.queries for rule in rules) else 1
    return Model(pack(types, opening, facts, rules, failure, version)).open(store=store)


def lines(run, steps=20):
    """The lines of a run's next steps."""
    return [str(event) for event in run.steps(steps)]


ASK = Rule([(0, 1, {0: "v0", 1: 0})], [(0, "modify", {1: 9}), (1, "request", 1, {0: "v0"})])


class Packing(unittest.TestCase):
    """The models of these tests are packed as others are."""

    def test_model_a(self):
        first = Rule([(0, 2, {0: "v0"}), (1, 0, {})], [(1, "request", 1, {0: "v0"})])
        tests = [(0, 2, {0: "v0"}), (1, 1, {0: "v0", 1: "v1"})]
        second = Rule(tests, [(0, "modify", {0: "v1"}), (1, "request", 1, {0: "v1"})])
        third = Rule([(0, 2, {0: "v0", 1: "v0"})], [(0, "clear")], 1000)
        facts = [((1, 1, 2), 10, 100), ((1, 2, 3), 10, 100)]
        self.assertEqual(pack([2, 2], [(2, 1, 3), NIL], facts, [first, second, third]), COUNTING.read_bytes())


class Seeing(unittest.TestCase):
    """What a rule sees."""

    def test_nothing_matches_on_a_pending_buffer(self):
        empty = Rule([(1, 0, {})], [(0, "clear")])
        run = run_of((1, 5, 0), NIL, rules=[ASK, empty._replace(utility=-1)], failure=300)
        self.assertEqual(lines(run, 3), ["50 fire 0", "350 wait 300", "400 fire 1"])

    def test_two_variables_may_be_alike(self):
        run = run_of((1, 4, 4), rules=[Rule([(0, 1, {0: "v0", 1: "v1"})], [(0, "clear")])])
        self.assertEqual(run.matching()[0].values, {0: 4, 1: 4})

    def test_a_test_holds_for_its_own_type_alone(self):
        rules = [Rule([(0, 1, {})], []), Rule([(0, 2, {})], [])]
        self.assertEqual([match.rule for match in run_of((2, 1, 1), types=(2, 2), rules=rules).matching()], [1])

    def test_a_failed_retrieval_shows_nil_after_its_latency(self):
        run = run_of((1, 5, 0), NIL, rules=[ASK], failure=120)
        self.assertEqual(lines(run), ["50 fire 0", "170 wait 120"])
        self.assertEqual((run.buffers[1].type, run.buffers[1].visible), (0, True))

    def test_a_query_asks_the_buffer_that_it_names(self):
        rules = [Rule([], [], queries=[(buffer, state)]) for buffer in (0, 1) for state in ("busy", "free")]
        run = run_of((1, 5, 0), NIL, rules=rules)
        run.put(1, 0, delay=5)
        self.assertEqual([match.rule for match in run.matching()], [1, 2])

    def test_a_failure_is_busy_then_free_and_in_error_and_no_empty_buffer_is_before(self):
        rules = [ASK, *(Rule([], [], queries=[(1, state)], utility=-1) for state in ("busy", "free", "error"))]
        rules.append(Rule([(1, 0, {})], [], -1))
        run, told = run_of((1, 5, 0), NIL, rules=rules, failure=50), []
        for _ in range(3):
            told.append([match.rule for match in run.matching()])
            run.step()
        self.assertEqual(told, [[0, 2, 4], [1], [2, 3, 4]])

    def test_an_error_lasts_until_the_next_action_on_its_buffer(self):
        again = [(1, "request", 1, {0: 7})], [(1, "modify", {})], [(1, "clear")], []
        for actions, lasts in zip(again, (False, False, False, True)):
            after = Rule([(1, 0, {})], actions, queries=[(1, "error")])
            run = run_of((1, 5, 0), NIL, facts=[((1, 7, 7), 0, 0)], rules=[ASK, after], failure=0)
            self.assertEqual(lines(run, 3), ["50 fire 0", "100 fire 1", *["150 fire 1"] * lasts])
            self.assertEqual(run.buffers[1].error, lasts)


class Timing(unittest.TestCase):
    """When things happen."""

    def test_what_arrives_within_a_firing_does_not_stop_it(self):
        run = run_of((1, 5, 0), NIL, rules=[Rule([(0, 1, {})], [(0, "clear")])])
        run.put(1, 1, {0: 3}, delay=20)
        self.assertEqual(lines(run), ["50 fire 0"])
        self.assertTrue(run.buffers[1].visible)

    def test_an_action_wins_over_what_arrives(self):
        run = run_of((1, 5, 0), NIL, rules=[Rule([(0, 1, {})], [(0, "clear"), (1, "clear")])])
        run.put(1, 1, {0: 3}, delay=20)
        self.assertEqual(lines(run), ["50 fire 0"])
        self.assertEqual(run.buffers[1].type, 0)

    def test_a_second_request_replaces_the_first(self):
        again = Rule([(0, 1, {1: 9})], [(0, "clear"), (1, "request", 1, {0: 6})])
        facts = [((1, 5, 5), 0, 400), ((1, 6, 6), 0, 100)]
        run = run_of((1, 5, 0), NIL, facts=facts, rules=[ASK, again])
        self.assertEqual(lines(run), ["50 fire 0", "100 fire 1", "200 wait 100"])
        self.assertEqual(run.buffers[1].slots, {0: 6, 1: 6})

    def test_a_rule_that_asks_first_makes_no_second_request(self):
        again = Rule([(0, 1, {1: 9})], [(0, "clear"), (1, "request", 1, {0: 6})], queries=[(1, "free")])
        facts = [((1, 5, 5), 0, 400), ((1, 6, 6), 0, 100)]
        run = run_of((1, 5, 0), NIL, facts=facts, rules=[ASK, again])
        self.assertEqual(lines(run), ["50 fire 0", "450 wait 400", "500 fire 1", "600 wait 100"])

    def test_actions_read_the_state_before_the_step(self):
        swap = Rule([(0, 1, {0: "v0"}), (1, 1, {0: "v1"})], [(0, "modify", {0: "v1"}), (1, "modify", {0: "v0"})])
        run = run_of((1, 5, 0), (1, 6, 0), rules=[swap])
        run.step()
        self.assertEqual([buffer.slots[0] for buffer in run.buffers.values()], [6, 5])

    def test_a_requested_buffer_holds_the_fact_at_once(self):
        run = run_of((1, 5, 0), (1, 8, 8), facts=[((1, 5, 5), 0, 70)], rules=[ASK])
        run.step()
        self.assertEqual(str(run.buffers[1]), "1 0=#5 1=#5 in 70 ms")


class Choosing(unittest.TestCase):
    """Which one is taken."""

    def test_of_equal_utilities_the_first(self):
        rules = [Rule([(0, 1, {})], [(0, "clear")], utility) for utility in (3, 7, 7)]
        self.assertEqual(lines(run_of((1, 5, 0), rules=rules)), ["50 fire 1"])

    def test_of_equal_activations_the_first(self):
        facts = [((1, 5, 1), 3, 0), ((1, 5, 2), 7, 0), ((1, 5, 3), 7, 0)]
        run = run_of((1, 5, 0), NIL, facts=facts, rules=[ASK])
        run.step()
        self.assertEqual(run.buffers[1].slots[1], 2)

    def test_the_lowest_activation_is_found(self):
        run = run_of((1, 5, 0), NIL, facts=[((1, 5, 4), 0, 0)], rules=[ASK])
        run.step()
        self.assertEqual(run.buffers[1].slots, {0: 5, 1: 4})


class Keeping(unittest.TestCase):
    """What is kept."""

    def asked_again(self, deed, store):
        """A run whose first rule does something to what buffer 1 holds, and whose second asks for it."""
        first = Rule([(0, 1, {1: 0}), (1, 1, {})], [(0, "modify", {1: 1}), deed])
        then = Rule([(0, 1, {1: 1})], [(0, "modify", {1: 2}), (1, "request", 1, {0: 8})], -1)
        return run_of((1, 5, 0), (1, 8, 8), facts=[((1, 7, 7), 0, 0)], rules=[first, then], failure=0, store=store)

    def test_what_is_cleared_is_remembered_where_a_store_is_lent(self):
        run = self.asked_again((1, "clear"), Store())
        self.assertEqual(lines(run), ["50 fire 0", "100 fire 1", "150 wait 50"])
        self.assertEqual(run.buffers[1].slots, {0: 8, 1: 8})

    def test_what_is_replaced_is_not_remembered_nor_anything_where_no_store_is_lent(self):
        for deed, store in ((1, "request", 1, {0: 7}), Store()), ((1, "clear"), None), ((1, "request", 1, {0: 7}), None):
            run = self.asked_again(deed, store)
            self.assertEqual(lines(run), ["50 fire 0", "100 fire 1"])
            self.assertEqual(run.buffers[1].type, 0)

    def test_a_tested_chunk_stays_and_its_rule_fires_again(self):
        run = run_of((1, 5, 0), rules=[Rule([(0, 1, {})], [])])
        self.assertEqual(lines(run, 3), ["50 fire 0", "100 fire 0", "150 fire 0"])

    def test_every_request_asks_declarative_memory(self):
        run = run_of((1, 5, 0), facts=[((1, 6, 6), 0, 0)], rules=[Rule([(0, 1, {0: 5})], [(0, "request", 1, {0: 6})])])
        run.step()
        self.assertEqual(run.buffers[0].slots, {0: 6, 1: 6})

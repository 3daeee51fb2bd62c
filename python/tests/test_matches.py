"""Why a rule does not match."""
import unittest

from jirvuntsag import Miss, Model, Refused
from jirvuntsag.matches import first_miss

from . import COUNTING, COUNTING_NAMES
from .test_vectors import cases, read_bytes, read_state


class Misses(unittest.TestCase):
    """The counting model, and the states and openings of all cases."""

    def setUp(self):
        self.run_ = Model.load(COUNTING, COUNTING_NAMES).open()

    def test_a_rule_that_matches_has_none(self):
        self.assertIsNone(self.run_.why_not("start"))

    def test_another_type(self):
        miss = self.run_.why_not("go-on")
        self.assertEqual(miss, Miss("retrieval", "type", None, "follows", "chunk"))
        self.assertEqual(str(miss), "retrieval holds chunk, not follows")

    def test_a_pending_buffer(self):
        self.run_.step()
        self.assertEqual(self.run_.why_not("go-on"), Miss("retrieval", "pending", None, None, 100))

    def test_a_variable_that_has_another_value(self):
        self.assertEqual(self.run_.why_not("stop"), Miss("goal", "slot", "target", "1", "3"))
        self.run_.put("retrieval", "follows", {"first": 2, "second": 3})
        self.assertEqual(str(self.run_.why_not("go-on")), "first of retrieval is 2, not 1")

    def test_rules_that_are_none(self):
        for rule, error in ("halt", ValueError), (3, ValueError), (None, TypeError):
            with self.assertRaises(error):
                self.run_.why_not(rule)

    def test_there_is_one_exactly_where_the_fresh_entry_is_zero(self):
        seen = set()
        for call, _ in cases():
            kind, image, state, *_ = [*call.split(" "), ""]
            try:
                model = Model(read_bytes(image))
                run = model.at(read_state(state)) if kind in ("run", "fresh", "refresh") else model.open()
            except Refused:
                continue
            for rule, entry in enumerate(run.table):
                miss = first_miss(run.model, rule, run.words)
                self.assertEqual(miss is None, entry[0] == 1)
                seen.add(miss and miss.what)
        self.assertEqual(seen, {None, "pending", "type", "empty", "slot", "query"})

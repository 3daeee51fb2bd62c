"""Runs, branches, states and matches of the counting model."""
import concurrent.futures
import copy
import json
import pickle
import unittest
import unittest.mock

from jirvuntsag import Buffer, Model, Refused, calls

from . import COUNT_FROM, COUNT_FROM_NAMES, COUNTING, COUNTING_NAMES
from .packing import Rule, pack

# a rule that always matches: it runs for ever
FOREVER = pack([1], [(1, 1)], rules=[Rule([(0, 1, {})], [(0, "modify", {0: 2})])])

LINES = ["50 fire start", "150 wait 100", "200 fire go-on", "300 wait 100", "350 fire go-on", "400 fire stop", "550 wait 150"]

# the times that D. Gall's thesis of 2013 prints in section 5.1, where 2.1999 s stands for 2.2 s
PUBLISHED = [
    "50 fire start",
    "1050 wait 1000",
    "1100 fire increment",
    "2100 wait 1000",
    "2150 fire increment",
    "2200 fire stop",
    "3150 wait 950",
]


class Published(unittest.TestCase):
    """A model of a paper."""

    def test_counting_from_2_to_4_has_the_printed_times(self):
        run = Model.load(COUNT_FROM, COUNT_FROM_NAMES).open()
        self.assertEqual([*map(str, run.steps())], PUBLISHED)
        self.assertEqual([str(buffer) for buffer in run.buffers.values()], ["chunk", "count-order first=4 second=5"])


class Runs(unittest.TestCase):
    """The counting model, by its names; test_fresh.py makes the same runs without a table."""

    FRESH, TRACE = False, "run_lent"

    def opened(self, model):
        """A run of the kind that is tested here."""
        return model.open(fresh=self.FRESH)

    def setUp(self):
        self.model = Model.load(COUNTING, COUNTING_NAMES)
        self.run_ = self.opened(self.model)

    def fresh_table(self):
        """The table of a run that is opened in the same state."""
        return self.model.at(self.run_.state).table

    def test_a_run_has_the_readmes_lines(self):
        ended = self.run_.run()
        self.assertEqual([*map(str, ended.events)], LINES)
        self.assertEqual((str(ended), ended.halted, self.run_.clock), ("end 9 7", True, 550))

    def test_steps_are_the_run(self):
        self.assertEqual([*map(str, self.run_.steps())], LINES)
        self.assertIsNone(self.run_.step())

    def test_a_limit_of_steps_is_kept(self):
        self.assertEqual(len([*self.run_.steps(3)]), 3)
        self.assertEqual([*self.run_.steps(0)], [])
        ended = self.run_.run(2)
        self.assertEqual((ended.number, ended.made, ended.halted), (0, 2, False))
        self.assertEqual(self.run_.run(0), (0, 0, []))

    def test_until_stops_at_the_clock(self):
        self.assertEqual(self.run_.until(200).made, 3)
        self.assertEqual(self.run_.until(200).made, 0)
        self.assertEqual(str(self.run_.until(10_000)), "end 9 4")

    def test_buffers_have_names_and_numbers(self):
        self.run_.step()
        self.assertEqual(self.run_.buffers["retrieval"], Buffer("follows", {"first": "1", "second": "2"}, 100))
        self.assertEqual(self.run_.buffers[1], self.run_.buffers["retrieval"])
        self.assertFalse(self.run_.buffers["retrieval"].visible)
        self.assertEqual([*self.run_.buffers], ["goal", "retrieval"])
        self.assertEqual(self.run_.buffers.get("imaginal"), None)

    def test_a_copy_goes_its_own_way(self):
        self.run_.step()
        for branch in self.run_.copy(), copy.copy(self.run_), copy.deepcopy(self.run_):
            branch.put("goal", "count", {"current": 2, "target": 3})
            self.assertEqual([*map(str, branch.steps())], LINES[1:2])
        self.assertEqual([*map(str, self.run_.steps())], LINES[1:])

    def test_what_is_put_is_matched(self):
        self.run_.put("goal", "count", {"current": 3, "target": 3})
        self.assertEqual([match.name for match in self.run_.matching()], ["start", "stop"])
        self.assertEqual(self.run_.matching()[1], (2, "stop", 1000, {"number": "3"}))
        self.assertEqual(self.run_.table, self.fresh_table())
        self.assertEqual(str(self.run_.step()), "50 fire stop")

    def test_what_is_cleared_is_not(self):
        self.run_.clear("goal")
        self.assertEqual((self.run_.matching(), self.run_.step()), ([], None))
        self.assertEqual(self.run_.table, self.fresh_table())

    def test_what_is_put_pending_is_seen_when_it_arrives(self):
        self.run_.put("goal", "count", {"current": 3, "target": 3}, delay=70)
        self.assertEqual(self.run_.matching(), [])
        self.assertEqual([str(event) for event in self.run_.steps(2)], ["70 wait 70", "120 fire stop"])

    def test_a_state_goes_through_json(self):
        self.run_.run(3)
        kept = json.loads(json.dumps(self.run_.state))
        again = self.opened(self.model)
        again.state = kept
        self.assertEqual((again.words, again.table), (self.run_.words, self.run_.table))
        self.assertEqual(again.run(), self.run_.run())

    def test_a_state_without_names_goes_through_json(self):
        model = Model.load(COUNTING)
        run = self.opened(model)
        run.run(3)
        self.assertEqual(model.at(json.loads(json.dumps(run.state))).words, run.words)

    def test_words_open_where_they_were_taken(self):
        self.run_.run(4)
        again = self.model.at(self.run_.words)
        self.assertEqual((again.words, again.table), (self.run_.words, self.run_.table))

    def test_the_table_stays_fresh(self):
        while self.run_.step():
            self.assertEqual(self.run_.table, self.fresh_table())

    def test_a_run_in_several_threads_keeps_a_table_that_fits(self):
        chunks = [("count", {"current": value, "target": 3}) for value in (1, 2, 3)]

        def work(number):
            for at in range(300):
                self.run_.put("goal", *chunks[(at + number) % 3])
                self.run_.run(3)

        with concurrent.futures.ThreadPoolExecutor(4) as threads:
            self.assertEqual([*threads.map(work, range(4))], [None] * 4)
        self.assertEqual(self.run_.table, self.fresh_table())

    def test_four_threads_lose_no_step(self):
        run = self.opened(Model(FOREVER))

        def work(_):
            return sum(run.run(3, events=False).made + (run.step() is not None) for _ in range(500))

        with concurrent.futures.ThreadPoolExecutor(4) as threads:
            made = sum(threads.map(work, range(4)))
        self.assertEqual((made, run.clock), (4 * 500 * 4, 50 * 4 * 500 * 4))

    def test_a_run_can_be_kept_by_pickle(self):
        self.run_.run(3)
        again = pickle.loads(pickle.dumps(self.run_))
        self.assertEqual((again.words, again.table, again.run()), (self.run_.words, self.run_.table, self.run_.run()))

    def test_a_run_in_pieces_is_the_run(self):
        for steps in 0, 1, 63, 64, 65, 319, 320, 321, 10_000, 65_535:
            run = self.opened(Model(FOREVER))
            *kept, store = run._kept
            number, made, *kept, events, store, _ = getattr(calls, self.TRACE)(FOREVER, *kept, steps, store)
            ended = run.run(steps)
            self.assertEqual((ended.number, ended.made, *run._kept), (number, made, *kept, store))
            self.assertEqual((number, made), (0, steps))
            self.assertEqual([event.clock for event in ended.events], list(events[::3]))

    def test_a_run_without_events_is_the_run(self):
        told, untold = self.run_.copy(), self.run_.copy()
        ended, other = told.run(), untold.run(events=False)
        self.assertEqual((other.number, other.made, other.events), (ended.number, ended.made, []))
        self.assertEqual(untold.words, told.words)
        untold.clock = 0xFFFF_FFFF
        untold.put("goal", "count", {"current": 1, "target": 3})
        with self.assertRaises(Refused) as caught:
            untold.run(events=False)
        self.assertEqual((caught.exception.number, caught.exception.events), (8, []))

    def test_a_run_lays_out_no_more_than_it_needs(self):
        asked, call = [], getattr(calls, self.TRACE)

        def trace(*given, **named):
            *_, steps, _ = given
            asked.append(steps)
            return call(*given, **named)

        with unittest.mock.patch.object(calls, self.TRACE, trace):
            self.run_.run()
        self.assertEqual(asked, [64])

    def test_a_clock_that_passes_in_a_later_piece(self):
        run = self.opened(Model(FOREVER))
        run.clock = 4_294_967_295 - 50 * 100
        with self.assertRaises(Refused) as caught:
            run.run()
        self.assertEqual((caught.exception.number, caught.exception.made, len(caught.exception.events)), (8, 100, 100))

    def test_the_clock_can_be_set_up_to_its_largest(self):
        self.run_.clock = 4_294_967_245
        self.assertEqual(self.run_.run(1).events[0].clock, 4_294_967_295)

    def test_a_clock_that_would_pass_is_refused_after_the_steps_made(self):
        self.run_.clock = 4_294_967_200
        with self.assertRaises(Refused) as caught:
            self.run_.run()
        self.assertEqual((caught.exception.number, caught.exception.made), (8, 1))
        self.assertEqual([*map(str, caught.exception.events)], ["4294967250 fire start"])
        self.assertEqual(self.run_.clock, 4_294_967_250)
        self.assertIn("clock would pass", str(caught.exception))

    def test_what_a_model_has(self):
        self.assertEqual(self.model.buffers, ["goal", "retrieval"])
        self.assertEqual(self.model.rules, ["start", "go-on", "stop"])
        self.assertEqual(self.model.types, {"chunk": [], "follows": ["first", "second"], "count": ["current", "target"]})
        self.assertEqual(Model.load(COUNTING).types, {0: [], 1: [0, 1], 2: [0, 1]})
        self.assertEqual([rule.variables for rule in self.model.shape.rules], [1, 2, 1])

"""What runs learn (request 2026-05): stores as values, and runs that are lent one, by both engines."""
import concurrent.futures
import copy
import itertools
import json
import pickle
import unittest
from array import array

import jirvuntsag as jv
from jirvuntsag import calls

from . import COUNTING, EXAMPLES
from .packing import Rule, pack
from .test_runs import LINES
from .test_vectors import cases, read_bytes, read_state, read_words

MODEL = jv.Model.load(EXAMPLES / "counting.model")
PUPIL_MODEL = jv.Model.load(EXAMPLES / "pupil.model")
SUM = jv.Fact("sum", {"first": "3", "second": "2", "result": "5"}, 0, 50)
GOAL = jv.Fact("count", {"current": "3", "target": "3"}, 0, 50)
NIL = (0,)
ENGINES = False, True


def small(opening, rules, facts=(), failure=200):
    """A small model by numbers, whose type 1 has two slots and type 2 one."""
    return jv.Model(pack([2, 1], opening, facts, rules, failure))


def store_of(*chunks):
    """The store of chunks by numbers, each its type with its values."""
    return jv.Store(jv.Fact(isa, dict(enumerate(values))) for isa, *values in chunks)


def chunks_of(store):
    """What `store_of` makes a store of."""
    return [(fact.type, *fact.slots.values()) for fact in store]


def full(*last):
    """A full store, whose last chunks are these."""
    others = ((1, 100 + number, number + 1) for number in range(256 - len(last)))
    return store_of(*others, *last)


# one rule that fires once and clears buffers 0 and 1
CLEAR_BOTH = Rule([(0, 1, {}), (1, 1, {})], [(0, "clear"), (1, "clear")])


class Values(unittest.TestCase):
    """A store can be kept, copied, compared and printed."""

    def setUp(self):
        self.run_ = PUPIL_MODEL.open()
        self.run_.run()
        self.store = self.run_.store

    def test_an_empty_one(self):
        store = jv.Store()
        self.assertEqual((len(store), [*store], store.words, str(store)), (0, [], (0,) * 2_305, ""))
        self.assertEqual(repr(store), "<Store of no facts>")

    def test_facts_go_into_words_and_come_back(self):
        self.assertEqual(([*self.store], len(self.store)), ([SUM], 1))
        self.assertEqual(jv.Store([SUM], PUPIL_MODEL), self.store)
        self.assertEqual(jv.Store([jv.Buffer("sum", {"first": 3, "second": 2, "result": 5})], PUPIL_MODEL), self.store)
        self.assertEqual(jv.Store(self.store, PUPIL_MODEL).words, self.store.words)
        self.assertEqual(self.store.words[:10], (1, 2, *self.store.words[2:5], 0, 0, 0, 0, 0))
        words = self.store.words
        for given in words, [*words], array("H", words), json.loads(json.dumps(words)):
            again = jv.Store.from_words(given, PUPIL_MODEL)
            self.assertEqual((again, [*again]), (self.store, [SUM]))

    def test_without_a_model_all_goes_by_numbers(self):
        bare = jv.Store.from_words(self.store.words)
        self.assertEqual(bare, self.store)
        (fact,) = bare
        self.assertEqual((fact.type, [*fact.slots], fact.activation, fact.latency), (2, [0, 1, 2], 0, 50))
        self.assertEqual(jv.Store(bare), self.store)
        self.assertEqual([*jv.Store(bare, PUPIL_MODEL)], [SUM])
        self.assertEqual(store_of((63, 4_095, 0, 0, 0, 0, 0, 0, 7)).words[:10], (1, 63, 4_095, 0, 0, 0, 0, 0, 0, 7))

    def test_they_are_printed_by_names(self):
        self.assertEqual(str(self.store), "fact sum first 3 second 2 result 5 activation 0 latency 50")
        self.assertEqual(repr(self.store), "<Store of 1 fact: sum first=3 second=2 result=5>")
        self.assertEqual(repr(jv.Store([jv.Fact(2, {1: 7})])), "<Store of 1 fact: 2 1=#7>")
        self.assertEqual(str(store_of((1, 5), (2, 6))).count("\n"), 1)
        self.assertEqual(repr(store_of(*[(1, 5)] * 6)), f"<Store of 6 facts: {', '.join(['1 0=#5'] * 4)}, ..>")

    def test_a_printed_store_can_be_said_in_a_text(self):
        text = (EXAMPLES / "pupil.model").read_text(encoding="utf-8")
        self.assertEqual(jv.Model.from_text(f"{text}\n{self.store}\n").facts, [*PUPIL_MODEL.facts, SUM])

    def test_equality_is_that_of_all_words(self):
        words = list(self.store.words)
        self.assertEqual({self.store, jv.Store([SUM], PUPIL_MODEL), jv.Store.from_words(words)}, {self.store})
        words[-1] = 9
        other = jv.Store.from_words(words)
        self.assertEqual(([*jv.Store(other, PUPIL_MODEL)], other == self.store, other != self.store), ([SUM], False, True))
        self.assertNotEqual(self.store, self.store.words)

    def test_copies_and_pickles(self):
        for store in self.store, jv.Store(), store_of((1, 5)):
            for other in copy.copy(store), copy.deepcopy(store), pickle.loads(pickle.dumps(store)):
                self.assertEqual((other, repr(other), hash(other)), (store, repr(store), hash(store)))

    def test_another_model_takes_the_facts_by_their_names(self):
        text = "type other\ntype sum result second first\nbuffer goal sum first 5 second 3"
        other = jv.Model.from_text(text + " result 2")
        self.assertEqual(str(jv.Store(self.store, other)), "fact sum result 5 second 2 first 3 activation 0 latency 50")

    def test_what_is_no_store(self):
        fact = jv.Fact("sum", {"frist": 1})
        for error, words, call in [
            (TypeError, "fact 0 of a store is a str, not a jv.Fact", lambda: jv.Store("sum")),
            (TypeError, "not iterable", lambda: jv.Store(5)),
            (TypeError, "the model of a store is a Model, or None, not a str", lambda: jv.Store([], "pupil")),
            (ValueError, "no slot of sum is named 'frist'; is it 'first'?", lambda: jv.Store([fact], PUPIL_MODEL)),
            (ValueError, "no type is named 'sum'", lambda: jv.Store([fact])),
            (ValueError, "there is no type 64", lambda: store_of((64, 1))),
            (ValueError, "there is no symbol 4096", lambda: store_of((1, 4_096))),
            (ValueError, "places for 256 facts, and these are more", lambda: jv.Store(itertools.repeat(SUM), PUPIL_MODEL)),
            (ValueError, "a store has 2,305 words, not 2,304", lambda: jv.Store.from_words([0] * 2_304)),
            (ValueError, "and its count is 257", lambda: jv.Store.from_words([257, *[0] * 2_304])),
            (ValueError, "each word of a store must be from 0 to 65,535", lambda: jv.Store.from_words([65_536])),
            (TypeError, "a store must be a sequence of whole numbers, not NoneType", lambda: jv.Store.from_words(None)),
            (TypeError, "what is lent is a jv.Store, or None for nothing, not a list", lambda: MODEL.open(store=[])),
            (TypeError, "what is lent is a jv.Store", lambda: jv.sweep([MODEL], store=5)),
        ]:
            with self.subTest(words=words), self.assertRaises(error) as caught:
                call()
            self.assertIn(words, str(caught.exception))
        self.assertEqual(len(jv.Store([SUM] * 256, PUPIL_MODEL)), 256)


class Learning(unittest.TestCase):
    """What runs learn and find again, by both engines."""

    def learned(self, model, chunks, store=jv.Store()):
        """Both engines run a model to its end, and learn these chunks; the events."""
        runs = [model.open(fresh=fresh, store=store) for fresh in ENGINES]
        ends = [run.run() for run in runs]
        self.assertEqual([chunks_of(run.store) for run in runs], [chunks_of(store) + chunks] * 2)
        self.assertEqual(ends[0], ends[1])
        return [*map(str, ends[0].events)]

    def test_a_chunk_that_is_cleared_is_retrieved(self):
        first = Rule([(0, 1, {1: 0}), (1, 1, {})], [(0, "modify", {1: 1}), (1, "clear")])
        then = Rule([(0, 1, {1: 1})], [(0, "modify", {1: 2}), (1, "request", 1, {0: 8})])
        model = small([(1, 5, 0), (1, 8, 9)], [first, then])
        self.assertEqual(self.learned(model, [(1, 8, 9)]), ["50 fire 0", "100 fire 1", "150 wait 50"])
        run = model.open()
        run.run()
        self.assertEqual(str(run.buffers[1]), "1 0=#8 1=#9")

    def test_the_pupil(self):
        run = PUPIL_MODEL.open()
        self.assertEqual((run.run().made, [*run.store]), (15, [SUM]))
        for fresh in ENGINES:
            again = PUPIL_MODEL.open(fresh=fresh, store=run.store)
            self.assertEqual([*map(str, again.steps())], ["50 fire ask", "100 wait 50", "150 fire know"])
            self.assertEqual((again.store, again.buffers["goal"].slots["answer"]), (run.store, "5"))

    def test_every_example_is_the_run_that_is_printed(self):
        traces = sorted(EXAMPLES.glob("*.trace"))
        self.assertGreater(len(traces), 5)
        for path, fresh in itertools.product(traces, ENGINES):
            with self.subTest(path=path.name, fresh=fresh):
                ended = jv.Model.load(path.with_suffix(".image")).open(fresh=fresh).run(1000)
                self.assertEqual([*map(str, ended.events), str(ended)], path.read_text(encoding="ascii").splitlines())

    def test_model_a_has_the_same_lines(self):
        for fresh, store in itertools.product(ENGINES, (None, jv.Store(), jv.Store([GOAL], MODEL))):
            run = MODEL.open(fresh=fresh, store=store)
            self.assertEqual([*map(str, run.steps())], LINES)
            self.assertEqual(run.store, None if store is None else jv.Store([GOAL], MODEL))

    def test_equal_chunks_in_two_buffers(self):
        self.assertEqual(self.learned(small([(1, 5, 6), (1, 5, 6)], [CLEAR_BOTH]), [(1, 5, 6)]), ["50 fire 0"])

    def test_two_chunks_go_by_rising_buffers(self):
        self.learned(small([(1, 9, 9), (1, 5, 6)], [CLEAR_BOTH]), [(1, 9, 9), (1, 5, 6)])

    def test_a_chunk_that_is_cleared_in_the_step_that_requests_it(self):
        rule = Rule([(0, 1, {})], [(0, "clear"), (1, "request", 1, {0: 5})])
        model = small([(1, 5, 6), NIL], [rule], failure=70)
        self.assertEqual(self.learned(model, [(1, 5, 6)]), ["50 fire 0", "120 wait 70"])

    def test_what_is_not_learned(self):
        clear = Rule([(0, 1, {0: 5})], [(0, "modify", {0: 6}), (1, "clear")])
        known = small([(1, 5, 0), (2, 7)], [clear], facts=[((2, 7), 9, 9)])
        self.assertEqual(self.learned(known, []), ["50 fire 0"])
        self.learned(small([(1, 5, 0), NIL], [clear]), [])
        ask = Rule([(0, 1, {0: 5})], [(0, "modify", {0: 6}), (1, "request", 1, {0: 9})])
        self.learned(small([(1, 5, 0), (2, 7)], [ask]), [])
        self.learned(small([(1, 5, 0), (2, 7)], [clear]), [], store_of((2, 7)))
        pending = small([(1, 5, 0), NIL], [clear])
        for fresh in ENGINES:
            run = pending.open(fresh=fresh)
            run.put(1, 2, {0: 7}, delay=80)
            self.assertEqual((run.run(1).made, len(run.store)), (1, 0))
            run.put(1, 2, {0: 7})
            run.clear(1)  # from outside: no rule has cleared it
            self.assertEqual(len(run.store), 0)

    def test_facts_of_the_model_come_first(self):
        ask = Rule([(0, 1, {1: 0})], [(0, "modify", {1: 9}), (1, "request", 1, {0: 5})])
        for activation, found in (0, 1), (1, 1):
            model = small([(1, 5, 0), NIL], [ask], facts=[((1, 5, 1), activation, 10)])
            for fresh in ENGINES:
                run = model.open(fresh=fresh, store=store_of((1, 5, 2), (1, 5, 3)))
                run.run()
                self.assertEqual(run.buffers[1].slots[1], found)
        run = small([(1, 5, 0), NIL], [ask]).open(store=store_of((1, 5, 2), (1, 5, 3)))
        run.run()
        self.assertEqual((run.buffers[1].slots[1], run.clock), (2, 100))

    def full_by(self, model, store, chunks):
        """Both engines end by 14 before any step, or learn these chunks."""
        for fresh in ENGINES:
            run = model.open(fresh=fresh, store=store)
            if chunks is None:
                with self.assertRaises(jv.Refused) as caught:
                    run.run()
                self.assertEqual((caught.exception.number, caught.exception.made), (14, 0))
                self.assertEqual((run.words, run.store, run.table), (model.open().words, store, model.open().table))
            else:
                self.assertEqual((run.run().number, chunks_of(run.store)), (9, chunks_of(store) + chunks))

    def test_a_full_store(self):
        two, one = small([(1, 9, 9), (1, 5, 6)], [CLEAR_BOTH]), small([(1, 9, 9), (1, 9, 9)], [CLEAR_BOTH])
        self.full_by(two, full(), None)
        self.full_by(one, full(), None)
        self.full_by(two, full((1, 5, 6)), None)
        self.full_by(two, full((1, 5, 6), (1, 9, 9)), [])
        self.full_by(one, full((1, 9, 9)), [])
        nearly = jv.Store([*full()][:255])
        self.full_by(two, nearly, None)
        self.full_by(one, nearly, [(1, 9, 9)])
        self.full_by(two, jv.Store([*full((1, 5, 6))][1:]), [(1, 9, 9)])

    def test_a_run_that_is_full_has_made_the_steps_before(self):
        others = [jv.Fact("follows", {"first": 1, "second": jv.symbol(100 + at)}) for at in range(256)]
        for fresh in ENGINES:
            run = MODEL.open(fresh=fresh, store=jv.Store(others, MODEL))
            with self.assertRaises(jv.Refused) as caught:
                run.run()
            self.assertEqual([*map(str, caught.exception.events)], LINES[:5])
            self.assertEqual(str(caught.exception), "refused by 14: the store would have more than 256 facts")
            self.assertEqual((run.clock, len(run.store)), (350, 256))
            run.store = None
            self.assertEqual([*map(str, run.steps())], LINES[5:])

    def test_a_store_that_the_model_could_not_hold(self):
        for store in store_of((3, 1)), store_of((0,)), store_of((2, 1, 1)), store_of((1, 1, 1), (2, 0, 0, 4)):
            for fresh, take in itertools.product(ENGINES, (self.open_with, self.at_with, self.set_to)):
                model = small([(1, 9, 9), (1, 5, 6)], [CLEAR_BOTH])
                with self.subTest(store=store), self.assertRaises(jv.Refused) as caught:
                    take(model, fresh, store)
                self.assertEqual((caught.exception.number, caught.exception.position), (15, 0))
        with self.assertRaisesRegex(jv.Refused, "by 15: the store has other than 256 places"):
            jv.Store([jv.Fact("chunk", {})], MODEL)
        with self.assertRaisesRegex(jv.Refused, "by 15"):
            jv.Store.from_words([1, 1, 4_096, *[0] * 2_302], MODEL)

    def open_with(self, model, fresh, store):
        """A store that is lent from the opening."""
        model.open(fresh=fresh, store=store)

    def at_with(self, model, fresh, store):
        """A store that is lent from a state."""
        model.at(model.open().words, fresh=fresh, store=store)

    def set_to(self, model, fresh, store):
        """A store that is set, in place of one that stays if it is refused."""
        run = model.open(fresh=fresh)
        try:
            run.store = store
        finally:
            self.assertEqual(run.store, jv.Store())


class Runs(unittest.TestCase):
    """How runs carry their stores."""

    def test_a_store_that_is_lent_is_not_written_to(self):
        for fresh in ENGINES:
            store = jv.Store()
            run = MODEL.open(fresh=fresh, store=store)
            run.run()
            self.assertEqual((len(store), len(run.store), len(MODEL.open().store)), (0, 1, 0))

    def test_nothing_is_lent(self):
        for fresh in ENGINES:
            run = PUPIL_MODEL.open(fresh=fresh, store=None)
            ended = run.run()
            # asked again it does not know, and it has cleared the sheet that it could count on
            self.assertEqual((str(ended), str(ended.events[-1])), ("end 9 14", "1200 wait 200"))
            self.assertEqual((run.store, run.copy().store, run.copy(fresh=not fresh).store), (None, None, None))
            self.assertIn("learning nothing", repr(run))
            self.assertNotIn("learning", repr(PUPIL_MODEL.open(fresh=fresh)))

    def test_what_a_run_does_in_pieces_it_learns_as_at_once(self):
        whole = PUPIL_MODEL.open()
        whole.run()
        for fresh in ENGINES:
            run = PUPIL_MODEL.open(fresh=fresh)
            self.assertEqual(len([*run.steps()]), 15)
            untold = PUPIL_MODEL.open(fresh=fresh)
            untold.run(events=False)
            self.assertEqual((run.store, untold.store, untold.words), (whole.store, whole.store, whole.words))

    def test_copies_and_pickles(self):
        for fresh, store in itertools.product(ENGINES, (jv.Store(), None)):
            run = PUPIL_MODEL.open(fresh=fresh, store=store)
            run.run(12)
            others = [run.copy(), run.copy(fresh=not fresh), copy.copy(run), copy.deepcopy(run)]
            others.append(pickle.loads(pickle.dumps(run)))
            for other in others:
                self.assertEqual((other.store, other.words), (run.store, run.words))
            branch = run.copy()
            branch.store = jv.Store() if store is None else None
            self.assertEqual(run.store, None if store is None else jv.Store([SUM], PUPIL_MODEL))
            self.assertEqual({other.run().made for other in others}, {run.run().made})

    def test_a_state_is_set_without_the_store(self):
        for fresh in ENGINES:
            run = PUPIL_MODEL.open(fresh=fresh)
            run.run()
            run.state = PUPIL_MODEL.open().state
            self.assertEqual((run.run().made, [*run.store]), (3, [SUM]))

    def test_a_run_of_before_learns_nothing(self):
        opened = MODEL.open()
        for words in [opened.words], [opened.words, calls.open_image(MODEL.image, [0] * 27).table]:
            run = jv.Run(MODEL, *words)
            self.assertEqual((run.run().made, run.store), (7, None))

    def test_the_words_are_written_out(self):
        with self.assertRaises(TypeError):
            MODEL.open(True, None)


class Calls(unittest.TestCase):
    """The two calls that a store may be lent to, on words."""

    IMAGE = COUNTING.read_bytes()
    OPENED = calls.open_image(IMAGE, [0] * 27)

    def test_what_is_past_the_count_stays(self):
        store = [0, *[7] * 2_304]
        for ran in (
            calls.run_lent(self.IMAGE, self.OPENED.state, self.OPENED.table, 100, store),
            calls.run_fresh_lent(self.IMAGE, self.OPENED.state, 100, store),
        ):
            self.assertEqual((ran.number, list(ran.store)), (9, [1, 2, 3, 3, 0, 0, 0, 0, 0, 0, *[7] * 2_295]))
        self.assertEqual(store, [0, *[7] * 2_304])

    def test_what_is_refused_is_left(self):
        unfit = [1, 3, *[0] * 2_303], [257, *[0] * 2_304], [0] * 2_304, [0] * 2_306, [], [1, 1, 4_096, *[0] * 2_302]
        for store, steps in itertools.product(unfit, (0, 9)):
            as_it_was, none = array("H", store), array("I")
            kept = calls.run_lent(self.IMAGE, self.OPENED.state, self.OPENED.table, steps, store)
            self.assertEqual(kept, (15, 0, self.OPENED.state, self.OPENED.table, none, as_it_was, 0))
            fresh = calls.run_fresh_lent(self.IMAGE, self.OPENED.state, steps, store)
            self.assertEqual(fresh, (15, 0, self.OPENED.state, none, as_it_was, 0))
        # 6 comes before it
        wrong = [0, 9, *[0] * 87]
        self.assertEqual(calls.run_fresh_lent(self.IMAGE, wrong, 9, [])[:2], (6, 0))

    def test_with_nothing_lent_they_are_the_others(self):
        for call, _ in cases():
            kind, *given = call.split(" ")
            if kind == "run":
                given = read_bytes(given[0]), read_state(given[1]), read_words(given[2]), int(given[3])
                told, bare, lent = calls.trace_steps(*given), calls.run_steps(*given), calls.run_lent(*given)
                untold = calls.run_lent(*given, events=False)
            elif kind == "fresh":
                given = read_bytes(given[0]), read_state(given[1]), int(given[2])
                told, bare, lent = calls.trace_fresh(*given), calls.run_fresh(*given), calls.run_fresh_lent(*given)
                untold = calls.run_fresh_lent(*given, events=False)
            else:
                continue
            self.assertEqual((told._asdict(), lent.store), (without(lent, "store"), None))
            self.assertEqual((bare._asdict(), untold.events), (without(untold, "store", "events"), array("I")))

    def test_words_that_are_none(self):
        for store, error in (5, TypeError), ("ab", TypeError), ([-1], ValueError), ([70_000], ValueError), ([1.5], TypeError):
            with self.assertRaisesRegex(error, "store"):
                calls.run_lent(self.IMAGE, self.OPENED.state, self.OPENED.table, 1, store)
            with self.assertRaisesRegex(error, "store"):
                calls.run_fresh_lent(self.IMAGE, self.OPENED.state, 1, store)


def without(answer, *names):
    """What a call gives back, by name, but for some."""
    return {name: value for name, value in answer._asdict().items() if name not in names}


def pupil(answer):
    """The pupil, who knows that sum from the start, or not."""
    fact = SUM._replace(slots={**SUM.slots, "result": answer})
    return PUPIL_MODEL.open(store=jv.Store([fact] if answer else [], PUPIL_MODEL))


class Sweeps(unittest.TestCase):
    """Each run of a sweep has its own store."""

    def test_rows_are_those_of_the_runs(self):
        known = jv.Store([SUM], PUPIL_MODEL)
        items = [PUPIL_MODEL, (PUPIL_MODEL, {}), PUPIL_MODEL.open(store=None), PUPIL_MODEL.open(store=known), MODEL]
        for fresh, events in itertools.product(ENGINES, (False, True)):
            rows = jv.sweep(items * 30, fresh=fresh, events=events)
            self.assertEqual([row.made for row in rows], self.made(items) * 30)
            self.assertEqual([row.store for row in rows[:4]], [known, known, None, known])
            self.assertEqual([*rows[4].store], [GOAL])

    def made(self, items):
        """The steps that items make, each by itself."""
        models = [item[0] if isinstance(item, tuple) else item for item in items]
        return [(model.copy() if isinstance(model, jv.Run) else model.open()).run().made for model in models]

    def test_models_are_lent_what_is_said(self):
        known = jv.Store([SUM], PUPIL_MODEL)
        for fresh in ENGINES:
            (row,) = jv.sweep([PUPIL_MODEL], store=known, fresh=fresh)
            self.assertEqual((row.made, row.store), (3, known))
            rows = jv.sweep([PUPIL_MODEL, (PUPIL_MODEL, {}), PUPIL_MODEL.open()], store=None, fresh=fresh)
            self.assertEqual([row.store for row in rows], [None, None, known])

    def test_rows_go_on(self):
        row = jv.sweep([PUPIL_MODEL], steps=12)[0]
        run = row.model.at(row.state, store=row.store)
        self.assertEqual((run.run().made, [*run.store]), (3, [SUM]))
        again = pickle.loads(pickle.dumps(row))
        self.assertEqual((again.store, again.as_dict()), (row.store, row.as_dict()))

    def test_a_full_store_ends_a_row(self):
        others = jv.Store([SUM._replace(slots={**SUM.slots, "first": jv.symbol(100 + at)}) for at in range(256)], PUPIL_MODEL)
        for fresh in ENGINES:
            (row,) = jv.sweep([PUPIL_MODEL], store=others, fresh=fresh)
            self.assertEqual((row.number, row.made, row.store), (14, 11, others))

    def test_a_store_that_an_item_could_not_hold(self):
        with self.assertRaises(jv.SweepFailed) as caught:
            jv.sweep([PUPIL_MODEL, MODEL], store=jv.Store([jv.Fact("task", {})], PUPIL_MODEL))
        self.assertEqual({at: error.number for at, error in caught.exception.errors.items()}, {1: 15})
        self.assertEqual(caught.exception.rows[0].made, 15)

    def test_processes(self):
        answers = [None, "5", "4", None]
        with concurrent.futures.ProcessPoolExecutor(2) as executor:
            for asked in {}, {"fresh": True}:
                made = jv.sweep(answers, pupil, executor=executor, **asked)
                given = jv.sweep([*map(pupil, answers)], executor=executor, **asked)
                for rows in made, given:
                    self.assertEqual([row.made for row in rows], [15, 3, 3, 15])
                    self.assertEqual([fact.slots["result"] for row in rows for fact in row.store], ["5", "5", "4", "5"])
            (row,) = jv.sweep([PUPIL_MODEL], executor=executor, store=jv.Store([SUM], PUPIL_MODEL))
        self.assertEqual(row.made, 3)

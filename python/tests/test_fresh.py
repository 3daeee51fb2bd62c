"""The engine that keeps no table (request 2026-02): nobody can tell its runs from those that keep one."""
import base64
import concurrent.futures
import copy
import ctypes
import pathlib
import pickle
import random
import subprocess
import sys
import tempfile
import unittest
import unittest.mock
import zlib
from array import array

import jirvuntsag as jv
from jirvuntsag import batches, calls, packer
from jirvuntsag.afresh import run_all_afresh

from . import COUNTING, COUNTING_NAMES, EXAMPLES, test_bad_input, test_runs
from .packing import Rule, pack
from .test_explain import WHOLE, said
from .test_vectors import cases, read_bytes, read_state

MODELS = {path.stem: jv.Model.load(path) for path in sorted(EXAMPLES.glob("*.model"))}
COUNTING_MODEL = MODELS["counting"]
IMAGE = COUNTING.read_bytes()
FOREVER = jv.Model(test_runs.FOREVER)
EMPTY = bytes.fromhex("0110000000000000")

# the counting model without names after three steps, pickled by version 0.3.0, whose runs all kept a table
PICKLED_BEFORE = """\
c-m`VnHt5!00upLS(!y;rFkXAiRpSprFm0&n1g`i<S9J@ND{gEDXBSAdRTqI^yDed?u-fz2?A`60uD?J2}}$MEDRzHCpZ`xBp3pi6&M&f\
8Wt!pI521!2mq~6QV?Nb;II&2Xy8y#U<yc3U}C?Zq@cqARNyehuWd>Y(BQ<PqQuH6JtFa7Mto6fa(-TMNl|HXNq!N~J`K1EC=GNUqvsTF\
HYXQG28I(rOPHXTnE^jwBtl&Z!^i_uN`Uc@!L5<O*Td*B#hc05i~@7ofmja!-Cao9"""


def pair(model):
    """Two runs from the opening: one that keeps a table, and one that keeps nothing."""
    return model.open(), model.open(fresh=True)


def outcome(call):
    """What a call gives, or by which number it is refused, after which steps."""
    try:
        return call()
    except jv.Refused as refused:
        return refused.number, refused.made, refused.events


def fresh_table(image, words):
    """The fresh table of a state; for what is refused a table of the right length."""
    zeros = [0] * calls.table_length(image).words
    return calls.refresh_table(image, words, 2 ** (image[1] >> 4) - 1, zeros).table if zeros else zeros


def without_table(answer):
    """What a call gives back, by name, but for its table."""
    return {name: value for name, value in answer._asdict().items() if name != "table"}


def slow(ms):
    """The counting model with another latency for each fact."""
    return COUNTING_MODEL.replace(facts=[fact._replace(latency=ms) for fact in COUNTING_MODEL.facts])


class FreshRuns(test_runs.Runs):
    """All that is tested of runs, with runs that keep nothing."""

    FRESH, TRACE = True, "run_fresh_lent"


class FreshBadStates(test_bad_input.BadStates):
    """What cannot be put into a run that keeps nothing."""

    FRESH = True


class Alike(unittest.TestCase):
    """Two runs side by side."""

    def compare(self, kept, fresh):
        """All that can be asked of both is the same."""
        self.assertEqual((kept.words, kept.state, dict(kept.buffers)), (fresh.words, fresh.state, dict(fresh.buffers)))
        self.assertEqual(kept.store, fresh.store)
        self.assertEqual((kept.table, kept.matching()), (fresh.table, fresh.matching()))
        self.assertEqual([*map(kept.why_not, kept.model.rules)], [*map(fresh.why_not, fresh.model.rules)])

    def test_every_step_of_every_example(self):
        self.assertGreater(len(MODELS), 7)
        for name, model in MODELS.items():
            with self.subTest(model=name):
                kept, fresh = pair(model)
                event = True
                while event:
                    self.compare(kept, fresh)
                    event = kept.step()
                    self.assertEqual(fresh.step(), event)

    def test_every_example_at_once(self):
        for name, model in MODELS.items():
            with self.subTest(model=name):
                kept, fresh = pair(model)
                self.assertEqual(kept.copy().run(events=False), fresh.copy().run(events=False))
                self.assertEqual(kept.copy().until(500), fresh.copy().until(500))
                self.assertEqual([*kept.copy().steps()], [*fresh.copy().steps()])
                self.assertEqual(kept.run(), fresh.run())
                self.compare(kept, fresh)

    def test_chains_with_changed_buffers(self):
        chooser = random.Random(5)
        for name, model in MODELS.items():
            with self.subTest(model=name):
                for _ in range(10):
                    self.chain(model, chooser)

    def chain(self, model, chooser):
        """Runs with changes from outside between them."""
        kept, fresh = pair(model)
        states = [kept.state]
        for _ in range(20):
            change = self.change(model, states, chooser)
            for run in kept, fresh:
                change(run)
            steps = chooser.randrange(4)
            self.assertEqual(outcome(lambda: kept.run(steps)), outcome(lambda: fresh.run(steps)))
            self.compare(kept, fresh)
            states.append(kept.state)

    def change(self, model, states, chooser):
        """Something that is done to a run from outside: a chunk, nothing in a buffer, another clock, a state from before."""
        buffer = chooser.choice(model.buffers)
        chunks = [*model.opening.values(), *(jv.Buffer(fact.type, fact.slots) for fact in model.facts)]
        chunk, delay = chooser.choice(chunks), chooser.choice([0, 0, 30, 100])
        clock, state = chooser.choice([0, 1_000, 2**32 - 120]), chooser.choice(states)
        changes = [
            lambda run: run.put(buffer, chunk.type, chunk.slots, delay),
            lambda run: run.clear(buffer),
            lambda run: setattr(run, "clock", clock),
            lambda run: setattr(run, "state", state),
        ]
        return chooser.choice(changes)

    def test_the_states_of_all_cases(self):
        seen = set()
        for call, _ in cases():
            kind, image, state, *_ = [*call.split(" "), ""]
            if kind not in ("run", "fresh", "refresh"):
                continue
            image, words = read_bytes(image), read_state(state)
            ran, traced = calls.run_fresh(image, words, 50), calls.trace_fresh(image, words, 50)
            table = fresh_table(image, words)
            kept, told = calls.run_steps(image, words, table, 50), calls.trace_steps(image, words, table, 50)
            self.assertEqual((ran._asdict(), traced._asdict()), (without_table(kept), without_table(told)))
            seen.add(ran.number)
        self.assertEqual(seen, {0, 2, 3, 4, 6, 8, 9, 11, 12, 13})

    def test_without_rules(self):
        kept, fresh = pair(jv.Model(EMPTY))
        self.compare(kept, fresh)
        self.assertEqual((kept.run(5), fresh.run(5)), ((9, 0, []), (9, 0, [])))


class Refusals(unittest.TestCase):
    """By which numbers the calls refuse, and what they leave."""

    def refused(self, number, image, state, steps=5, position=0):
        """Both calls refuse by this number before any step: the state is as it was handed in, and there are no events."""
        as_it_was = array("I", state)
        self.assertEqual(calls.run_fresh(image, state, steps), (number, 0, as_it_was, position))
        self.assertEqual(calls.trace_fresh(image, state, steps), (number, 0, as_it_was, array("I"), position))

    def test_images(self):
        for state in [0] * 89, list(range(89)), [2**32 - 1] * 89:
            self.refused(1, bytes(65_537), state)
            self.refused(2, b"", state)
            self.refused(2, EMPTY[:-1], state, position=53)
            self.refused(3, b"\x04" + EMPTY[1:], state)
            self.refused(3, EMPTY[:-1] + b"\x20", state, position=53)
            self.refused(4, EMPTY + b"\0", state)
            self.refused(4, EMPTY[:-1] + b"\x10", state)

    def test_states(self):
        start = list(COUNTING_MODEL.start)
        wrong = [(1, 3), (2, 4_096), (9, 1), (10, 65_536), (11, 1), (22, 2), (23, 1), (32, 1), (33, 1), (88, 2**32 - 1)]
        for at, word in wrong:
            with self.subTest(at=at, word=word):
                for steps in 0, 5:
                    self.refused(6, IMAGE, [*start[:at], word, *start[at + 1 :]], steps)

    def test_no_steps_are_all_made(self):
        self.assertEqual(calls.run_fresh(IMAGE, COUNTING_MODEL.start, 0), (0, 0, COUNTING_MODEL.start, 0))
        self.assertEqual(calls.trace_fresh(IMAGE, COUNTING_MODEL.start, 0), (0, 0, COUNTING_MODEL.start, array("I"), 0))

    def test_halted(self):
        self.refused(9, EMPTY, [0] * 89)
        ended = COUNTING_MODEL.open(fresh=True).run()
        self.assertEqual((ended.number, ended.made, ended.halted), (9, 7, True))

    def test_the_clock(self):
        start = list(COUNTING_MODEL.start)
        self.assertEqual(calls.run_fresh(IMAGE, [2**32 - 51, *start[1:]], 1)[:2], (0, 1))
        self.refused(8, IMAGE, [2**32 - 50, *start[1:]])
        ran = calls.trace_fresh(IMAGE, [2**32 - 101, *start[1:]], 5)
        self.assertEqual((ran.number, ran.made, ran.state[0], list(ran.events)), (8, 1, 2**32 - 51, [2**32 - 51, 0, 0]))

    def test_events_past_those_made_are_not_written(self):
        for image, state, made in (b"", [0] * 89, 0), (IMAGE, [0, 9, *[0] * 87], 0), (IMAGE, COUNTING_MODEL.start, 7):
            words, events = (ctypes.c_uint32 * 89)(*state), (ctypes.c_uint32 * 60)(*[77] * 60)
            calls._library().jirvuntsag_trace_fresh(image, len(image), words, 20, events, 60)
            self.assertEqual(list(events)[3 * made :], [77] * (60 - 3 * made))

    def test_others_never_come(self):
        chooser, numbers = random.Random(6), set()
        for _ in range(3_000):
            damaged = bytearray(IMAGE)
            damaged[chooser.randrange(len(IMAGE))] ^= 1 << chooser.randrange(8)
            state = array("I", COUNTING_MODEL.start)
            for _ in range(chooser.randrange(3)):
                state[chooser.randrange(89)] = chooser.choice([0, 1, 2, 3, 2**32 - 1])
            numbers.add(calls.run_fresh(chooser.choice([IMAGE, damaged]), state, chooser.randrange(40)).number)
        self.assertEqual(numbers, {0, 2, 3, 4, 6, 8, 9, 11, 12, 13})

    def test_arguments_are_not_written_to(self):
        state = array("I", COUNTING_MODEL.start)
        calls.run_fresh(IMAGE, state, 5)
        calls.trace_fresh(IMAGE, state, 5)
        self.assertEqual(state, COUNTING_MODEL.start)


class NothingKept(unittest.TestCase):
    """A run without a table has none, and none is made for it to move on."""

    def test_no_call_of_the_other_engine_is_made(self):
        kept = "open_image", "run_steps", "trace_steps", "run_lent", "refresh_table", "table_length"
        model, state = jv.Model(IMAGE), COUNTING_MODEL.open().words
        wrong = unittest.mock.Mock(side_effect=AssertionError("a table was asked for"))
        with unittest.mock.patch.multiple(calls, **dict.fromkeys(kept, wrong)):
            run = model.open(fresh=True)
            run.step()
            run.run(2, events=False)
            run.put(0, 2, {0: 2, 1: 3})
            run.clear(1)
            run.clock = 1_000
            run.state = run.state
            self.assertEqual([str(event) for event in run.copy().steps(2)], ["1050 fire 0", "1150 wait 100"])
            self.assertEqual(run.until(1_200).made, 3)
            self.assertEqual(model.at(state, fresh=True).run(), (9, 7, unittest.mock.ANY))
            self.assertEqual(jv.sweep([run.copy()])[0].number, 9)
        state, store = run._kept
        self.assertEqual((len(state), len(store)), (89, 2_305))

    def test_a_table_that_is_asked_for_is_made_then(self):
        run = COUNTING_MODEL.open(fresh=True)
        before = run.table
        before[0] = (0,) * 9
        self.assertEqual(run.table, COUNTING_MODEL.open().table)
        run.clear("goal")
        self.assertEqual((run.table, run.matching()), ([(0,) * 9] * 3, []))

    def test_it_says_so(self):
        kept, fresh = pair(COUNTING_MODEL)
        self.assertEqual((kept.fresh, fresh.fresh), (False, True))
        self.assertEqual(repr(fresh), repr(kept).replace("ms:", "ms, keeping nothing:"))
        with self.assertRaises(AttributeError):
            fresh.fresh = False

    def test_the_word_is_written_out(self):
        for call in COUNTING_MODEL.open, COUNTING_MODEL.open().copy:
            with self.assertRaises(TypeError):
                call(True)


class Choice(unittest.TestCase):
    """Copies and pickles carry it; a copy may make another."""

    def test_copies_and_pickles(self):
        for run in pair(COUNTING_MODEL):
            run.run(3)
            for other in run.copy(), copy.copy(run), copy.deepcopy(run), pickle.loads(pickle.dumps(run)):
                self.assertEqual((other.fresh, other.words, len(other._kept)), (run.fresh, run.words, len(run._kept)))
                other.run()
            self.assertEqual(run.clock, 200)

    def test_a_copy_with_the_other_engine(self):
        for run in pair(COUNTING_MODEL):
            run.run(3)
            for fresh in False, True:
                other = run.copy(fresh=fresh)
                self.assertEqual((other.fresh, other.words, other.table), (fresh, run.words, run.table))
                self.assertEqual(other.run(), run.copy().run())

    def test_a_pickle_from_before_keeps_its_table(self):
        run = pickle.loads(zlib.decompress(base64.b85decode(PICKLED_BEFORE)))
        again = jv.Model.load(COUNTING).open()
        again.run(3)
        self.assertEqual((run.fresh, run.words, run.table), (False, again.words, again.table))
        self.assertEqual(run.run(), again.run())

    def test_a_stale_table_from_before_is_left_behind(self):
        # the goal is (5, nil), and the entry is what a match gave before variables stopped taking nil
        image = pack([2], [(1, 5, 6)], rules=[Rule([(0, 1, {0: "v0", 1: "v1"})], [(0, "modify", {0: 7})])])
        old = jv.Run(jv.Model(image), [0, 1, 5, *[0] * 86], [1, 5, *[0] * 7])
        self.assertEqual(outcome(old.run), (7, 0, []))
        self.assertEqual(old.copy(fresh=True).run(), (9, 0, []))

    def test_any_state(self):
        run = COUNTING_MODEL.open()
        run.run(3)
        for state in run.words, run.state:
            other = COUNTING_MODEL.at(state, fresh=True)
            self.assertEqual((other.fresh, other.words), (True, run.words))


class Sweeps(unittest.TestCase):
    """Rows are the same with tables and without."""

    def alike(self, items, make=None, **asked):
        """The rows of a sweep with tables and of one without, which must be the same."""
        kept, fresh = (jv.sweep(items, make, fresh=fresh, **asked) for fresh in (False, True))
        for one, other in zip(kept, fresh):
            self.assertEqual((one.as_dict(), one.state, one.events), (other.as_dict(), other.state, other.events))
            self.assertEqual(one.store, other.store)
        self.assertEqual(len(kept), len(fresh))
        return fresh

    def test_every_example(self):
        models = [*MODELS.values()]
        for events in False, True:
            self.alike(models, events=events)
            self.alike(models * 60, events=events, steps=3)

    def test_all_kinds_of_items(self):
        late, run = COUNTING_MODEL.open(), COUNTING_MODEL.open()
        late.clock = 4_294_967_200
        run.run(3)
        items = [COUNTING_MODEL, run, late, FOREVER, (COUNTING_MODEL, {"goal": None})]
        self.alike(items, steps=100)
        rows = self.alike(items[:3], events=["start", "stop"])
        self.assertEqual([[*map(str, row.events)] for row in rows][2], ["4294967250 fire start"])
        self.assertEqual([row.number for row in rows], [9, 9, 8])
        self.assertEqual(run.clock, 200)

    def test_rules_that_have_another_number_in_another_model(self):
        rows = self.alike([COUNTING_MODEL, MODELS["count-stop-first"]] * 20, events=["stop"], workers=1)
        self.assertEqual({tuple(event.rule for event in row.events) for row in rows}, {(2,), (0,)})

    def test_models_that_are_made(self):
        self.alike(range(0, 500, 7), slow, events="stop")

    def test_a_long_run_has_all_its_events(self):
        (row,) = jv.sweep([FOREVER], events=True, fresh=True)
        self.assertEqual([event.clock for event in row.events], [50 * (at + 1) for at in range(65_535)])

    def test_a_run_that_keeps_nothing_gets_no_table(self):
        wrong = unittest.mock.Mock(side_effect=AssertionError("a table was asked for"))
        with unittest.mock.patch.object(batches, "run_all", wrong):
            jv.sweep([COUNTING_MODEL] * 3, fresh=True)
            jv.sweep([5], lambda ms: slow(ms).open(fresh=True))
        # with others in a batch, too
        rows = jv.sweep([COUNTING_MODEL, COUNTING_MODEL.open(fresh=True)] * 20, workers=1)
        self.assertEqual({row.clock for row in rows}, {550})
        mixed = batches.Batch([COUNTING_MODEL, COUNTING_MODEL.open(fresh=True)], batches.Asked(10))
        self.assertIs(mixed.run_all, run_all_afresh)

    def test_items_that_fail_leave_the_others(self):
        with self.assertRaises(jv.SweepFailed) as caught:
            jv.sweep([COUNTING_MODEL, 5, COUNTING_MODEL], fresh=True)
        self.assertEqual([row and row.clock for row in caught.exception.rows], [550, None, 550])

    def test_it_can_be_stopped(self):
        runs = packer.Runs([IMAGE], array("I", [0] * 3), array("I", [*COUNTING_MODEL.start] * 3), b"", 5)
        self.assertEqual(run_all_afresh(runs, ctypes.c_uint8(1)), [array("I"), array("I"), array("H")])
        self.assertEqual(run_all_afresh(runs, ctypes.c_uint8(0)), packer.run_all(runs))

    def test_processes(self):
        with concurrent.futures.ProcessPoolExecutor(2) as executor:
            made = jv.sweep(range(0, 90, 30), slow, executor=executor, fresh=True)
            given = jv.sweep([slow(ms) for ms in range(0, 90, 30)], executor=executor, fresh=True)
        clocks = [row.clock for row in jv.sweep(range(0, 90, 30), slow)]
        self.assertEqual(([row.clock for row in made], [row.clock for row in given]), (clocks, clocks))


class Told(unittest.TestCase):
    """Words and pictures of a run are the same."""

    def test_explanations(self):
        for name, model in MODELS.items():
            with self.subTest(model=name):
                told = jv.explain(model)
                self.assertEqual(jv.explain(model, fresh=True), told)
                for run in pair(model):
                    self.assertEqual((jv.explain(run), jv.explain(run, fresh=True)), (told, told))

    def test_nothing_is_kept_for_what_is_told(self):
        run = COUNTING_MODEL.open(fresh=True)
        with unittest.mock.patch.object(calls, "run_lent", side_effect=AssertionError("a table was asked for")):
            self.assertEqual(jv.explain(run), WHOLE)
            self.assertEqual(jv.explain(COUNTING_MODEL, fresh=True), WHOLE)
            self.assertEqual(jv.explain(COUNTING_MODEL.open(), fresh=True), WHOLE)
            self.assertIn("go-on", jv.timeline(run))
            for command in "explain", "timeline":
                self.assertEqual(said(command, EXAMPLES / "counting.model", "--fresh")[0], 0)

    def test_pictures(self):
        for model in MODELS.values():
            kept, fresh = map(jv.timeline, pair(model))
            self.assertEqual(kept, fresh)

    def test_commands(self):
        arguments = [EXAMPLES / "counting.model", "--fresh"]
        self.assertEqual(said("explain", *arguments), (0, WHOLE, ""))
        self.assertEqual(said("timeline", *arguments), said("timeline", *arguments[:1]))
        self.assertEqual(said("explain", COUNTING, "--names", COUNTING_NAMES, "--fresh"), (0, WHOLE, ""))
        for command in "explain", "timeline":
            self.assertIn("--fresh", said(command, "--help")[1])

    def test_the_command_itself(self):
        with tempfile.TemporaryDirectory() as folder:
            path = pathlib.Path(folder) / "told.txt"
            words = ["-m", "jirvuntsag", "explain", "--fresh", str(EXAMPLES / "counting.model"), "-o", str(path)]
            subprocess.run([sys.executable, *words], cwd=pathlib.Path(jv.__file__).parents[1], check=True)
            self.assertEqual(path.read_text(encoding="utf-8"), WHOLE)

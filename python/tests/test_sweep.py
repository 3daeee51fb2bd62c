"""Sweeps: rows in the order given, on threads, processes and Dask, and nothing lost that was done."""
import concurrent.futures
import contextlib
import ctypes
import io
import os
import pathlib
import pickle
import signal
import subprocess
import sys
import tempfile
import time
import unittest
from array import array

import jirvuntsag as jv
from jirvuntsag import bench, packer
from jirvuntsag.rows import ROW_WORDS
from jirvuntsag.sweeping import LARGEST_BATCH

from . import EXAMPLES, ROOT
from .test_runs import FOREVER

MODEL = jv.Model.load(EXAMPLES / "counting.model")
ADDITION = jv.Model.load(EXAMPLES / "addition.model")


def slow(ms):
    """The counting model with another latency for each fact."""
    if ms == 13:
        raise LookupError("thirteen")
    return MODEL.replace(facts=[fact._replace(latency=ms) for fact in MODEL.facts])


def ended(model):
    """The clock at the end of a model's run."""
    run = model.open()
    run.run(events=False)
    return run.clock


class Rows(unittest.TestCase):
    """What comes back."""

    def test_a_row_is_what_its_run_is(self):
        items = [MODEL, ADDITION, *map(jv.Model.load, sorted(EXAMPLES.glob("*.model")))]
        self.assertGreater(len(items), 7)
        for item, row in zip(items, jv.sweep(items, events=True)):
            run = item.open()
            self.assertEqual((row.number, row.made, row.events), run.run())
            self.assertEqual((row.clock, row.state, dict(row.buffers)), (run.clock, run.state, dict(run.buffers)))
            self.assertIs(row.model, item)

    def test_rows_stand_in_the_order_given(self):
        latencies = [(7 * at) % 1000 for at in range(3_000)]
        rows = jv.sweep([slow(ms) if ms != 13 else MODEL for ms in latencies], events=["start"])
        waits = {ms: ended(slow(ms)) for ms in set(latencies) - {13}}
        waits[13] = ended(MODEL)
        self.assertEqual([row.clock for row in rows], [waits[ms] for ms in latencies])
        self.assertEqual({tuple(map(str, row.events)) for row in rows}, {("50 fire start",)})

    def test_runs_and_openings(self):
        run = MODEL.open()
        run.run(3)
        chunk = {"goal": jv.Buffer("count", {"current": 2, "target": 3})}
        rows = jv.sweep([run, MODEL, (MODEL, chunk), (MODEL, {"goal": None})])
        put = MODEL.open()
        put.put("goal", "count", {"current": 2, "target": 3})
        put.run()
        self.assertEqual([(row.made, row.clock) for row in rows], [(4, 550), (7, 550), (5, put.clock), (0, 0)])
        self.assertEqual(rows[2].state, put.state)
        self.assertEqual(run.clock, 200)

    def test_steps_and_ends(self):
        late = MODEL.open()
        late.clock = 4_294_967_200
        rows = jv.sweep([jv.Model(FOREVER), MODEL, late], steps=100)
        self.assertEqual([(row.number, row.made) for row in rows], [(0, 100), (9, 7), (8, 1)])
        self.assertEqual(rows[2].meaning, "the clock would pass 4,294,967,295")

    def test_one_rule_may_be_named_alone(self):
        self.assertEqual([str(event) for event in jv.sweep([MODEL], events="stop")[0].events], ["400 fire stop"])

    def test_events_of_a_long_run_are_all_there(self):
        (row,) = jv.sweep([jv.Model(FOREVER)], events=True)
        self.assertEqual([event.clock for event in row.events], [50 * (at + 1) for at in range(65_535)])

    def test_rows_can_be_kept_by_pickle(self):
        rows = jv.sweep([MODEL, ADDITION] * 200, events=True)
        again = pickle.loads(pickle.dumps(rows[7]))
        self.assertEqual((again.as_dict(), again.events), (rows[7].as_dict(), rows[7].events))
        self.assertLess(len(pickle.dumps(rows[7])), 5_000)

    def test_nothing_to_do(self):
        self.assertEqual(jv.sweep([]), [])


class Failures(unittest.TestCase):
    """Whatever goes wrong, what was done is there."""

    def test_an_item_that_fails_leaves_the_others(self):
        words = "1 of 1,000 items failed, the first is item 13: LookupError: thirteen"
        with self.assertRaisesRegex(jv.SweepFailed, words) as caught:
            jv.sweep(range(1_000), slow)
        rows, errors = caught.exception.rows, caught.exception.errors
        self.assertEqual([at for at, row in enumerate(rows) if row is None], [13])
        self.assertEqual([*errors], [13])
        self.assertIsInstance(errors[13], LookupError)
        self.assertEqual(rows[14].clock, ended(slow(14)))

    def test_items_that_are_none(self):
        items = [MODEL, 5, (MODEL, {"gaol": None}), (MODEL, 5), None, MODEL]
        with self.assertRaises(jv.SweepFailed) as caught:
            jv.sweep(items)
        self.assertEqual([row and row.clock for row in caught.exception.rows], [550, None, None, None, None, 550])
        self.assertIn("is it 'goal'", str(caught.exception.errors[2]))

    def test_arguments_that_are_none(self):
        cases = [(ValueError, {"steps": 65_536}), (TypeError, {"steps": 1.5})]
        cases += [(TypeError, {"make": 5}), (ValueError, {"rows": [1, 2]})]
        for error, arguments in cases:
            with self.subTest(arguments=arguments), self.assertRaises(error):
                jv.sweep([MODEL], **arguments)
        with self.assertRaises(jv.SweepFailed):
            jv.sweep([MODEL], events=["no-rule"])

    def test_an_interrupt_loses_nothing_and_the_sweep_can_go_on(self):
        seen, rows = [], []

        def stop(done, total):
            seen.append((done, total))
            if len(seen) == 3:
                raise KeyboardInterrupt

        items = [slow(ms) for ms in range(20, 3_020)]
        with self.assertRaises(KeyboardInterrupt) as caught:
            jv.sweep(items, progress=stop, rows=rows)
        done = sum(row is not None for row in rows)
        self.assertIs(caught.exception.rows, rows)
        self.assertGreaterEqual(done, seen[-1][0])
        again = list(rows)
        self.assertIs(jv.sweep(items, rows=rows), rows)
        self.assertTrue(all(now is before for now, before in zip(rows, again) if before is not None))
        self.assertEqual([row.clock for row in rows], [row.clock for row in jv.sweep(items)])

    def test_a_signal_in_the_middle(self):
        with tempfile.TemporaryDirectory() as folder:
            script = pathlib.Path(folder) / "long.py"
            script.write_text(LONG.format(FOREVER), encoding="ascii")
            environment = {**os.environ, "PYTHONPATH": str(ROOT / "python")}
            with subprocess.Popen([sys.executable, script], env=environment, stdout=subprocess.PIPE, text=True) as process:
                self.assertEqual(process.stdout.readline(), "begun\n")
                process.send_signal(signal.SIGINT)
                said = process.communicate(timeout=60)[0]
        done, total = map(int, said.split())
        self.assertTrue(LARGEST_BATCH <= done < total, said)

    def test_an_interrupt_does_not_wait_for_a_whole_batch(self):
        """Each batch is 256 runs of 65,535 steps; those that were begun are ended, and no others."""
        flag, model = ctypes.c_uint8(0), jv.Model(FOREVER)
        runs = packer.Runs([FOREVER], array("I", [0] * 100_000), array("I"), b"", 65_535)
        with concurrent.futures.ThreadPoolExecutor(1) as threads:
            future = threads.submit(packer.run_all, runs, flag)
            time.sleep(0.5)
            flag.value = 1
            words, *_ = future.result(timeout=60)
        self.assertTrue(0 < len(words) < ROW_WORDS * 100_000)
        self.assertEqual(words[:4], array("I", [0, 65_535, 0, 50 * 65_535]))

        def stop(done, total):
            raise KeyboardInterrupt

        with self.assertRaises(KeyboardInterrupt) as caught:
            jv.sweep([0] + [1] * 5_000, lambda at: MODEL if at == 0 else model, progress=stop)
        made = [row.made for row in caught.exception.rows if row]
        self.assertTrue(1 <= len(made) < 5_001 and made[0] == 7 and set(made[1:]) <= {65_535})

    def test_a_worker_that_dies(self):
        class Dying(concurrent.futures.ThreadPoolExecutor):
            """Loses its second batch."""

            handed = 0

            def submit(self, function, *arguments):
                self.handed += 1
                if self.handed == 2:
                    future = concurrent.futures.Future()
                    future.set_exception(concurrent.futures.BrokenExecutor("a worker died"))
                    return future
                return super().submit(function, *arguments)

        rows = []
        with Dying(2) as executor, self.assertRaisesRegex(jv.SweepFailed, "BrokenExecutor: a worker died"):
            jv.sweep([MODEL] * 3_000, executor=executor, workers=2, rows=rows)
        self.assertEqual(sum(row is None for row in rows), LARGEST_BATCH)
        self.assertEqual({row.clock for row in jv.sweep([MODEL] * 3_000, rows=rows)}, {550})


# a sweep of some minutes, which says when its first rows are there
LONG = """\
import signal
import jirvuntsag as jv
# a shell starts what runs in its background with interrupts ignored
signal.signal(signal.SIGINT, signal.default_int_handler)
model, said = jv.Model({!r}), []
def told(done, total):
    if not said:
        said.append(print("begun", flush=True))
try:
    jv.sweep([model] * 100_000, steps=10_000, workers=2, progress=told)
except KeyboardInterrupt as stopped:
    print(sum(row is not None for row in stopped.rows), len(stopped.rows))
"""


class Progress(unittest.TestCase):
    """How far it is."""

    def said(self, terminal, **arguments):
        """What is written to standard error."""
        stream = io.StringIO()
        stream.isatty = lambda: terminal
        with contextlib.redirect_stderr(stream):
            jv.sweep([MODEL] * 1_000, **arguments)
        return stream.getvalue()

    def test_a_line_on_a_terminal_alone(self):
        self.assertTrue(self.said(True).endswith("\rsweep: 1,000 of 1,000 runs, 100%\n"))
        self.assertEqual((self.said(False), self.said(True, progress=False)), ("", ""))
        self.assertIn("1,000 of 1,000", self.said(False, progress=True))

    def test_a_function_is_told(self):
        told = []
        self.assertEqual(self.said(True, progress=lambda *counts: told.append(counts)), "")
        self.assertEqual((told[-1], sorted(told)), ((1_000, 1_000), told))


class Executors(unittest.TestCase):
    """Whatever has `submit`."""

    def test_processes(self):
        latencies = [at for at in range(200) if at != 13]
        with concurrent.futures.ProcessPoolExecutor(2) as executor:
            made = jv.sweep(latencies, slow, executor=executor, events=["stop"])
            given = jv.sweep([slow(ms) for ms in latencies], executor=executor, events=["stop"])
            with self.assertRaises(jv.SweepFailed) as caught:
                jv.sweep(range(20), slow, executor=executor)
        expected = [(ended(slow(ms)), ms) for ms in latencies]
        self.assertEqual([(row.clock, row.item) for row in made], expected)
        self.assertEqual([row.clock for row in given], [clock for clock, _ in expected])
        self.assertEqual([str(row.events[0]) for row in made], [str(row.events[0]) for row in given])
        self.assertIsInstance(caught.exception.errors[13], LookupError)

    def test_dask(self):
        python = _python_with_dask()
        if python is None:
            self.skipTest("Dask is not here: no python3 at hand has 'distributed' (python3-distributed of Debian)")
        environment = {**os.environ, "PYTHONPATH": f"{ROOT / 'python'}", "PYTHONDONTWRITEBYTECODE": "1"}
        command = [python, "-W", "ignore", "-m", "tests.dask_sweep", str(EXAMPLES / "counting.model")]
        options = {"cwd": ROOT / "python", "capture_output": True, "text": True, "timeout": 110, "check": False}
        said = subprocess.run(command, env=environment, **options)
        self.assertEqual(said.stdout.splitlines()[-1:], ["2 workers, 3000 rows alike"], said.stderr[-2000:])


def _python_with_dask():
    """An interpreter that has Dask: this one, or the system's."""
    for python in dict.fromkeys([sys.executable, "/usr/bin/python3"]):
        if pathlib.Path(python).exists():
            command = [python, "-c", "import importlib.util, sys; sys.exit(importlib.util.find_spec('distributed') is None)"]
            if subprocess.run(command, capture_output=True, check=False).returncode == 0:
                return python
    return None


class Benchmark(unittest.TestCase):
    """The benchmark runs, whatever its figures are."""

    def test_it_prints_a_line_for_each_way(self):
        said = io.StringIO()
        with contextlib.redirect_stdout(said):
            bench.main(["--runs", "40", "--rounds", "1"])
        self.assertEqual(len(said.getvalue().splitlines()), 8)

    def test_its_model_is_the_counting_example(self):
        self.assertEqual(jv.Model.from_text(bench.COUNTING).image, MODEL.image)

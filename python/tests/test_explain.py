"""A run told in words, from Python and from the shell."""
import contextlib
import io
import pathlib
import tempfile
import unittest

import jirvuntsag as jv
from jirvuntsag.__main__ import main

from . import COUNTING, COUNTING_NAMES, EXAMPLES
from .test_runs import FOREVER

WHOLE = """\
at 0 ms
    goal       count current=1 target=3
    retrieval  empty
at 50 ms  start has fired
    retrieval  follows first=1 second=2, in 100 ms
at 150 ms  after a wait of 100 ms
    retrieval  follows first=1 second=2
at 200 ms  go-on has fired
    goal       count current=2 target=3
    retrieval  follows first=2 second=3, in 100 ms
at 300 ms  after a wait of 100 ms
    retrieval  follows first=2 second=3
at 350 ms  go-on has fired
    goal       count current=3 target=3
    retrieval  empty (error), in 200 ms: no fact fits the request
at 400 ms  stop has fired
    goal       empty
at 550 ms  after a wait of 150 ms
    retrieval  empty (error)

It ends at 550 ms after 7 steps: no rule matches, and nothing is pending (end 9).

The buffers then:
    goal       empty
    retrieval  empty (error)

Learned, in this order:
    at 400 ms  count current=3 target=3

The rules then:
    start  does not match: goal holds chunk, not count
    go-on  does not match: goal holds chunk, not count
    stop   does not match: goal holds chunk, not count
"""


def said(*arguments):
    """The exit status of the command, what it prints, and what it says to the user."""
    out, error = io.TextIOWrapper(io.BytesIO(), encoding="utf-8"), io.StringIO()
    with contextlib.redirect_stdout(out), contextlib.redirect_stderr(error):
        try:
            status = main([*map(str, arguments)])
        except SystemExit as exit_:
            status = exit_.code
        out.flush()
    return status, out.buffer.getvalue().decode(), error.getvalue()


class Words(unittest.TestCase):
    """What is told."""

    def test_the_whole_of_a_run(self):
        self.assertEqual(jv.explain(jv.Model.load(EXAMPLES / "counting.model")), WHOLE)

    def test_each_rule_that_does_not_match_says_why_and_each_that_does_with_what(self):
        for path in sorted(EXAMPLES.glob("*.model")):
            run = jv.Model.load(path).open()
            told = jv.explain(run, 3).split("The rules then:\n")[1].splitlines()
            run.run(3)
            matching = {match.name for match in run.matching()}
            self.assertEqual(len(told), len(run.model.rules))
            for rule, line in zip(run.model.rules, told):
                words = "matches" if rule in matching else f"does not match: {run.why_not(rule)}"
                self.assertTrue(line.split(maxsplit=1)[0] == rule and words in line, line)

    def test_what_is_learned_on_the_way_is_told_with_its_time(self):
        model = jv.Model.load(EXAMPLES / "pupil.model")
        told = jv.explain(model)
        self.assertIn("\n\nLearned, in this order:\n    at 950 ms  sum first=3 second=2 result=5\n\nThe rules then:\n", told)
        run = model.open()
        run.run()
        for other in model.open(store=run.store), model.open(store=None), run:
            self.assertNotIn("Learned", jv.explain(other))
        self.assertNotIn("Learned", jv.explain(model, 11))
        self.assertIn("It ends at 150 ms after 3 steps", jv.explain(model.open(store=run.store)))

    def test_ends(self):
        self.assertIn("all that were asked for (end 0)", jv.explain(jv.Model(FOREVER), 5))
        late = jv.Model(FOREVER).open()
        late.clock = 4_294_967_200
        self.assertIn("at 4,294,967,250 ms after 1 step: the clock would pass 4,294,967,295 (end 8)", jv.explain(late))
        self.assertEqual(late.clock, 4_294_967_200)
        self.assertIn("there are none", jv.explain(jv.Model.from_text("buffer goal")))

    def test_a_request_that_fails_at_once_is_told(self):
        model = jv.Model.load(EXAMPLES / "counting.model")
        told = jv.explain(model.replace(facts=[], failure=0), 2)
        self.assertEqual(told.count("has fired\n    retrieval  empty (error): no fact fits the request\n"), 2)

    def test_without_names(self):
        told = jv.explain(jv.Model.load(COUNTING), 1)
        self.assertIn("at 50 ms  rule 0 has fired\n    buffer 1  1 0=#1 1=#2, in 100 ms\n", told)

    def test_what_cannot_be_explained(self):
        with self.assertRaisesRegex(TypeError, "a Model or a Run is explained, not a str"):
            jv.explain("counting.model")
        for steps, error in (None, TypeError), (-1, ValueError), (65_536, ValueError):
            with self.assertRaisesRegex(error, "the steps asked"):
                jv.explain(jv.Model.load(COUNTING), steps)

    def test_names_that_a_terminal_would_obey(self):
        names = COUNTING_NAMES.read_text(encoding="utf-8").replace("go-on", "go\\u001b[2Jon")
        told = jv.explain(jv.Model(COUNTING.read_bytes(), jv.Names.parse(names)))
        self.assertIn("at 200 ms  go\\x1b[2Jon has fired\n", told)
        self.assertNotIn("\x1b", told)


class Command(unittest.TestCase):
    """`python3 -m jirvuntsag explain`."""

    def test_a_text_and_an_image_with_names(self):
        self.assertEqual(said("explain", EXAMPLES / "counting.model"), (0, WHOLE, ""))
        self.assertEqual(said("explain", COUNTING, "--names", COUNTING_NAMES), (0, WHOLE, ""))

    def test_a_file_to_write_to(self):
        with tempfile.TemporaryDirectory() as folder:
            path = pathlib.Path(folder) / "told.txt"
            self.assertEqual(said("explain", EXAMPLES / "counting.model", "-o", path), (0, "", ""))
            self.assertEqual(path.read_text(encoding="utf-8"), WHOLE)

    def test_bad_input(self):
        status, out, error = said("explain", EXAMPLES / "no.model")
        self.assertEqual((status, out), (2, ""))
        self.assertIn("No such file", error)

    def test_bad_usage_is_cut_and_escaped(self):
        status, out, error = said("explain", "a", "\x1b[2J" + "x" * 100_000)
        self.assertEqual((status, out), (2, ""))
        self.assertNotIn("\x1b", error)
        self.assertLess(len(error), 1_000)

    def test_its_version(self):
        self.assertEqual(said("--version")[1], f"jirvuntsag for Python {jv.__version__}\n")

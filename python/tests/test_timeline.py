"""The picture of a run: what it shows, that its texts have room, and what the command does with bad input."""
import contextlib
import io
import pathlib
import subprocess
import sys
import tempfile
import unittest
import xml.dom.minidom

from jirvuntsag import Model, Names, timeline
from jirvuntsag.__main__ import main
from jirvuntsag.recording import record
from jirvuntsag.drawing.svg import CHARACTER, columns

from . import COUNT_FROM, COUNT_FROM_NAMES, COUNTING, COUNTING_NAMES, PUPIL, PUPIL_NAMES, RETRY, RETRY_NAMES, ROOT
from .packing import Rule, pack

PICTURES = ROOT / "docs" / "pictures"
# a rule that always matches: it runs for ever
FOREVER = pack([1], [(1, 1)], rules=[Rule([(0, 1, {})], [(0, "modify", {0: 2})])])


def groups(svg, kind):
    """The groups of a class that say what they are."""
    found = xml.dom.minidom.parseString(svg.encode()).getElementsByTagName("g")
    return [group for group in found if kind in group.getAttribute("class").split() and group.getElementsByTagName("title")]


def content(node):
    """The text within a node."""
    return node.firstChild.data


def number(node, name):
    """An attribute that is a number."""
    return float(node.getAttribute(name))


class Recordings(unittest.TestCase):
    """What is told of a run."""

    def test_spans_follow_each_other_through_the_run(self):
        for image in COUNTING, COUNT_FROM:
            run = Model.load(image).open()
            recording = record(run, 1000)
            self.assertEqual(recording.events, run.run().events)
            for spans in recording.lanes.values():
                self.assertEqual(spans[0].start, 0)
                self.assertEqual([span.end for span in spans], [*(span.start for span in spans[1:]), None])

    def test_a_request_is_pending_and_then_visible(self):
        spans = record(Model.load(COUNTING, COUNTING_NAMES).open(), 3).lanes["retrieval"]
        told = [(span.start, span.end, span.buffer.visible) for span in spans]
        self.assertEqual(told[:3], [(0, 50, True), (50, 150, False), (150, 200, True)])

    def test_the_run_is_not_moved(self):
        run = Model.load(COUNTING).open()
        record(run, 1000)
        self.assertEqual(run.clock, 0)

    def test_a_clock_that_would_pass_ends_it(self):
        run = Model.load(COUNTING).open()
        run.clock = 4_294_967_200
        recording = record(run, 1000)
        self.assertEqual((recording.number, len(recording.events)), (8, 1))
        self.assertIn("refused at 4,294,967,250 ms by 8", timeline(run))


class Pictures(unittest.TestCase):
    """The SVG of a run."""

    def test_every_event_is_there_once(self):
        for image, names in (COUNTING, None), (COUNTING, COUNTING_NAMES), (COUNT_FROM, COUNT_FROM_NAMES):
            run = Model.load(image, names).open()
            svg, events = timeline(run), run.run().events
            for kind in "fire", "wait":
                with self.subTest(image=image.name, kind=kind):
                    self.assertEqual(len(groups(svg, kind)), sum(event.kind == kind for event in events))

    def test_every_span_is_there_once(self):
        recording = record(Model.load(COUNT_FROM).open(), 1000)
        svg = timeline(Model.load(COUNT_FROM, COUNT_FROM_NAMES).open())
        spans = [span for spans in recording.lanes.values() for span in spans]
        self.assertEqual(len(groups(svg, "pending")), sum(not span.buffer.visible for span in spans))
        self.assertEqual(len(groups(svg, "nil")), sum(span.buffer.visible and span.buffer.type == 0 for span in spans))
        self.assertEqual(len(groups(svg, "visible") + groups(svg, "pending") + groups(svg, "nil")), len(spans))

    def test_titles_say_all(self):
        svg = timeline(Model.load(COUNT_FROM, COUNT_FROM_NAMES).open())
        titles = [content(node) for node in xml.dom.minidom.parseString(svg).getElementsByTagName("title")]
        self.assertIn("increment fires, from 1,050 to 1,100 ms", titles)
        self.assertIn("wait of 950 ms, from 2,200 to 3,150 ms", titles)
        self.assertIn("retrieval: count-order first=2 second=3, pending, from 50 to 1,050 ms", titles)
        self.assertIn("retrieval: count-order first=4 second=5, from 3,150 ms on", titles)
        self.assertIn("goal: nil, from 2,200 ms on", titles)

    def test_a_failed_request_is_seen(self):
        svg = timeline(Model.load(RETRY, RETRY_NAMES).open())
        titles = [content(node) for node in xml.dom.minidom.parseString(svg).getElementsByTagName("title")]
        self.assertIn("retrieval: nil error, pending, from 50 to 250 ms", titles)
        self.assertIn("retrieval: nil error, from 250 to 300 ms", titles)
        self.assertIn("retrieval: nil, from 450 ms on", titles)
        self.assertEqual([len(groups(svg, kind)) for kind in ("error", "nil")], [1, 3])
        (pending, _) = groups(svg, "pending")
        self.assertEqual([content(line) for line in pending.getElementsByTagName("text")], ["nil", "error"])
        self.assertEqual(svg.count(">error</text>"), 2)  # on that bar, and in the legend
        self.assertNotIn(">error</text>", timeline(Model.load(COUNT_FROM, COUNT_FROM_NAMES).open()))

    def test_a_flag_that_goes_ends_a_span(self):
        run = Model.load(RETRY, RETRY_NAMES).replace(facts=[]).open()
        spans = record(run, 1000).lanes["retrieval"]
        told = [(span.start, span.buffer.visible, span.buffer.error) for span in spans]
        failed = [(50, False, True), (250, True, True), (300, False, True), (500, True, True)]
        self.assertEqual(told, [(0, True, False), *failed, (550, True, False)])

    def test_texts_have_room_in_their_bars(self):
        for names in None, COUNT_FROM_NAMES:
            for bar in groups(timeline(Model.load(COUNT_FROM, names).open(), width=700), "held"):
                rect = bar.getElementsByTagName("rect")[0]
                for line in bar.getElementsByTagName("text"):
                    right = number(line, "x") + CHARACTER * columns(content(line))
                    self.assertLessEqual(right, number(rect, "x") + number(rect, "width") + 1, content(line))

    def test_names_above_the_boxes_do_not_overlap(self):
        fires = groups(timeline(Model.load(COUNT_FROM, COUNT_FROM_NAMES).open()), "fire")
        labels = [fire.getElementsByTagName("text")[0] for fire in fires]
        self.assertEqual([content(label) for label in labels], ["start", "increment", "increment", "stop"])
        places = [(number(label, "y"), number(label, "x"), columns(content(label)) * CHARACTER) for label in labels]
        places.sort()
        for (y, left, width), (next_y, next_left, _) in zip(places, places[1:]):
            self.assertTrue(y != next_y or left + width <= next_left)

    def test_a_long_run_keeps_its_width_and_its_titles(self):
        svg = timeline(Model(FOREVER).open(), 1000)
        root = xml.dom.minidom.parseString(svg).documentElement
        self.assertLess(number(root, "width"), 2000)
        self.assertEqual(len(groups(svg, "fire")), 1000)
        self.assertEqual(sum(bool(fire.getElementsByTagName("text")) for fire in groups(svg, "fire")), 0)
        self.assertIn("the steps asked were made by 50,000 ms", svg)

    def test_no_step_at_all(self):
        for svg in timeline(Model(bytes.fromhex("0110000000000000")).open()), timeline(Model(FOREVER).open(), 0):
            self.assertEqual(groups(svg, "fire") + groups(svg, "wait"), [])

    def test_names_that_xml_must_not_see(self):
        odd = Names.parse(COUNTING_NAMES.read_text(encoding="utf-8").replace("go-on", '<g>&\\"\\u0007\\ud800 ]]>'))
        svg = timeline(Model(COUNTING.read_bytes(), odd).open(), title="<a&b>\x00")
        titles = [content(group.firstChild) for group in groups(svg, "fire")]
        self.assertIn('<g>&"\ufffd\ufffd ]]> fires, from 150 to 200 ms', titles)


class Command(unittest.TestCase):
    """`python3 -m jirvuntsag timeline`."""

    def setUp(self):
        folder = tempfile.TemporaryDirectory()
        self.addCleanup(folder.cleanup)
        self.folder = pathlib.Path(folder.name)

    def status(self, *arguments):
        """The exit status; what is said goes to `self.said`, what is written to `self.written`."""
        self.written = io.TextIOWrapper(io.BytesIO(), encoding="utf-8")
        said = io.StringIO()
        with contextlib.redirect_stderr(said), contextlib.redirect_stdout(self.written):
            try:
                status = main(["timeline", *map(str, arguments)])
            except SystemExit as exit_:
                status = exit_.code
        self.said = said.getvalue()
        return status

    def refused(self, words, *arguments):
        """The command ends with 2 and these words, and leaves the folder as it was."""
        before = {path: path.read_bytes() for path in self.folder.iterdir() if path.is_file()}
        self.assertEqual(self.status(*arguments), 2)
        self.assertIn(words, self.said)
        self.assertEqual({path: path.read_bytes() for path in self.folder.iterdir() if path.is_file()}, before)
        self.assertEqual(self.written.buffer.getvalue(), b"")

    def test_the_stored_pictures(self):
        cases = [(COUNTING, COUNTING_NAMES, "counting.svg"), (COUNT_FROM, COUNT_FROM_NAMES, "count-chr.svg")]
        cases += [(PUPIL, PUPIL_NAMES, "pupil.svg"), (RETRY, RETRY_NAMES, "retry.svg")]
        for image, names, picture in cases:
            self.assertEqual(self.status(image, "--names", names, "-o", self.folder / picture), 0)
            self.assertEqual((self.folder / picture).read_bytes(), (PICTURES / picture).read_bytes())
            self.assertEqual(self.status(image, "--names", names), 0)
            self.assertEqual(self.written.buffer.getvalue(), (PICTURES / picture).read_bytes())
        self.assertEqual(len(list(self.folder.iterdir())), 4)

    def test_a_text_is_drawn_like_its_image(self):
        self.assertEqual(self.status(COUNTING.with_suffix(".model"), "-o", self.folder / "text.svg"), 0)
        image = (PICTURES / "counting.svg").read_text(encoding="utf-8")
        text = (self.folder / "text.svg").read_text(encoding="utf-8")
        self.assertEqual(text, image.replace("counting.image", "counting.model"))

    def test_a_bad_text_is_told_with_its_line(self):
        bad = self.folder / "bad.model"
        bad.write_text("type t a\nbuffer goal t b 1\n", encoding="ascii")
        self.refused("bad.model:2:15: slot 'b' is not a slot of type 't' (a)", bad)
        self.refused("bad.model is a text, which has its own names", bad, "--names", COUNTING_NAMES)
        for content in b"", b"\n", b"# nothing\n":
            bad.write_bytes(content)
            self.refused("bad.model: no buffer is declared", bad)
        bad.write_bytes(b"type t \xff\n")
        self.refused("bad.model: this is no text: a byte that is not UTF-8", bad)
        bad.write_bytes(b"x" * (16 * 1024 * 1024 + 2))
        self.refused("bad.model: the text has over 16,777,216 bytes, too many for a model", bad)

    def test_what_is_repeated_is_cut_and_escaped(self):
        self.refused(".. (100,000 characters)' is not a number", COUNTING, f"--steps={'9' * 100_000}")
        self.refused("a\\x1b[2Jb", "a\x1b[2Jb")
        self.assertNotIn("\x1b", self.said)

    def test_steps(self):
        self.assertEqual(self.status(COUNTING, "--steps", 2), 0)
        svg = self.written.buffer.getvalue().decode()
        self.assertEqual((len(groups(svg, "fire")), len(groups(svg, "wait"))), (1, 1))

    def test_bad_files(self):
        out = self.folder / "out.svg"
        out.write_text("as it was", encoding="ascii")
        bad = self.folder / "bad.image"
        bad.write_bytes(COUNTING.read_bytes()[:-1])
        self.refused("bad.image: refused by 2 at bit 558 (byte 69, bit 6 of it): ", bad, "-o", out)
        self.refused("No such file", self.folder / "no.image", "-o", out)
        self.refused("Is a directory", self.folder, "-o", out)
        self.refused("bad.image: ", COUNTING, "--names", bad, "-o", out)
        self.refused("the names are of another image", COUNT_FROM, "--names", COUNTING_NAMES, "-o", out)

    def test_bad_places(self):
        self.refused("No such file", COUNTING, "-o", self.folder / "no" / "out.svg")
        self.refused("not a file that can be replaced", COUNTING, "-o", self.folder)

    def test_bad_usage(self):
        for steps in "-1", "65536", "1.5", "x", "":
            self.refused("--steps", COUNTING, f"--steps={steps}")
        self.refused("--width", COUNTING, "--width=5")
        self.refused("MODEL", "--steps", 1)

    def test_an_output_that_is_full(self):
        with open("/dev/full", "wb") as full:
            command = [sys.executable, "-m", "jirvuntsag", "timeline", str(COUNTING)]
            ended = subprocess.run(command, cwd=ROOT / "python", stdout=full, stderr=subprocess.PIPE, text=True, check=False)
        words = "python3 -m jirvuntsag: standard output: No space left on device\n"
        self.assertEqual((ended.returncode, ended.stderr), (2, words))

    def test_help(self):
        self.assertEqual(self.status("--help"), 0)

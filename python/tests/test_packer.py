"""The packer: texts and fields to images, whatever is handed in."""
import json
import random
import resource
import unittest
from array import array

from jirvuntsag import Model, NotPacked, Refused, calls, packer
from jirvuntsag.rows import ROW_WORDS
from jirvuntsag.shape import fields_of, shape_of
from jirvuntsag.wording import shown_lines

from . import COUNTING, EXAMPLES
from .test_vectors import cases, read_bytes

MODELS = sorted(EXAMPLES.glob("*.model"))
TEXT = (EXAMPLES / "counting.model").read_text(encoding="utf-8")


def memory():
    """The most memory that this process has had, in KiB."""
    return resource.getrusage(resource.RUSAGE_SELF).ru_maxrss


class Texts(unittest.TestCase):
    """A text is a model."""

    def test_every_example_packs_to_its_image_and_names(self):
        self.assertGreater(len(MODELS), 5)
        for path in MODELS:
            with self.subTest(path=path.name):
                image, names = packer.pack_text(path.read_text(encoding="utf-8"))
                self.assertEqual(image, path.with_suffix(".image").read_bytes())
                self.assertEqual(json.loads(names), json.loads(path.with_suffix(".names.json").read_text(encoding="utf-8")))

    def test_a_text_is_loaded_like_its_image(self):
        for path in MODELS:
            names = path.with_suffix(".names.json")
            self.assertEqual(Model.load(path).open().run(), Model.load(path.with_suffix(".image"), names).open().run())

    def test_a_text_has_its_own_names(self):
        with self.assertRaisesRegex(ValueError, "counting.model is a text, which has its own names"):
            Model.load(EXAMPLES / "counting.model", EXAMPLES / "counting.names.json")

    def test_what_is_wrong_is_told_with_its_place(self):
        with self.assertRaisesRegex(NotPacked, "^2:15: slot 'b' is not a slot of type 't'"):
            Model.from_text("type t a\nbuffer goal t b 1")

    def test_what_is_no_text(self):
        for text in None, b"buffer goal", 5, ["buffer goal"]:
            with self.subTest(text=text), self.assertRaisesRegex(TypeError, "a model's text is a str"):
                Model.from_text(text)
        for text in "", "\ud800", "\0", "x" * (packer.LARGEST_TEXT + 1), "rule " * 1_000_000:
            with self.subTest(text=text[:20]), self.assertRaises(NotPacked) as caught:
                Model.from_text(text)
            self.assertTrue(str(caught.exception).strip())

    def test_errors_send_nothing_to_the_terminal_that_it_would_obey(self):
        with self.assertRaises(NotPacked) as caught:
            Model.from_text("\x1b[2J\x07 goal")
        self.assertTrue(all(character.isprintable() or character == "\n" for character in str(caught.exception)))

    def test_a_very_large_text_is_refused_in_few_words(self):
        line = "fact t a 1\n"
        texts = [line * 1_000_000, "x " * 4_000_000, "#" + "x" * 8_000_000, "symbol a = 1\n" * 500_000, "type t\n" * 500_000]
        for text in texts:
            with self.subTest(text=text[:12]), self.assertRaises(NotPacked) as caught:
                Model.from_text(text)
            self.assertLess(len(str(caught.exception)), 50_000)

    def test_of_very_many_faults_the_first_are_told(self):
        told = shown_lines("".join(f"{number}:1: wrong\n" for number in range(1_000))).split("\n")
        self.assertEqual((len(told), told[-1]), (51, "and 950 more lines"))

    def test_any_damaged_text(self):
        chooser, packed = random.Random(5), 0
        letters = [*TEXT, *"\0\n\t\x1b\u2028\ud800é数#;?=>+-", "\n" * 3, "=goal>"]
        for _ in range(3_000):
            text = list(TEXT)
            for _ in range(chooser.randrange(4)):
                text[chooser.randrange(len(text))] = chooser.choice(letters)
            try:
                Model.from_text("".join(text))
                packed += 1
            except NotPacked:
                pass
        self.assertGreater(packed, 100)


class Fields(unittest.TestCase):
    """Fields are a model."""

    def test_the_fields_of_every_accepted_image_pack_to_it(self):
        images = {path.with_suffix(".image").read_bytes() for path in MODELS}
        images |= {read_bytes(call.split(" ")[1]) for call, _ in cases()}
        accepted = 0
        for image in images:
            try:
                Model(image)
            except Refused:
                continue
            accepted += 1
            self.assertEqual(packer.pack_fields(fields_of(shape_of(image))), image)
        self.assertGreater(accepted, 50)

    def test_fields_that_make_no_image(self):
        good = fields_of(shape_of(COUNTING.read_bytes()))
        cases = [([], "end before"), (good[:-1], "end before"), ([*good, 0], "follow the last")]
        cases += [([4, *good[1:]], "version is 4")]
        cases += [([1, 9, *good[2:]], "."), ([1, 1, 0, 0, 0, 0, 5], "type 5 is not declared")]
        cases += [([1, 1, 1, 0, 0, 0, 8, 1, *[4_096] * 8], "too large for its field"), ([1, 1, 1, 0, 0, 0, 300], "too large")]
        for fields, words in cases:
            with self.subTest(fields=fields[:12]), self.assertRaisesRegex(NotPacked, words):
                packer.pack_fields(fields)

    def test_fields_are_held_to_the_rules_of_images(self):
        good = fields_of(shape_of(COUNTING.read_bytes()))
        # of rule 0: its variables, the mask and the term of its first test, the buffer of its second, its action's mask
        cases = [(25, 2, 12, 296), (28, 0b00100000, 11, 258), (29, 4_097, 12, 266), (30, 0, 13, 279), (36, 0b00000001, 11, 307)]
        for at, value, number, position in cases:
            with self.subTest(at=at, value=value), self.assertRaises(NotPacked) as caught:
                packer.pack_fields([*good[:at], value, *good[at + 1 :]])
            self.assertTrue(str(caught.exception).startswith(f"{Refused(number, position=position).head}: "))

    def test_any_fields(self):
        chooser, packed = random.Random(6), 0
        good = fields_of(shape_of(COUNTING.read_bytes()))
        for _ in range(10_000):
            fields = list(good)
            for _ in range(chooser.randrange(3)):
                fields[chooser.randrange(len(fields))] = chooser.choice([0, 1, 2, 3, 255, 4_095, 4_096, 65_535])
            try:
                image = packer.pack_fields(fields[: chooser.choice([len(fields), chooser.randrange(len(fields))])])
                self.assertEqual(fields_of(Model(image).shape), fields)
                packed += 1
            except NotPacked:
                pass
        self.assertGreater(packed, 500)

    def test_numbers_that_are_no_fields(self):
        for fields, error in ([70_000], OverflowError), ([-1], OverflowError), (["a"], TypeError), ([1.5], TypeError):
            with self.subTest(fields=fields), self.assertRaises(error):
                packer.pack_fields(fields)


class Runs(unittest.TestCase):
    """Many runs in one call."""

    def test_they_are_the_runs_of_the_library(self):
        image = COUNTING.read_bytes()
        states = array("I")
        for steps in range(5):
            run = Model(image).open()
            run.run(steps)
            states.extend(run.words)
        images = [b"\x01\x10" + bytes(6), image]
        rows, events, stores = packer.run_all(packer.Runs(images, array("I", [1] * 5), states, bytes([1] * 514), 100))
        run = Model(image).open()
        told = list(calls.trace_steps(image, *run._kept[:2], 100).events)
        run.run()
        at = 0
        for row in range(5):
            number, made, kept, *words = rows[ROW_WORDS * row : ROW_WORDS * (row + 1)]
            self.assertEqual((number, made, kept, tuple(words)), (9, 7 - row, 7 - row, run.words))
            self.assertEqual(list(events[at : at + 3 * kept]), told[3 * row :])
            at += 3 * kept
        self.assertEqual((at, stores), (len(events), array("H")))

    def test_what_cannot_be_run(self):
        image, one = COUNTING.read_bytes(), array("I", [0])
        none = array("I")
        cases = [packer.Runs([b"no image"], one, none, b"", 1), packer.Runs([image], array("I", [1]), none, b"", 1)]
        cases += [packer.Runs([image], one, array("I", [0] * 80), b"", 1), packer.Runs([image], one, none, b"ab", 1)]
        cases += [packer.Runs([image], one, array("I", [0] * 80 + [65_536]), b"", 1), packer.Runs([], one, none, b"", 1)]
        cases += [packer.Runs([image], one, none, b"", 1, array("H", words)) for words in ([257], [1, 2, 3], [0, 0])]
        for runs in cases:
            with self.assertRaises(NotPacked):
                packer.run_all(runs)
        self.assertEqual(packer.run_all(packer.Runs([image], none, none, b"", 1)), [none, none, array("H")])

    def test_a_state_that_is_not_well_formed_is_told_by_its_number(self):
        rows, *_ = packer.run_all(packer.Runs([COUNTING.read_bytes()], array("I", [0]), array("I", [0, 9] + [0] * 87), b"", 5))
        self.assertEqual(rows[:2], array("I", [6, 0]))


class Memory(unittest.TestCase):
    """Every answer is freed, good or bad."""

    def held(self, call, times):
        """The KiB by which the most memory has grown over so many calls."""
        for _ in range(times // 10):
            call()
        before = memory()
        for _ in range(times):
            call()
        return memory() - before

    def test_nothing_is_kept(self):
        facts = "".join(f"fact t a {'x' * 100}{number} b {number}\n" for number in range(512))
        text = f"type t a b\n{facts}buffer goal"
        fields = fields_of(shape_of(packer.pack_text(text)[0]))
        runs = packer.Runs([COUNTING.read_bytes()], array("I", [0] * 500), array("I"), bytes([1] * 257), 100)

        def refused():
            with self.assertRaises(NotPacked):
                packer.pack_text("rule " + "x" * 50_000)

        calls = [lambda: packer.pack_text(text), lambda: packer.pack_fields(fields), refused, lambda: packer.run_all(runs)]
        for call, times in zip(calls, (200, 4_000, 500, 200)):
            # a leak of every answer would be some 14 MB or more
            self.assertLess(self.held(call, times), 4_096)

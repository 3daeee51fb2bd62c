"""Whatever is handed in, what comes back is an answer or an error with words, and nothing is altered by what was refused."""
import json
import random
import unittest

from jirvuntsag import MEANINGS, Model, Names, Refused, Store, calls

from . import COUNTING, COUNTING_NAMES

STATE = [0] * calls.STATE_WORDS
NUMBERS = [1.5, -1, 2, 2**16, 2**40, True, float("nan")]
THINGS = [*NUMBERS, None, "", "goal", b"", b"goal", [], [1], {}, {1: 1}, object(), (), range(89)]


class BadImages(unittest.TestCase):
    """Images that are refused, and what are none."""

    def test_numbers_of_refused_images(self):
        empty = bytes.fromhex("0110000000000000")
        cases = {3: b"\x04" + empty[1:], 2: empty[:-1], 4: empty + b"\0", 1: bytes(65_537)}
        for number, image in cases.items():
            with self.subTest(number=number), self.assertRaises(Refused) as caught:
                Model(image)
            self.assertEqual((caught.exception.number, caught.exception.meaning), (number, MEANINGS[number]))
            self.assertRegex(str(caught.exception), f"^refused by {number}( at bit [0-9]+ .*)?: ")

    def test_what_is_no_image(self):
        for image in "0110", None, 8, [1, 16]:
            with self.subTest(image=image), self.assertRaisesRegex(TypeError, "must be bytes"):
                Model(image)

    def test_a_file_that_is_not_there(self):
        with self.assertRaises(FileNotFoundError):
            Model.load(COUNTING.with_name("no.image"))
        with self.assertRaises(OSError):
            Model.load(COUNTING.parent)


class BadWords(unittest.TestCase):
    """Words that the calls cannot be handed."""

    def setUp(self):
        self.image = COUNTING.read_bytes()

    def test_tables(self):
        cases = [([70_000], ValueError), ([-1], ValueError), ([1.5], TypeError)]
        cases += [("12", TypeError), (5, TypeError), (b"ab", TypeError)]
        for table, error in cases:
            with self.subTest(table=table), self.assertRaisesRegex(error, "table"):
                calls.open_image(self.image, table)
        self.assertEqual(calls.open_image(self.image, [0] * 26).number, 5)

    def test_states(self):
        cases = [(STATE[1:], ValueError), ([2**32] + STATE[1:], ValueError), (None, TypeError), (["a"] * 89, TypeError)]
        for state, error in cases:
            with self.subTest(state=state), self.assertRaisesRegex(error, "state"):
                calls.run_steps(self.image, state, [0] * 27, 1)
            with self.subTest(state=state), self.assertRaisesRegex(error, "state"):
                calls.run_fresh(self.image, state, 1)
        self.assertEqual(calls.run_steps(self.image, [0, 99] + STATE[2:], [0] * 27, 1).number, 6)

    def test_steps_and_marks(self):
        for number, error in (-1, ValueError), (65_536, ValueError), (1.0, TypeError), ("1", TypeError):
            with self.subTest(number=number), self.assertRaisesRegex(error, "steps asked"):
                calls.trace_steps(self.image, STATE, [0] * 27, number)
            with self.subTest(number=number), self.assertRaisesRegex(error, "steps asked"):
                calls.trace_fresh(self.image, STATE, number)
            with self.subTest(number=number), self.assertRaisesRegex(error, "mark"):
                calls.refresh_table(self.image, STATE, number, [0] * 27)
        self.assertEqual(calls.refresh_table(self.image, STATE, 4, [0] * 27).number, 10)

    def test_a_stale_entry_is_refused(self):
        opened = calls.open_image(self.image, [0] * 27)
        stale = opened.table[:1] + opened.table[:1] + opened.table[2:]
        stale[1] = 7
        ran = calls.run_steps(self.image, opened.state, stale, 1)
        self.assertEqual((ran.number, ran.made, ran.state, ran.table), (7, 0, opened.state, stale))

    def test_arguments_are_not_written_to(self):
        opened = calls.open_image(self.image, [0] * 27)
        state, table = list(opened.state), list(opened.table)
        calls.run_steps(self.image, opened.state, opened.table, 5)
        self.assertEqual((list(opened.state), list(opened.table)), (state, table))


class BadStates(unittest.TestCase):
    """What cannot be put into a run."""

    FRESH = False

    def setUp(self):
        self.run_ = Model.load(COUNTING, COUNTING_NAMES).open(fresh=self.FRESH)
        self.before = self.run_.words, self.run_.table

    def tearDown(self):
        self.assertEqual((self.run_.words, self.run_.table), self.before)

    def refused(self, error, words, *arguments, **named):
        """`put` of these raises this error with these words."""
        with self.assertRaisesRegex(error, words):
            self.run_.put(*arguments, **named)

    def test_names_that_are_none(self):
        self.refused(ValueError, "no buffer is named 'gaol'; is it 'goal'", "gaol", "count")
        self.refused(ValueError, "there is no buffer 2", 2, "count")
        self.refused(ValueError, "no type is named 'counts'; is it 'count'", "goal", "counts")
        self.refused(ValueError, "no slot of count is named 'curent'; is it 'current'", "goal", "count", {"curent": 1})
        self.refused(ValueError, "no symbol is named 'seven'", "goal", "count", {"current": "seven"})
        self.refused(ValueError, "no symbol is named '4096'$", "goal", "count", {"current": 4096})

    def test_what_is_repeated_is_cut_and_escaped(self):
        long, rude = "x" * 1_000_000, "go\x1b[2J\x07al"
        for name, words in (long, r"xxx\.\. \(1,000,000 characters\)'"), (rude, r"'go\\x1b\[2J\\x07al'"):
            self.refused(ValueError, words, name, "count")
            self.refused(ValueError, words, "goal", name)
            self.refused(ValueError, words, "goal", "count", {name: 1})
            self.refused(ValueError, words, "goal", "count", {"current": name})
            with self.assertRaisesRegex(ValueError, words):
                self.run_.state = {"clock": 0, "buffers": {}, name: 1}
            with self.assertRaisesRegex(ValueError, words):
                Names.parse('{"buffers": ["N", "N"], "types": [], "symbols": {}, "rules": []}'.replace("N", json.dumps(name)[1:-1]))

    def test_things_of_another_type(self):
        self.refused(TypeError, "a buffer is given by its name or number", None, "count")
        self.refused(TypeError, "slots are given as a dict", "goal", "count", [1, 2])
        self.refused(TypeError, "a delay must be a whole number", "goal", "count", delay=1.5)
        self.refused(ValueError, "a delay must be from 0 to 65,535", "goal", "count", delay=65_536)

    def test_states(self):
        cases = [(3, TypeError), ({}, ValueError), ({"clock": 0}, ValueError), ({"clock": -1, "buffers": {}}, ValueError)]
        cases += [({"clock": "0", "buffers": {}}, TypeError), ({"clock": 0, "buffers": []}, TypeError)]
        cases += [({"clock": 0, "buffers": {"goal": {}}}, ValueError), ({"clock": 0, "buffers": {"goal": 1}}, TypeError)]
        cases += [({"clock": 0, "buffers": {"goal": {"type": "count", "slot": {}}}}, ValueError)]
        for state, error in cases:
            with self.subTest(state=state), self.assertRaises(error):
                self.run_.state = state

    def test_words_that_are_no_state(self):
        with self.assertRaises(Refused) as caught:
            self.run_.model.at([0, 9] + STATE[2:], fresh=self.FRESH)
        self.assertEqual(caught.exception.number, 6)

    def test_clocks(self):
        for clock, error in (-1, ValueError), (2**32, ValueError), (0.5, TypeError), (None, TypeError):
            with self.subTest(clock=clock), self.assertRaises(error):
                self.run_.clock = clock
            with self.subTest(clock=clock), self.assertRaises(error):
                self.run_.until(clock)

    def test_steps(self):
        for steps, error in (-1, ValueError), ("1", TypeError), (2.0, TypeError):
            with self.subTest(steps=steps), self.assertRaises(error):
                self.run_.run(steps)
            with self.subTest(steps=steps), self.assertRaises(error):
                self.run_.steps(steps)


class AnyThing(unittest.TestCase):
    """Random arguments: an answer, or one of the errors that are promised."""

    def hold(self, call, *arguments):
        """The call answers or raises what is promised; the interpreter lives."""
        try:
            call(*arguments)
        except (ValueError, TypeError, Refused, OSError):
            return 0
        return 1

    def test_things_as_arguments(self):
        chooser = random.Random(1)
        image, answered = COUNTING.read_bytes(), 0
        run, fresh = Model(image).open(), Model(image).open(fresh=True)
        for _ in range(20_000):
            one, two, three, four = (chooser.choice([*THINGS, image, STATE, [0] * 27]) for _ in range(4))
            answered += self.hold(calls.open_image, one, two)
            answered += self.hold(calls.run_steps, one, two, three, four)
            answered += self.hold(calls.refresh_table, one, two, three, four)
            answered += self.hold(calls.run_fresh, one, two, three)
            answered += self.hold(calls.run_lent, one, two, three, four, chooser.choice(THINGS))
            answered += self.hold(calls.run_fresh_lent, one, two, three, four)
            answered += self.hold(Store, one, two)
            answered += self.hold(Store.from_words, one, chooser.choice([run.model, two]))
            answered += self.hold(lambda store: run.model.open(store=store), one)
            answered += self.hold(chooser.choice([run, fresh]).copy().put, one, two, three, four)
            answered += self.hold(lambda state, keep: run.model.at(state, fresh=keep), one, chooser.random() < 0.5)
        self.assertGreater(answered, 100)

    def test_words_as_arguments(self):
        chooser = random.Random(2)
        image, numbers = COUNTING.read_bytes(), set()
        for _ in range(3_000):
            damaged = bytearray(image)
            damaged[chooser.randrange(len(image))] ^= 1 << chooser.randrange(8)
            state = [chooser.choice([0, 0, 0, 1, 2, 3, 2**32 - 1]) if chooser.random() < 0.03 else 0 for _ in STATE]
            table = [chooser.choice([0, 1, 3, 65_535]) for _ in range(chooser.choice([0, 9, 26, 27, 27, 27, 28]))]
            numbers.add(calls.trace_steps(chooser.choice([image, damaged]), state, table, chooser.randrange(40)).number)
        self.assertLessEqual({0, 3, 5, 6, 7, 9}, numbers)

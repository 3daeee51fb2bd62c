"""Where an image is bad (request 2026-03): the finer numbers, and from every call the first bit of the field at fault."""
import concurrent.futures
import copy
import pathlib
import pickle
import random
import tempfile
import unittest
import unittest.mock
from array import array

import jirvuntsag as jv
from jirvuntsag import calls, packer
from jirvuntsag.refusals import ABOUT_A_FIELD, TOO_LONG

from . import COUNTING
from .packing import Rule, pack
from .test_explain import said

IMAGE = COUNTING.read_bytes()
EMPTY = bytes.fromhex("0110000000000000")
VARIABLE = 4_096

# The counting model field by field: its header is bits 0 to 52, its types begin at 53, its opening at 61, its facts at 97 and
# 159, its rules at 221, 328 and 487, and after bit 562 the pad bits follow. Each line: what is put where (bit, width, value), and
# the number and position that come of it.
CASES = [
    ("version", [(0, 8, 4)], 3, 0),
    ("no buffers", [(8, 4, 0)], 3, 8),
    ("nine buffers", [(8, 4, 9)], 3, 8),
    ("257 rules", [(18, 9, 257)], 3, 18),
    ("513 facts", [(27, 10, 513)], 3, 27),
    ("nine slots of type 2", [(57, 4, 9)], 3, 57),
    ("type of an opening chunk", [(61, 6, 3)], 3, 61),
    ("type of a fact", [(159, 6, 0)], 3, 159),
    ("no tests", [(237, 4, 0)], 3, 237),
    ("more actions than buffers", [(241, 4, 3)], 3, 241),
    ("nine variables", [(245, 4, 9)], 3, 245),
    ("type of a test", [(252, 6, 3)], 3, 252),
    ("kind 3 of an action", [(299, 2, 3)], 3, 299),
    ("type of a request", [(301, 6, 0)], 3, 301),
    ("mask of a test", [(258, 8, 0b10100000)], 11, 258),
    ("mask of a test of type 0", [(288, 8, 0b10000000)], 11, 288),
    ("mask of a request", [(307, 8, 0b00000001)], 11, 307),
    ("mask of a modification", [(434, 8, 0b11111111)], 11, 434),
    ("variable of a test", [(266, 13, VARIABLE + 1)], 12, 266),
    ("variable of a request", [(315, 13, VARIABLE + 4_095)], 12, 315),
    ("a count of variables that stand in no test", [(245, 4, 2)], 12, 296),
    ("a constant where the only variable stood", [(266, 13, 1)], 12, 296),
    ("a variable in no test of the last rule", [(511, 4, 8)], 12, 558),
    ("buffer of a test", [(249, 3, 2)], 13, 249),
    ("buffers of tests that do not rise", [(279, 3, 0)], 13, 279),
    ("buffer of an action", [(296, 3, 7)], 13, 296),
    ("buffers of actions that do not rise", [(455, 3, 0)], 13, 455),
    ("a buffer that is modified untested", [(558, 3, 1), (561, 2, 0)], 13, 561),
    ("kind 3 of an action on an untested buffer", [(558, 3, 1), (561, 2, 3)], 3, 561),
    ("the first of two faults", [(434, 8, 255), (258, 8, 255), (511, 4, 9)], 11, 258),
    ("a pad bit", [(563, 1, 1)], 4, 0),
]
# images of another length: the number and the position
LENGTHS = [(b"", 2, 0), (IMAGE[:33], 2, 258), (IMAGE[:70], 2, 558), (IMAGE + b"\0", 4, 0), (bytes(65_537), 1, 0)]

# a refusal as version 0.4.0 pickled it, which had no position
PICKLED_BEFORE = b"""\
cjirvuntsag.refusals
Refused
p0
(I8
I1
(ttp1
Rp2
(dp3
Vnumber
p4
I8
sVmade
p5
I1
sVevents
p6
(lp7
sb."""


def with_fields(image, *fields):
    """An image with other values in some fields, each a bit, a width and a value."""
    bits = int.from_bytes(image, "big")
    for at, width, value in fields:
        shift = 8 * len(image) - at - width
        bits = bits & ~((1 << width) - 1 << shift) | value << shift
    return bits.to_bytes(len(image), "big")


def refusal(image):
    """The refusal of an image."""
    try:
        jv.Model(image)
    except jv.Refused as refused:
        return refused
    raise AssertionError("this image is accepted")


BAD = [(what, with_fields(IMAGE, *fields), number, position) for what, fields, number, position in CASES]
BAD += [(f"{len(image)} bytes", image, number, position) for image, number, position in LENGTHS]


class EveryCall(unittest.TestCase):
    """All calls tell the same number and position, and leave everything as it was."""

    # no call looks at these before it has looked at the image: they are no state, no mark and no table of any
    STATE, MARK, TABLE = array("I", range(2**32 - 89, 2**32)), 65_535, array("H", range(7))

    def hold(self, image, number, position):
        """Each call refuses an image by this number and position."""
        state, table, none = self.STATE, self.TABLE, array("I")
        self.assertEqual(calls.table_length(image), (number, 0, position))
        self.assertEqual(calls.open_image(image, table), (number, array("I", [0] * 89), table, position))
        self.assertEqual(calls.run_steps(image, state, table, 9), (number, 0, state, table, position))
        self.assertEqual(calls.trace_steps(image, state, table, 9), (number, 0, state, table, none, position))
        self.assertEqual(calls.refresh_table(image, state, self.MARK, table), (number, 0, table, position))
        self.assertEqual(calls.run_fresh(image, state, 9), (number, 0, state, position))
        self.assertEqual(calls.trace_fresh(image, state, 9), (number, 0, state, none, position))
        for store in None, array("H", [7] * 5):
            self.assertEqual(calls.run_lent(image, state, table, 9, store), (number, 0, state, table, none, store, position))
            self.assertEqual(calls.run_fresh_lent(image, state, 9, store), (number, 0, state, none, store, position))

    def test_bad_images_of_each_kind(self):
        for what, image, number, position in BAD:
            with self.subTest(what=what):
                self.hold(image, number, position)
        self.assertEqual({number for _, _, number, _ in BAD}, {1, 2, 3, 4, 11, 12, 13})

    def test_the_image_that_they_are_made_from_is_accepted(self):
        self.assertEqual(with_fields(IMAGE, (0, 8, 1), (563, 5, 0)), IMAGE)
        self.assertEqual(calls.table_length(IMAGE), (0, 27, 0))

    def test_other_numbers_have_no_position(self):
        state, table = jv.Model(IMAGE).start, [0] * 27
        stale = [1, 9, *[0] * 25]
        answers = [
            calls.open_image(IMAGE, [0] * 26),
            calls.run_steps(IMAGE, self.STATE, table, 9),
            calls.run_steps(IMAGE, state, stale, 9),
            calls.run_fresh(IMAGE, [2**32 - 1, *state[1:]], 9),
            calls.trace_fresh(IMAGE, state, 9),
            calls.refresh_table(IMAGE, state, 4, table),
            calls.trace_steps(IMAGE, state, table, 0),
            calls.run_fresh_lent(IMAGE, state, 9, [256, *[1, 7, 7, *[0] * 6] * 256]),
            calls.run_lent(IMAGE, state, table, 9, [257, *[0] * 2_304]),
        ]
        self.assertEqual([answer.number for answer in answers], [5, 6, 7, 8, 9, 10, 0, 14, 15])
        self.assertEqual([answer.position for answer in answers], [0] * 9)

    def test_a_field_far_into_a_long_image(self):
        facts = [((1, *range(8)), 0, 0)] * 512
        rules = [Rule([(0, 1, {slot: f"v{slot}" for slot in range(8)})], [])] * 256
        image = pack([8], [(1, *[0] * 8)], facts, rules)
        self.assertEqual(calls.table_length(image), (0, 9 * 256, 0))
        # the header, a type, a chunk, then 134 bits for each fact and 149 for each rule, of which a term is the last 13
        end = 53 + 4 + 102 + 512 * 134 + 256 * 149
        self.hold(image[:-1], 2, end - 13)
        self.hold(with_fields(image, (end - 13, 13, VARIABLE + 8)), 12, end - 13)
        self.hold(with_fields(image, (end - 13, 13, VARIABLE)), 12, end)

    def test_any_damaged_image(self):
        chooser, seen = random.Random(3), set()
        for _ in range(3_000):
            image = bytearray(IMAGE[: chooser.choice([71, 71, 71, chooser.randrange(71)])])
            for _ in range(chooser.randrange(3)):
                if image:
                    image[chooser.randrange(len(image))] ^= 1 << chooser.randrange(8)
            number, words, position = calls.table_length(image)
            seen.add(number)
            if not number:
                self.assertEqual((words % 9, position), (0, 0))
                continue
            self.hold(image, number, position)
            self.assertLessEqual(position, 8 * len(image) if number in ABOUT_A_FIELD else 0)
            if number in (3, 11, 12, 13):
                self.whatever_follows(image, number, position, chooser)
        self.assertEqual(seen, {0, 2, 3, 4, 11, 12, 13})

    def whatever_follows(self, image, number, position, chooser):
        """No field after the one at fault is looked at: none is wider than 16 bits."""
        read = image[: (position + 16 + 7) // 8]
        self.hold(read + chooser.randbytes(chooser.randrange(40)), number, position)


class TableLength(unittest.TestCase):
    """It tells an image that is refused from one without rules, and both from one with rules."""

    def test_without_rules(self):
        self.assertEqual(calls.table_length(EMPTY), (0, 0, 0))
        self.assertEqual((jv.Model(EMPTY).rules, jv.Model(EMPTY).open().table), ([], []))

    def test_refused(self):
        self.assertEqual(calls.table_length(EMPTY[:-1]), (2, 0, 53))
        self.assertEqual(calls.table_length(EMPTY[:-1] + b"\x20"), (3, 0, 53))
        self.assertEqual(calls.table_length(EMPTY[:-1] + b"\x10"), (4, 0, 0))

    def test_with_rules(self):
        for rules in 1, 3, 256:
            text = "type t\nbuffer goal t\n" + "".join(f"rule r{at}\n=goal> t\n==>\n" for at in range(rules))
            self.assertEqual(calls.table_length(jv.Model.from_text(text).image), (0, 9 * rules, 0))


class Errors(unittest.TestCase):
    """What is raised."""

    def test_a_model_is_refused_with_number_position_and_words(self):
        for what, image, number, position in BAD:
            refused = refusal(image)
            with self.subTest(what=what):
                self.assertEqual((refused.number, refused.position), (number, position))
                self.assertEqual((refused.meaning, refused.made, refused.events), (jv.MEANINGS[number], 0, []))

    def test_a_field_is_told_by_its_byte_and_bit(self):
        refused = refusal(with_fields(IMAGE, (258, 8, 0b10100000)))
        self.assertEqual(refused.where, (32, 2))
        self.assertEqual(str(refused), f"refused by 11 at bit 258 (byte 32, bit 2 of it): {refused.words}")
        self.assertEqual(refusal(b"\x04").where, (0, 0))

    def test_the_packer_names_the_field_its_value_and_its_rule(self):
        words = refusal(with_fields(IMAGE, (258, 8, 0b10100000))).words
        self.assertRegex(words, r"^the mask of test 0 of rule 0 is 10100000, but type 2 has slots 0 and 1.* \[.*slots.*\]$")
        for what, image, number, _ in BAD:
            refused = refusal(image)
            with self.subTest(what=what):
                # the packer reads images by itself: its words are taken only if it tells the same number and place
                self.assertEqual(refused.words == refused.meaning, number == TOO_LONG)

    def test_without_the_packer_the_number_is_told_in_words(self):
        with unittest.mock.patch.object(packer, "_packer", side_effect=jv.NoLibrary("it is not here")):
            for what, image, number, position in BAD:
                refused = refusal(image)
                with self.subTest(what=what):
                    self.assertEqual((refused.number, refused.position, refused.words), (number, position, jv.MEANINGS[number]))
            told = str(refusal(IMAGE[:33]))
        self.assertEqual(told, "refused by 2 at bit 258 (byte 32, bit 2 of it): a field of the image is not wholly there")

    def test_words_for_another_number_or_place_are_not_taken(self):
        image, head = with_fields(IMAGE, (279, 3, 0)), "refused by 13 at bit 279 (byte 34, bit 7 of it)"
        self.assertIn("the buffer of test 1 of rule 0", packer.words_of_refusal(image, head))
        for other in head.replace("13", "3"), head.replace("279", "280"), "refused by 13":
            self.assertIsNone(packer.words_of_refusal(image, other))
        self.assertIsNone(packer.words_of_refusal(IMAGE, head))

    def test_other_numbers_tell_no_place(self):
        for number in {*range(1, len(jv.MEANINGS))} - {*ABOUT_A_FIELD}:
            refused = jv.Refused(number)
            self.assertEqual((refused.position, refused.where), (0, None))
            self.assertEqual(str(refused), f"refused by {number}: {jv.MEANINGS[number]}")

    def test_each_number_has_words_of_its_own(self):
        self.assertEqual((len(jv.MEANINGS), len(set(jv.MEANINGS))), (16, 16))
        meant = {3: "version, count, type or kind", 11: "mask", 12: "variable", 13: "buffer"}
        for number, words in {**meant, 14: "more than 256 facts", 15: "a fact that the image could not hold"}.items():
            self.assertIn(words, jv.MEANINGS[number])

    def test_copies_and_pickles(self):
        refused = refusal(IMAGE[:33])
        for other in copy.copy(refused), copy.deepcopy(refused), pickle.loads(pickle.dumps(refused)):
            self.assertEqual((other.number, other.position, str(other)), (2, 258, str(refused)))
            self.assertEqual((other.words, other.made, other.events), (refused.words, 0, []))
            self.assertEqual(repr(other), f"Refused(2, 0, (), 258, {refused.words!r})")

    def test_a_pickle_from_before_has_no_position(self):
        refused = pickle.loads(PICKLED_BEFORE)
        self.assertEqual((refused.number, refused.made, refused.events, refused.position), (8, 1, [], 0))
        self.assertEqual(str(refused), "refused by 8: the clock would pass 4,294,967,295")

    def test_a_run_that_is_refused_has_no_position(self):
        for fresh in False, True:
            late = jv.Model(IMAGE).open(fresh=fresh)
            late.clock = 2**32 - 60
            with self.assertRaises(jv.Refused) as caught:
                late.run()
            self.assertEqual((caught.exception.number, caught.exception.made, caught.exception.position), (8, 1, 0))

    def test_commands_say_where(self):
        with tempfile.TemporaryDirectory() as folder:
            path = pathlib.Path(folder) / "bad.image"
            path.write_bytes(with_fields(IMAGE, (279, 3, 0)))
            for command in "explain", "timeline":
                status, out, error = said(command, path)
                self.assertEqual((status, out), (2, ""))
                self.assertIn("bad.image: refused by 13 at bit 279 (byte 34, bit 7 of it): the buffer of test 1 of", error)


class Many(unittest.TestCase):
    """Sweeps and the packer's runs."""

    def test_items_of_a_sweep(self):
        images = [IMAGE, with_fields(IMAGE, (434, 8, 255)), IMAGE, IMAGE[:70]]
        with concurrent.futures.ProcessPoolExecutor(2) as executor:
            for asked in {}, {"fresh": True}, {"executor": executor}:
                with self.assertRaises(jv.SweepFailed) as caught:
                    jv.sweep(images, jv.Model, **asked)
                told = {at: (error.number, error.position) for at, error in caught.exception.errors.items()}
                self.assertEqual(told, {1: (11, 434), 3: (2, 558)})
                self.assertEqual([row and row.clock for row in caught.exception.rows], [550, None, 550, None])
                self.assertIn("the first is item 1: Refused: refused by 11 at bit 434", str(caught.exception))

    def test_images_that_the_packer_is_to_run(self):
        for what, image, number, position in BAD:
            runs = packer.Runs([IMAGE, image], array("I", [0]), array("I"), b"", 1)
            with self.subTest(what=what), self.assertRaises(jv.NotPacked) as caught:
                packer.run_all(runs)
            self.assertTrue(str(caught.exception).startswith(f"image 1: {jv.Refused(number, position=position).head}: "))

"""Every case of vectors/06.txt, through Python."""
import collections
import unittest

from jirvuntsag import Model, Refused, calls
from jirvuntsag.states import BUFFER_WORDS

from . import ROOT

CASES = 360
# the numbers by which an image is refused, whatever else is handed in
OF_IMAGES = (1, 2, 3, 4, 11, 12, 13)


def cases():
    """All cases: the line of the call, and that of its answer."""
    lines = (ROOT / "vectors" / "06.txt").read_text(encoding="ascii").splitlines()
    return list(zip(lines[::2], lines[1::2]))


def read_bytes(text):
    """Bytes from lower-case hex, `-` for none."""
    return b"" if text == "-" else bytes.fromhex(text)


def read_words(text):
    """Words joined by commas, `-` for none."""
    return [] if text == "-" else [int(word) for word in text.split(",")]


def read_state(text):
    """`CLOCK/B0/../B7` as 89 words."""
    return [int(word) for word in text.replace("/", ",").split(",")]


def read_store(text):
    """`PLACES/COUNT/F0/F1/..` as the count and nine words for each place; those that are not listed are nine zeros."""
    places, *words = text.split("/")
    words = [int(word) for part in words for word in part.split(",")]
    return words + [0] * (1 + 9 * int(places) - len(words))


def show_words(words):
    """Words as they are written in a case."""
    return ",".join(map(str, words)) or "-"


def show_state(words):
    """A state as it is written in a case."""
    buffers = [show_words(words[at : at + BUFFER_WORDS]) for at in range(1, len(words), BUFFER_WORDS)]
    return "/".join([str(words[0]), *buffers])


def show_store(words):
    """A store as it is written in a case: the last places are not listed if they are nine zeros."""
    places = [words[at : at + 9] for at in range(1, len(words), 9)]
    listed = max((at for at, place in enumerate(places, 1) if any(place)), default=0)
    return "/".join([str(len(places)), str(words[0]), *map(show_words, places[:listed])])


def show_head(answer):
    """The number of an answer and its position, with which every answer but a printed one begins."""
    return f"{answer.number} {answer.position}"


def answer_open(image, table):
    """The answer to `open`."""
    opened = calls.open_image(read_bytes(image), read_words(table))
    return f"{show_head(opened)} {show_state(opened.state)} {show_words(opened.table)}"


def same_run(ran, traced):
    """A run gives back the same with events and without, and there is one for each step made."""
    return traced._replace(events=ran.events) == ran and len(traced.events) == calls.EVENT_WORDS * ran.made


def answer_run(image, state, table, steps, store):
    """The answer to `run`, which is the same with events and without."""
    arguments = read_bytes(image), read_state(state), read_words(table), int(steps), read_store(store)
    ran = calls.run_lent(*arguments, events=False)
    assert same_run(ran, calls.run_lent(*arguments))
    return f"{show_head(ran)} {show_state(ran.state)} {show_words(ran.table)} {ran.made} {show_store(ran.store)}"


def answer_fresh(image, state, steps, store):
    """The answer to `fresh`, the run without a table, which is the same with events and without."""
    arguments = read_bytes(image), read_state(state), int(steps), read_store(store)
    ran = calls.run_fresh_lent(*arguments, events=False)
    assert same_run(ran, calls.run_fresh_lent(*arguments))
    return f"{show_head(ran)} {show_state(ran.state)} {ran.made} {show_store(ran.store)}"


def answer_refresh(image, state, mark, table):
    """The answer to `refresh`."""
    refreshed = calls.refresh_table(read_bytes(image), read_state(state), int(mark), read_words(table))
    return f"{show_head(refreshed)} {refreshed.count} {show_words(refreshed.table)}"


def answer_print(image):
    """The answer to `print`, from the events of a run."""
    try:
        ended = Model(read_bytes(image)).open().run(1000)
    except Refused as refused:
        lines = [*map(str, refused.events), f"end {refused.number} {refused.made}"]
    else:
        lines = [*map(str, ended.events), str(ended)]
    return "".join(f"{line}\n" for line in lines).encode().hex()


ANSWERS = {"open": answer_open, "run": answer_run, "fresh": answer_fresh, "refresh": answer_refresh, "print": answer_print}


class Vectors(unittest.TestCase):
    """The cases, and that none is passed over."""

    def hold(self, kind):
        """Every case of a kind of call has its answer."""
        for call, answer in cases():
            name, *arguments = call.split(" ")
            if name == kind:
                with self.subTest(call=call):
                    self.assertEqual(ANSWERS[kind](*arguments), answer)

    def test_the_cases_are_all_there(self):
        kinds = collections.Counter(call.split(" ")[0] for call, _ in cases())
        self.assertEqual(set(kinds), set(ANSWERS))
        self.assertEqual(sum(kinds.values()), CASES)

    def test_open(self):
        self.hold("open")

    def test_run(self):
        self.hold("run")

    def test_fresh(self):
        self.hold("fresh")

    def test_refresh(self):
        self.hold("refresh")

    def test_print(self):
        self.hold("print")

    def test_table_length(self):
        """It has no cases of its own: an image is refused by it as by all calls, and is measured by the table that fits it."""
        seen = set()
        for call, answer in cases():
            kind, image, *_ = call.split(" ")
            if kind == "print":
                continue
            parts = answer.split(" ")
            number, position = map(int, parts[:2])
            measured = calls.table_length(read_bytes(image))
            with self.subTest(call=call):
                if number in OF_IMAGES:
                    self.assertEqual(measured, (number, 0, position))
                elif number == 5 or kind == "fresh":
                    self.assertEqual((measured.number, measured.position), (0, 0))
                else:
                    self.assertEqual(measured, (0, len(read_words(parts[3])), 0))
            seen.add(measured.number)
        self.assertEqual(seen, {0, 2, 3, 4, 11, 12, 13})

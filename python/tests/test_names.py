"""Names files, good and bad."""
import copy
import json
import pathlib
import tempfile
import unittest

from jirvuntsag import BadNames, Model, Names, symbol

from . import COUNTING, COUNTING_NAMES


class NamesFiles(unittest.TestCase):
    """Each bad file is told from a good one by one change."""

    def setUp(self):
        self.good = json.loads(COUNTING_NAMES.read_text(encoding="utf-8"))
        self.image = COUNTING.read_bytes()

    def refused(self, words, change):
        """The names with this change are refused with these words."""
        names = copy.deepcopy(self.good)
        change(names)
        with self.assertRaisesRegex(BadNames, words):
            Model(self.image, Names.parse(json.dumps(names)))

    def test_further_members_are_passed_over(self):
        self.good["facts"] = ["b", "c"]
        self.assertEqual(Model(self.image, Names.parse(json.dumps(self.good))).buffers, ["goal", "retrieval"])

    def test_symbols_without_a_name_keep_their_numbers(self):
        self.good["symbols"] = {"0": "nil", "1": "one"}
        run = Model(self.image, Names.parse(json.dumps(self.good))).open()
        self.assertEqual(run.buffers["goal"].slots, {"current": "one", "target": symbol(3)})
        run.put("goal", "count", {"current": symbol(3), "target": "one"})
        self.assertEqual(run.buffers["goal"].slots, {"current": symbol(3), "target": "one"})

    def test_members_that_are_missing(self):
        for member in "buffers", "types", "symbols", "rules":
            self.refused(f'the member "{member}" is missing', lambda names: names.pop(member))
        self.refused('the member "slots" is missing', lambda names: names["types"][1].pop("slots"))

    def test_things_of_another_kind(self):
        self.refused("buffers: a list is expected", lambda names: names.update(buffers="goal"))
        self.refused("buffers: a name must be a string", lambda names: names.update(buffers=["goal", 1]))
        self.refused("types: a list is expected", lambda names: names.update(types={}))
        self.refused("an object with members is expected", lambda names: names.update(rules=["start"]))
        self.refused("symbols: an object is expected", lambda names: names.update(symbols=["nil"]))
        for key in "4096", "-1", "01", "x", "²", "1\n", "9" * 5000:
            self.refused("is no symbol number", lambda names: names.update(symbols={key: "nil"}))

    def test_names_that_stand_twice(self):
        self.refused("buffers: 'goal' stands twice", lambda names: names.update(buffers=["goal", "goal"]))
        self.refused("symbols: 'nil' stands twice", lambda names: names["symbols"].update({"4": "nil"}))
        self.refused("'#5' would name symbol 4", lambda names: names["symbols"].update({"4": "#5"}))
        self.refused("slots of 'count': 'current' stands twice", lambda names: names["types"][2].update(slots=["current"] * 2))

    def test_names_of_another_image(self):
        self.refused("buffers are 3 in the names and 2 in the image", lambda names: names["buffers"].append("imaginal"))
        self.refused("types are 2 in the names and 3 in the image", lambda names: names["types"].pop())
        self.refused("rules are 2", lambda names: names["rules"].pop())
        self.refused("slots of 'count' are 1", lambda names: names["types"][2]["slots"].pop())
        self.refused("variables of 'go-on' are 1", lambda names: names["rules"][1]["variables"].pop())

    def test_texts_that_are_no_json(self):
        for text in "", "{", '{"buffers": [], "buffers": []}', "[" * 100_000, "9" * 5000:
            with self.subTest(text=text[:20]), self.assertRaises(BadNames):
                Names.parse(text)

    def test_a_bad_file_is_named(self):
        with tempfile.TemporaryDirectory() as folder:
            path = pathlib.Path(folder) / "bad.json"
            for content in b"[]", b"\xff\xfe":
                path.write_bytes(content)
                with self.assertRaisesRegex(BadNames, "bad.json: "):
                    Model.load(COUNTING, path)
        with self.assertRaisesRegex(TypeError, "see Model.load"):
            Model(self.image, str(COUNTING_NAMES))

"""The worked experiment: its table and its picture are what its script writes now."""
import csv
import os
import pathlib
import subprocess
import sys
import tempfile
import unittest
import xml.dom.minidom

from . import EXAMPLES, ROOT

FOLDER = EXAMPLES / "fan-effect"


class FanEffect(unittest.TestCase):
    """A thousand combinations, nine runs each."""

    def rows(self):
        """The stored table."""
        with (FOLDER / "fan-effect.csv").open(newline="", encoding="ascii") as file:
            return list(csv.DictReader(file))

    def test_the_stored_table_and_picture(self):
        with tempfile.TemporaryDirectory() as folder:
            environment = {**os.environ, "PYTHONPATH": str(ROOT / "python"), "PYTHONDONTWRITEBYTECODE": "1"}
            command = [sys.executable, FOLDER / "fan_effect.py", "-o", folder]
            ended = subprocess.run(command, env=environment, capture_output=True, text=True, check=True)
            self.assertEqual(ended.stdout, "1,000 combinations, 9,000 runs; run and equation differ by 0.50 ms at most\n")
            for name in "fan-effect.csv", "fan-effect.svg":
                self.assertEqual((pathlib.Path(folder) / name).read_bytes(), (FOLDER / name).read_bytes(), name)

    def test_runs_are_beside_what_the_equations_predict(self):
        rows = self.rows()
        self.assertEqual(len({(row["S"], row["F"], row["B"]) for row in rows}), 1_000)
        kinds = [name[4:] for name in rows[0] if name.startswith("run_")]
        self.assertEqual(len(kinds), 9)
        for row in rows:
            for kind in kinds:
                self.assertAlmostEqual(float(row[f"run_{kind}"]), float(row[f"equation_{kind}"]), delta=0.56)

    def test_more_facts_are_never_faster(self):
        for row in self.rows():
            for other in 1, 2, 3:
                for one in "run_person{}_place" + str(other), f"run_person{other}_place" + "{}":
                    times = [int(row[one.format(count)]) for count in (1, 2, 3)]
                    self.assertEqual(times, sorted(times))

    def test_the_picture_has_a_dot_for_each_combination(self):
        picture = xml.dom.minidom.parse(str(FOLDER / "fan-effect.svg"))
        self.assertEqual(len(picture.getElementsByTagName("circle")), 1_000 + 5 * 3)

"""The wheel: built offline, installed into a clean virtual environment, and used there."""
import csv
import os
import pathlib
import subprocess
import sys
import tempfile
import unittest
import zipfile

import jirvuntsag
from jirvuntsag.version import VERSION

from . import EXAMPLES, ROOT

PROGRAM = """\
import jirvuntsag as jv, pathlib
here = pathlib.Path(jv.__file__).parent
assert "site-packages" in str(here), here
print(jv.__version__)
model = jv.Model.load("counting.model")
print(*model.open().run().events, sep="; ")
print(len(jv.sweep([model.replace(failure=ms) for ms in range(50)])))
try:
    jv.Model(model.image[:33])
except jv.Refused as refused:
    print(refused)
"""


class Wheel(unittest.TestCase):
    """One wheel for all tests, since it is built from the whole module."""

    @classmethod
    def setUpClass(cls):
        folder = tempfile.TemporaryDirectory()
        cls.addClassCleanup(folder.cleanup)
        cls.folder = pathlib.Path(folder.name)
        cls.said = cls.run_(ROOT / "tools" / "wheel", "-o", cls.folder)
        (cls.wheel,) = cls.folder.glob("*.whl")

    @classmethod
    def run_(cls, *command, cwd=ROOT):
        """What a command prints, without the variables and paths of this clone."""
        ours = "JIRVUNTSAG", "PYTHON", "VIRTUAL_ENV"
        kept = {name: value for name, value in os.environ.items() if not name.startswith(ours)}
        ended = subprocess.run([*map(str, command)], cwd=cwd, env=kept, capture_output=True, text=True, check=False)
        if ended.returncode:
            raise AssertionError(f"{command[0]} ended with {ended.returncode}: {ended.stderr}{ended.stdout}")
        return ended.stdout

    def test_it_says_where_it_is_and_for_what_it_is(self):
        self.assertIn(str(self.wheel), self.said)
        self.assertRegex(self.wheel.name, rf"^jirvuntsag-{VERSION}-py3-none-(manylinux_2_[0-9]+|linux)_[0-9a-z_]+\.whl$")

    def test_it_holds_the_module_and_both_libraries(self):
        with zipfile.ZipFile(self.wheel) as wheel:
            names = set(wheel.namelist())
            record = wheel.read(f"jirvuntsag-{VERSION}.dist-info/RECORD").decode()
        listed = [row[0] for row in csv.reader(record.splitlines())]
        self.assertEqual(sorted(listed), sorted(names))
        package = ROOT / "python" / "jirvuntsag"
        modules = {f"jirvuntsag/{path.relative_to(package)}" for path in package.rglob("*.py")}
        libraries = {f"jirvuntsag/lib/{name}.so" for name in ("libjirvuntsag", "libjirvuntsag_packer")}
        self.assertLessEqual(modules | libraries, names)

    def test_the_same_files_give_the_same_bytes(self):
        again = self.folder / "again"
        self.run_(ROOT / "tools" / "wheel", "-o", again)
        self.assertEqual((again / self.wheel.name).read_bytes(), self.wheel.read_bytes())

    def test_it_runs_an_example_in_a_clean_environment(self):
        self.run_(sys.executable, "-m", "venv", self.folder / "clean")
        python = self.folder / "clean" / "bin" / "python"
        self.run_(python, "-m", "pip", "install", "--no-index", "--no-deps", "--disable-pip-version-check", self.wheel)
        place = self.folder / "elsewhere"
        place.mkdir()
        (place / "counting.model").write_bytes((EXAMPLES / "counting.model").read_bytes())
        lines = self.run_(python, "-c", PROGRAM, cwd=place).splitlines()
        self.assertEqual(lines[0], VERSION)
        self.assertEqual(lines[1].split("; ")[-1], "550 wait 150")
        self.assertEqual(lines[2], "50")
        self.assertIn("refused by 2 at bit 258 (byte 32, bit 2 of it): the mask of test 0 of rule 0", lines[3])
        self.run_(python, "-m", "jirvuntsag", "timeline", "counting.model", "-o", "run.svg", cwd=place)
        self.assertIn("go-on", (place / "run.svg").read_text(encoding="utf-8"))


class Version(unittest.TestCase):
    """It is said in one place."""

    def test_the_module_and_its_description_say_the_same(self):
        self.assertEqual(jirvuntsag.__version__, VERSION)
        project = (ROOT / "python" / "pyproject.toml").read_text(encoding="utf-8")
        self.assertIn('version = { attr = "jirvuntsag.version.VERSION" }', project)
        self.assertNotIn(VERSION, project)

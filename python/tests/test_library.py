"""How the shared library is found, and what is said where it is not."""
import os
import pathlib
import subprocess
import sys
import tempfile
import unittest

from jirvuntsag.libraries import library_path
from jirvuntsag.version import VERSION

from . import COUNTING, ROOT

# loads a model, as a module of some version does
PROGRAM = """\
import jirvuntsag, sys
jirvuntsag.calls.MODULE_VERSION = sys.argv[2]
try:
    jirvuntsag.Model.load(sys.argv[1])
except jirvuntsag.NoLibrary as error:
    print(error)
"""


class Library(unittest.TestCase):
    """Each in an interpreter of its own, since a library is loaded once."""

    def said(self, library, variable="JIRVUNTSAG_LIBRARY", model=COUNTING, version=VERSION):
        """What is said where the library, or the packer, is at this path, by a module of this version."""
        environment = {**os.environ, variable: str(library), "PYTHONPATH": str(ROOT / "python")}
        command = [sys.executable, "-c", PROGRAM, str(model), version]
        return subprocess.run(command, env=environment, capture_output=True, text=True, check=True).stdout

    def test_a_library_that_is_not_there(self):
        said = self.said("no/such/library.so")
        self.assertIn("no shared library at no/such/library.so", said)
        self.assertIn("make lib", said)
        self.assertIn("make wheel", said)

    def test_a_file_that_is_no_library(self):
        with tempfile.TemporaryDirectory() as folder:
            path = pathlib.Path(folder) / "libjirvuntsag.so"
            path.write_text("no library", encoding="ascii")
            said = self.said(path)
        self.assertIn("is not the library of this module", said)
        self.assertIn("make lib", said)

    def test_a_library_of_another_version(self):
        own = library_path("libjirvuntsag.so", "JIRVUNTSAG_LIBRARY")
        self.assertEqual(self.said(own), "")
        said = self.said(own, version="0.4.0")
        self.assertIn(f"the library is of version {VERSION}, this module of 0.4.0: make the wheel", said)

    def test_a_text_without_the_packer(self):
        said = self.said("no/packer.so", "JIRVUNTSAG_PACKER", COUNTING.with_suffix(".model"))
        self.assertIn("counting.model is a text, and without the packer only images are taken", said)
        self.assertIn("tools/wheel --libraries", said)

    def test_an_image_needs_no_packer(self):
        self.assertEqual(self.said("no/packer.so", "JIRVUNTSAG_PACKER"), "")

    def test_another_library_in_the_packers_place(self):
        other = library_path("libjirvuntsag.so", "JIRVUNTSAG_LIBRARY")
        said = self.said(other, "JIRVUNTSAG_PACKER", COUNTING.with_suffix(".model"))
        self.assertIn("is not the library of this module", said)

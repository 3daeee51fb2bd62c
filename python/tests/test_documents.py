"""The examples in docstrings, in python/README.md and in docs/EXPERIMENTS.md."""
import doctest
import importlib
import pkgutil

import jirvuntsag

from . import ROOT


def load_tests(_loader, tests, _pattern):
    """A test for each docstring with an example, and one for each page."""
    names = [module.name for module in pkgutil.walk_packages(jirvuntsag.__path__, "jirvuntsag.")]
    for module in [jirvuntsag, *map(importlib.import_module, names)]:
        tests.addTests(doctest.DocTestSuite(module))
    for page in "python/README.md", "docs/EXPERIMENTS.md":
        tests.addTests(doctest.DocFileSuite(str(ROOT / page), module_relative=False))
    return tests

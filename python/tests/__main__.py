"""Runs all tests, doctests too. The last line is 'N passed, M failed'; the exit status is 0 only if M is 0 and N is not."""
import os
import sys
import unittest

from . import ROOT


# the one reason for which a test may be skipped; a test that is skipped for another has failed
MAY_BE_MISSING = "Dask is not here"


def main():
    """Runs what is found, and counts: a test that was skipped, or that could not be loaded, has failed.

    A test that needs Dask, where that is not installed, is neither passed nor failed: it is named.
    """
    os.chdir(ROOT)  # the examples in docstrings name files from there
    suite = unittest.defaultTestLoader.discover(str(ROOT / "python" / "tests"), top_level_dir=str(ROOT / "python"))
    result = unittest.TextTestRunner(verbosity=2, stream=sys.stdout).run(suite)
    left_out = [test for test, reason in result.skipped if reason.startswith(MAY_BE_MISSING)]
    for test in left_out:
        print(f"skipped, since {MAY_BE_MISSING}: {test.id()}")
    marked = result.failures + result.errors + [skipped for skipped in result.skipped if skipped[0] not in left_out]
    failed = {getattr(test, "test_case", test).id() for test, _ in marked}
    failed |= {test.id() for test in result.unexpectedSuccesses}
    passed = max(result.testsRun - len(failed) - len(left_out), 0)
    bad = len(failed) if passed else max(len(failed), 1)
    print(f"{passed} passed, {bad} failed")
    return 1 if bad else 0


sys.exit(main())

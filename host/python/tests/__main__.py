"""Runs all tests of this folder, and ends in a line as cargo's tests do."""

import pathlib
import sys
import unittest


def main() -> None:
    folder = pathlib.Path(__file__).resolve().parent
    suite = unittest.defaultTestLoader.discover(str(folder), top_level_dir=str(folder.parent))
    result = unittest.TextTestRunner(stream=sys.stdout, verbosity=2).run(suite)
    # A test that fails in several parts is one that failed.
    failed = len({getattr(test, "test_case", test).id() for test, _ in result.failures + result.errors})
    word = "FAILED" if failed or not result.testsRun else "ok"
    print(f"test result: {word}. {result.testsRun - failed} passed; {failed} failed;")
    sys.exit(word != "ok")


main()

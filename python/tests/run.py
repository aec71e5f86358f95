#!/usr/bin/env python3
"""Runs the tests of the Python tools, or those of the named modules, and prints what they skip. The
status is 0 if no test failed.

    python/tests/run.py [test_flows ..]
"""
import pathlib
import sys
import unittest

HERE = pathlib.Path(__file__).resolve().parent
sys.dont_write_bytecode = True
sys.path[:0] = [str(HERE), str(HERE.parent), str(HERE.parents[1] / "scripts")]


def main(names):
    """Runs the tests."""
    loader = unittest.defaultTestLoader
    tests = loader.loadTestsFromNames(names) if names else loader.discover(str(HERE))
    result = unittest.TextTestRunner(verbosity=0).run(tests)
    for reason in sorted({reason for _, reason in result.skipped}):
        print(f"tools-test: skipped: {reason}")
    return 0 if result.wasSuccessful() else 1


if __name__ == "__main__":
    sys.exit(main(sys.argv[1:]))

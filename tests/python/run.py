"""Runs the tests of the Python package; those against networkx where networkx and hypothesis are
installed; then the same over faults, each of which has to be found.

usage: run.py   the environment's CASES: how many tables; ends in one line 'N passed, M failed'
"""
import importlib.util
import os
import shutil
import subprocess
import sys
import time
import unittest

HERE = os.path.dirname(os.path.abspath(__file__))
sys.path.insert(0, HERE)
quiet = open(os.devnull, "w")


def run(name, out):
    """The result of a test, or of all of a module."""
    suite = unittest.defaultTestLoader.loadTestsFromName(name)
    return unittest.TextTestRunner(stream=out, verbosity=0).run(suite)


def tests(modules):
    passed = failed = 0
    for module in modules:
        began = time.time()
        result = run(module, sys.stdout)
        wrong = len(result.failures) + len(result.errors)
        failed += wrong
        passed += result.testsRun - wrong - len(result.skipped)
        for test, why in result.skipped:
            print("skipped: %s: %s" % (test.id(), why))
        print("%s: %d tests, %.1f s" % (module, result.testsRun, time.time() - began))
    return passed, failed


def controls(with_networkx):
    """Each fault in its turn: the test finds it, and passes again without it."""
    import star.picture  # noqa: F401  a fault replaces a name of it
    from faulty import FAULTS
    passed = failed = 0
    for fault, (module, name, value, test) in FAULTS.items():
        if test.startswith("against_networkx") and not with_networkx:
            continue
        before = getattr(module, name)
        setattr(module, name, value)
        found = not run(test, quiet).wasSuccessful()
        setattr(module, name, before)
        if found:
            passed += 1
        else:
            failed += 1
            print("%s does not find the fault %s" % (test, fault))
    return passed, failed


def types():
    """Whether the types that the package states hold, where mypy is installed."""
    if not shutil.which("mypy"):
        print("skipped: the types, since mypy is not installed")
        return 0, 0
    words = ["mypy", "--strict", "--ignore-missing-imports", "--cache-dir", os.devnull, "star"]
    package = os.path.join(HERE, "..", "..", "python")
    held = subprocess.run(words, cwd=package, stdout=subprocess.PIPE, universal_newlines=True)
    if held.returncode != 0:
        print(held.stdout)
    return int(held.returncode == 0), int(held.returncode != 0)


def main():
    with_networkx = all(importlib.util.find_spec(name) for name in ("networkx", "hypothesis"))
    if not with_networkx:
        print("skipped: the tests against networkx, since networkx or hypothesis is not installed")
    modules = ["package", "wrong", "costs"] + ["against_networkx"] * bool(with_networkx)
    passed, failed = map(sum, zip(tests(modules), types()))
    if not failed:
        found, missed = controls(with_networkx)
        passed, failed = passed + found, failed + missed
    print("%d passed, %d failed" % (passed, failed))
    return failed != 0


if __name__ == "__main__":
    sys.exit(main())

"""Finds the tests and runs them; the last line is 'N passed, M failed'. tests/run is the command."""

import argparse
import fnmatch
import importlib
import sys
from pathlib import Path

from support import harness

HERE = Path(__file__).resolve().parent


def modules():
    """The test modules of the folders, by name and in order. What would be passed over is an error: a test module that
    stands elsewhere, or a file among test modules that is none."""
    found = sorted(HERE.glob("*/test_*.py"))
    beside = {path for folder in {path.parent for path in found} for path in folder.glob("*.py")}
    forgotten = (beside | set(HERE.rglob("test_*.py"))) - set(found)
    if forgotten:
        raise LookupError(f"not found as test modules: {' '.join(sorted(map(str, forgotten)))}")
    return [f"{path.parent.name}.{path.stem}" for path in found]


def registered(names):
    """The tests of the modules, in order; each module has some."""
    for name in names:
        importlib.import_module(name)
        if not any(test.module == name for test in harness.TESTS):
            raise LookupError(f"{name} has no test")
    return sorted(harness.TESTS, key=lambda test: names.index(test.module))


def matches(test, pattern):
    """A pattern is a part of the name, in which * and ? stand for anything."""
    return fnmatch.fnmatchcase(test.name, f"*{pattern}*")


def chosen(names, patterns):
    """The tests that match one of the patterns, or all for none. One that nothing matches is an error."""
    tests = registered(names)
    for pattern in patterns:
        if not any(matches(test, pattern) for test in tests):
            raise LookupError(f"no test has {pattern} in its name; the modules are\n  " + "\n  ".join(names))
    return [test for test in tests if not patterns or any(matches(test, pattern) for pattern in patterns)]


def main(words):
    parser = argparse.ArgumentParser(prog="tests/run", description="Builds what is tested and runs the tests.")
    parser.add_argument("--list", action="store_true", help="only list the names of the tests")
    patterns = "run the tests with this in their names, FOLDER.MODULE.FUNCTION; in it * and ? stand for anything"
    parser.add_argument("patterns", nargs="*", metavar="PATTERN", help=patterns)
    asked = parser.parse_args(words)
    try:
        tests = chosen(modules(), asked.patterns)
    except LookupError as error:
        parser.exit(2, f"tests/run: {error}\n")
    if asked.list:
        print("\n".join(test.name for test in tests))
        return 0
    passed, failed = harness.run(tests)
    print(f"{passed} passed, {failed} failed")
    return 1 if failed else 0


if __name__ == "__main__":
    sys.exit(main(sys.argv[1:]))

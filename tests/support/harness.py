"""Tests that count what they check, so that none passes by doing nothing."""

import time
import traceback
from typing import Callable, NamedTuple

TESTS = []


class Test(NamedTuple):
    function: Callable
    at_least: int
    missing: str

    @property
    def module(self):
        return self.function.__module__

    @property
    def name(self):
        return f"{self.module}.{self.function.__name__}"


class Checks:
    """Handed to a test: every comparison goes through it and is counted."""

    def __init__(self):
        self.count = 0

    def same(self, got, want, *context):
        self.count += 1
        if got != want:
            parts = ", ".join(shown(part) for part in context)
            raise AssertionError(f"got {shown(got)}, want {shown(want)}; {parts}")

    def true(self, holds, *context):
        self.same(bool(holds), True, *context)


def shown(value):
    text = value if isinstance(value, str) else repr(value)
    return text if len(text) < 2000 else text[:2000] + " .."


def test(at_least, missing=None):
    """Registers a test, which has to make at least so many checks. One that needs what this machine is `missing` is
    skipped, and says so."""

    def register(function):
        TESTS.append(Test(function, at_least, missing))
        return function

    return register


def verdict(test, checks):
    """Runs a test with its checks; answers whether it passed, and shows why if it did not."""
    try:
        test.function(checks)
        if checks.count < test.at_least:
            raise AssertionError(f"only {checks.count} checks, at least {test.at_least} are to be made")
    except Exception:
        traceback.print_exc()
        return False
    return True


def run(tests):
    """Runs tests and says how each went; answers how many passed and failed."""
    counts = {True: 0, False: 0}
    for number, test in enumerate(tests, 1):
        place = f"[{number}/{len(tests)}]"
        if test.missing:
            print(f"{place} skip {test.name}: {test.missing}", flush=True)
            continue
        checks, began = Checks(), time.time()
        passed = verdict(test, checks)
        counts[passed] += 1
        word, took = "ok" if passed else "FAILED", time.time() - began
        print(f"{place} {word} {test.name}: {checks.count} checks, {took:.1f} s", flush=True)
    return counts[True], counts[False]

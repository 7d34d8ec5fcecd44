"""The gate: rt, then the tests from outside, and one last line of both."""

import sys

from support.harness import test
from support.repository import a_repository

PROVED = """== low
fn low::f: proved
rt: low proved
== middle
rt: middle proved
rt: low: trying its must-fail edits (2)
== exports_c
rt: exports_c proved
== blocks
rt: blocks proved
rt: must-fail low/one: refused, as it must be
rt: must-fail low/other: refused, as it must be
rt: blocks ran, and wrote what its file stdout has
rt: blocks ran (built by Rattle's own compiler), and wrote what its file stdout has
rt: ok; handles allowed: none; must-fail edits: {0}; every proof and must-fail edit was done in this run
6 passed, 0 failed
"""
BAD = PROVED.format("1 refused, 1 bad").replace("other: refused, as it must be", "other: BAD EDIT: its text is gone")
BAD = BAD.replace("6 passed", "5 passed")
PROVED = PROVED.format("2 refused")
NOT_PROVED = """== low
crates/low/src/lib.rt:7:1: error: not so
rt: low NOT PROVED
rt: middle NOT PROVED: its library low failed
rt: exports_c NOT PROVED: its library low failed
rt: blocks NOT PROVED: its library low failed
rt: FAILED: low middle exports_c blocks
0 passed, 4 failed
"""

# tests that find the library, and say so
TESTS = """#!/bin/sh
[ ! -e target/lib/libniqastul.so ] || echo "the library is there"
echo "{0}"
exit {1}
"""


def gate(said, status, last, tests_status):
    """What the gate shows where rt and the tests end so; answers its status and the lines."""
    with a_repository() as repository:
        repository.write_program("gate/install", "#!/bin/sh\n")
        repository.write_program("tests/run", TESTS.format(last, tests_status))
        return repository.run([sys.executable, "-B", "gate/gate.py"], said, status)


@test(at_least=9)
def passed_and_failed(t):
    """The last line has the sum; a step that ends without such a line, or with a status that does not fit it, failed.
    So did rt where must-fail edits no longer fit, or where it does not say that all is well."""
    good = "3 passed, 0 failed"
    for said, status, last, tests_status, wanted in (
        (PROVED, 0, good, 0, "9 passed, 0 failed"),
        (PROVED, 0, "2 passed, 1 failed", 1, "8 passed, 1 failed"),
        (PROVED, 0, "no such line", 0, "6 passed, 1 failed"),
        (PROVED, 0, good, 1, "9 passed, 1 failed"),
        (PROVED, 1, good, 0, "9 passed, 1 failed"),
        (NOT_PROVED, 1, good, 0, "3 passed, 4 failed"),
        (BAD, 0, good, 0, "8 passed, 1 failed"),
        (BAD.replace("1 bad", "12 bad"), 0, good, 0, "8 passed, 12 failed"),
        ("6 passed, 0 failed\n", 0, good, 0, "9 passed, 1 failed"),
    ):
        ended, lines = gate(said, status, last, tests_status)
        t.same((ended, lines[-1]), (0 if wanted.endswith(" 0 failed") else 1, wanted), *lines)


@test(at_least=5)
def in_turn(t):
    """The library is built when rt has ended, if `exports_c` is proved, and then the tests begin."""
    _, lines = gate(PROVED, 0, "3 passed, 0 failed", 0)
    t.same(lines[0], "[1/7] low proved")
    t.true("tests: building the library from the proved crates" in lines, *lines)
    t.true("tests: the library is there" in lines and "tests: 3 passed, 0 failed" in lines, *lines)
    _, lines = gate(NOT_PROVED, 1, "3 passed, 0 failed", 0)
    t.true("tests: the library is there" not in lines and "tests: 3 passed, 0 failed" in lines, *lines)
    t.true("tests: building the library from the proved crates" not in lines, *lines)

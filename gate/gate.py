"""The gate. Proves every crate, tries the must-fail edits and runs the program (rt ci); then builds the library from
the proved crates and runs the tests from outside (tests/run). What the tests need is installed while rt ci runs. The
last line is 'N passed, M failed', of both together."""

import signal
import subprocess
import sys

from proving import ROOT, Proving
from step import Step, say


def toolchain():
    """Says so if the proofs were checked with another toolchain than the one at hand."""
    known = (ROOT / "toolchain.txt").read_text().strip()
    at_hand = subprocess.run(["rt", "version"], capture_output=True, text=True).stdout.strip()
    if known != at_hand:
        say(f"warning: the proofs were checked with {known}; at hand is {at_hand or 'no rt'}")


def ended(step, name):
    if step.process.returncode not in (0, 1):
        say(f"{name} ended with status {step.process.returncode}")


def show(step):
    """Shows what a step says on the way to the tests, until it ends."""
    for line in step.lines():
        say(f"tests: {line}")


def prove():
    """Runs rt ci, as it is, at the top of the checkout. Answers how much passed and failed, and whether the library can
    be built."""
    proving = Proving()
    with Step(["rt", "ci"], ROOT) as step:
        for line in step.lines():
            proving.line(line)
    proving.show_held()
    ended(step, "rt ci")
    passed, failed = step.counts()
    if not failed and (failed := proving.unsaid()):
        say(f"rt ci passed, and still this fails: {proving.ok or 'it did not say that all is well'}")
    return (passed, failed), proving.verdicts.get("exports_c", False)


def test():
    """Runs the tests from outside; answers how much passed and failed."""
    with Step(["tests/run"], ROOT) as step:
        show(step)
    ended(step, "tests/run")
    return step.counts()


def main():
    toolchain()
    passed, failed = 0, 1
    try:
        with Step(["gate/install"], ROOT) as installing:
            proved, with_library = prove()
            show(installing)
        if with_library:
            with Step(["gate/build"], ROOT) as building:
                show(building)
        passed, failed = (sum(counts) for counts in zip(proved, test()))
    finally:
        say(f"{passed} passed, {failed} failed")
    return 1 if failed else 0


if __name__ == "__main__":
    signal.signal(signal.SIGTERM, lambda *_: sys.exit(1))
    sys.exit(main())

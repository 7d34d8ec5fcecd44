"""Runs `rt lib` or `rt run` in the folder of a crate and shows how far it is: a line for each crate, with its place in
the whole. Everything that rt says is kept in target/log, and shown in full if rt fails.

    python3 gate/progress.py rt lib NAME
    python3 gate/progress.py rt run NAME
"""

import re
import signal
import sys
import time

from proving import ROOT, Places, needed
from step import Step, say

BEGUN = re.compile(r"rt: chose --jobs \d+ for (\w+)")
ENDED = re.compile(r"crate (\w+): .*")
VERDICT = re.compile(r"logic=(proved|not-proved)\b.*")


class Progress(Places):
    """What rt says of the crates that a crate needs, one after another, and of itself. Of one that has not changed, and
    of one that has no code, it says nothing."""

    def __init__(self, verb, name):
        self.verb, self.name, self.crates = verb, name, needed(name)
        super().__init__(f"{verb}-{name}.txt", len(self.crates) + (verb == "run"))
        self.crate, self.began, self.told = None, time.time(), set()

    def line(self, line):
        self.keep(line)
        begun, ended, verdict = BEGUN.fullmatch(line), ENDED.fullmatch(line), VERDICT.fullmatch(line)
        if begun or ended:
            self.crate = (begun or ended)[1]
        if begun:
            say(f"    begun: {self.crate}")
        elif verdict and self.crate:
            self.verdict(verdict[1] == "proved")
        else:
            self.held.append(line)

    def verdict(self, proved):
        name, now = self.crate, time.time()
        if not proved:
            self.show_held()
        self.held, self.crate = [], None
        # the library's own place comes when it is made
        if proved and (self.verb, self.name) == ("lib", name):
            return
        if proved:
            self.unchanged(needed(name)[:-1])
        self.told.add(name)
        self.place(f"{name} {'proved' if proved else 'NOT PROVED'} ({now - self.began:.0f} s)")
        self.began = now

    def unchanged(self, names):
        for name in names:
            if name not in self.told:
                self.told.add(name)
                self.place(f"{name}: nothing to prove")

    def made(self):
        """The last places, once rt has ended well."""
        self.unchanged(self.crates[:-1])
        if self.verb == "lib":
            self.place(f"{self.name} proved, and crates/{self.name}/out/lib{self.name}.a is made")
        else:
            self.place(f"{self.name} ran, and crates/{self.name}/out/{self.name} is made", self.name not in self.told)


def main(verb, name):
    """Runs a command of rt and answers its status."""
    progress = Progress(verb, name)
    say(f"{len(progress.crates)} crates to prove: {' '.join(progress.crates)}")
    with Step(["rt", verb], ROOT / "crates" / name) as step:
        for line in step.lines():
            progress.line(line)
    status = step.process.returncode
    if status == 0:
        progress.made()
        return 0
    progress.show_held()
    say(f"rt {verb} {name} failed; all that it said:")
    say(progress.path.read_text())
    return status


if __name__ == "__main__":
    signal.signal(signal.SIGTERM, lambda *_: sys.exit(1))
    sys.exit(main(*sys.argv[2:]))

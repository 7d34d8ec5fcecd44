"""Reads what `rt ci` says. It says a good deal of each crate, once the crate is done; here that becomes a line for each
crate, must-fail edit and program, with its place in the whole. What rt says of a crate that fails is shown in full."""

import re
from pathlib import Path

from step import say

ROOT = Path(__file__).resolve().parent.parent
LOG = ROOT / "target" / "log"

# What is said of a crate, or of its tests, stands between these two lines. Of a crate that is kept from an earlier run,
# or that stands on one that failed, there is the second line alone.
HEAD = re.compile(r"== \w+(: its tests)?")
VERDICT = re.compile(r"rt: (\w+)(: its tests are)? (proved|is kept|NOT PROVED)\b(.*)")
EDIT = re.compile(r"rt: must-fail (\w+/\S+): (.*)")
RUN = re.compile(r"rt: (\w+)( ran\b|(?: \([^)]*\))?: (?:what )?the program )(.*)")
OK = re.compile(r"rt: ok\b.*")
BAD = re.compile(r", (\d+) bad\b")


def crates():
    """The crates that crates.txt lists, each with those that it stands on."""
    lines = (line.split("#")[0].split(":") for line in (ROOT / "crates.txt").read_text().splitlines())
    return {line[0].split()[0]: line[1].split() for line in lines if len(line) == 2}


def needed(name):
    """A crate and those that it stands on, by way of others too, in the order of the list."""
    listed = crates()
    found, left = {name}, [name]
    while left:
        more = [other for other in listed[left.pop()] if other in listed and other not in found]
        found.update(more)
        left += more
    return [other for other in listed if other in found]


class Places:
    """What a command of rt says, all of it in a file of target/log, and how far it is in the whole."""

    def __init__(self, name, total):
        LOG.mkdir(parents=True, exist_ok=True)
        self.path = LOG / name
        self.log = open(self.path, "w", buffering=1)
        self.total, self.done, self.held = total, 0, []

    def keep(self, line):
        self.log.write(line + "\n")

    def place(self, line, passed_over=0):
        """Shows a line in its place, behind some that will not come."""
        self.done += 1 + passed_over
        say(f"[{self.done}/{self.total}] {line}")

    def show_held(self):
        """Shows what was said of a crate that is not proved, or of which there is no verdict."""
        for held in self.held:
            say(held)
        self.held = []


class Proving(Places):
    """What `rt ci` says."""

    def __init__(self):
        self.crates = list(crates())
        super().__init__("ci.txt", sum(1 + self.behind(name) for name in self.crates))
        self.verdicts, self.ran, self.holding, self.ok = {}, set(), False, None

    @staticmethod
    def behind(name):
        """How much is to come of a crate that is proved: its edits, and its run if it is a program."""
        folder = ROOT / "crates" / name
        return len(list(folder.glob("must-fail/*.edit"))) + (folder / "src" / "main.rt").exists()

    def line(self, line):
        self.keep(line)
        verdict, edit, run = VERDICT.fullmatch(line), EDIT.fullmatch(line), RUN.fullmatch(line)
        if HEAD.fullmatch(line):
            self.holding = True
        elif verdict:
            self.verdict(*verdict.groups())
        elif self.holding:
            self.held.append(line)
        elif edit:
            self.place(f"must-fail {edit[1]}: {edit[2]}")
        elif run and run[1] not in self.ran:
            # a program is run twice, as two compilers build it, and has one place
            self.ran.add(run[1])
            self.place(line.removeprefix("rt: "))
        else:
            self.ok = line if OK.fullmatch(line) else self.ok
            say(line)

    def verdict(self, name, tests, verdict, more):
        failed = verdict == "NOT PROVED"
        if failed:
            self.show_held()
        self.held, self.holding = [], False
        # nothing more is said of a crate that failed
        passed_over = self.behind(name) if failed and self.verdicts.get(name, True) else 0
        self.verdicts[name] = not failed and self.verdicts.get(name, True)
        if verdict == "is kept":
            self.place(f"{name} is kept from an earlier run")
        elif not tests:
            self.place(f"{name} {verdict}{more}", passed_over)
        elif failed:
            self.done += passed_over
            say(f"{name}: its tests are NOT PROVED")

    def unsaid(self):
        """How much failed that rt does not count: edits that no longer fit, or that it never said that all is well."""
        bad = BAD.search(self.ok) if self.ok else None
        return int(bad[1]) if bad else int(not self.ok)

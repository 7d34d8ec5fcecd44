"""Demand 3, replayed: replay.c carries out histories with the library, model.py with the oracle; every line has to be
the same."""

import subprocess

from replay.model import Model
from support.compiled import compiled
from support.harness import test

# seed, vertices, calls: many short histories, some long ones
LONG = [(1001, 40, 2500), (1002, 49, 2500), (1003, 90, 800)]
HISTORIES = [(seed, 1 + seed % 12, 60) for seed in range(1, 301)] + LONG

# the answers that they have to meet; the tables of a struct fit each other, so that nothing is wrong with a start
MET = {
    "start": (0,),
    "add": (0, 2, 30, 4, 5, 32, 20),
    "join": (0, 2, 21, 30, 20),
    "save": (0, 2, 30),
    "read": (0, 6, 7, 20),
    "relabel": (0, 2, 3, 4, 5, 32),
    "divide": (0, 2, 8, 30, 22),
    "report": (0, 2, 30, 4, 5, 32, 22, 23),
    "separate": (0, 2, 30, 4, 5, 32, 23, 31),
    "index": (0, 2, 4, 5, 32),
    "query": (0, 1, 30, 4),
}


@test(at_least=23_000)
def replayed(t):
    program, seen = compiled("tests/replay/replay.c", "replay"), set()
    for seed, n, count in HISTORIES:
        words = [str(seed), str(n), str(count)]
        lines = subprocess.run([program, *words], check=True, capture_output=True, text=True).stdout.splitlines()
        t.same(len(lines), count, seed)
        model = Model(seed, n)
        for place, line in enumerate(lines):
            t.same(line, model.step(), "seed", str(seed), "call", str(place))
        seen |= set(model.answers)
    wanted = {(name, number) for name, numbers in MET.items() for number in numbers}
    t.same(wanted - seen, set(), "answers that no history met")

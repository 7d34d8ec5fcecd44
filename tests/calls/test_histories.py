"""Demand 3, executed: random lists of calls over several nets and files, accepted and refused, against the book of
ties."""

import random

from support.harness import test
from support.history import History

# the answers that histories have to meet
MET = {
    "start": (0, 1, 2),
    "add": (0, 1, 2, 30, 4, 5, 32, 20),
    "join": (0, 1, 2, 21, 30, 20),
    "save": (0, 1, 2, 30),
    "read": (0, 1, 2, 6, 7, 20),
    "separate": (0, 1, 2, 30, 4, 5, 32, 23, 31),
    "index": (0, 1, 2, 4, 5, 32),
    "query": (0, 1, 30, 4),
}


@test(at_least=700_000)
def histories(t):
    seen, listed, long, files = set(), 0, 0, 0
    for seed in range(10_000):
        history = History(t, random.Random(seed))
        for _ in range(history.rng.randrange(1, 25)):
            history.step()
        history.claim()
        seen |= set(history.answers)
        lists = [ties for ties in history.book.nets.values() if ties is not None]
        listed += len(lists)
        long += sum(1 for ties in lists if len(ties) > 10)
        files += sum(1 for ties in history.book.files.values() if ties)
    wanted = {(name, number) for name, numbers in MET.items() for number in numbers}
    t.same(wanted - seen, set(), "answers that no history met")
    t.true(listed > 5000 and long > 500 and files > 300, listed, long, files)

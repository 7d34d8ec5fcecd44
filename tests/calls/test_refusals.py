"""Every refusal of every call, alone and in pairs; every length; every damage. After each call every table is
compared."""

import copy
import itertools
import random

from oracle import calls
from oracle.forest import ABSENT
from support import inputs
from support.faults import faults
from support.harness import test
from support.library import CALLS

# the refusals that the documents give to each call; 20 of a report, of a separator and of an index takes 16,000,001
# edges and is in test_limits
NUMBERS = {
    "relabel": {1, 2, 3, 4, 5, 32},
    "start": {1, 2},
    "add": {1, 2, 30, 4, 5, 32, 20},
    "join": {1, 2, 21, 30, 20},
    "save": {1, 2, 30},
    "read": {1, 2, 6, 7, 20},
    "divide": {1, 2, 8, 30, 22},
    "report": {1, 2, 8, 30, 4, 5, 32, 22, 23},
    "separate": {1, 2, 30, 4, 5, 32, 23, 31},
    "index": {1, 2, 4, 5, 32},
    "query": {1, 2, 30, 4},
}

# the place of each in the order; those of an edge share one
PLACE = {number: place for place, number in enumerate(calls.ORDER)}
PLACE |= {number: PLACE[4] for number in (5, 32)}


@test(at_least=4_000)
def accepted_inputs(t):
    """Each call accepts what it is to accept, so that a refusal below is that of the fault."""
    for name, call in CALLS.items():
        for seed in range(300):
            rng = random.Random(seed)
            number, _ = call.run(t, inputs.accepted(rng, name, rng.randrange(4, 9)), seed)
            t.same(number, 0, name, seed)


@test(at_least=400)
def refusals_alone(t):
    for name, call in CALLS.items():
        t.same({number for number, _, _ in faults(name)}, NUMBERS[name], name)
        for seed, (number, what, change) in enumerate(faults(name)):
            given = inputs.accepted(random.Random(seed), name, 6)
            change(given)
            t.same(call.run(t, given, what)[0], number, name, what, seed)


@test(at_least=15_000)
def refusals_in_pairs(t):
    """Two faults in one input: the one that is decided first is the answer. It is put in last, so that it stays a
    fault; two with one place in the order may undo each other, and the oracle alone decides."""
    for name, call in CALLS.items():
        latest_first = sorted(faults(name), key=lambda fault: -PLACE[fault[0]])
        for seed, (later, earlier) in enumerate(itertools.combinations(latest_first, 2)):
            given = inputs.accepted(random.Random(seed), name, 6)
            try:
                later[2](given)
                earlier[2](given)
            except (IndexError, ZeroDivisionError):
                continue
            number, _ = call.run(t, given, later[1], earlier[1])
            if PLACE[earlier[0]] < PLACE[later[0]]:
                t.same(number, earlier[0], name, later[1], earlier[1], seed)


@test(at_least=10_000)
def lengths(t):
    """Each table at each small length, and all tables at random lengths around the right ones."""
    for name, call in CALLS.items():
        tables = call.named("read", "written", "work")
        for seed, (table, length) in enumerate(itertools.product(tables, range(20))):
            given = inputs.accepted(random.Random(seed), name, 4)
            given[table] = (given[table] + [0] * 20)[:length]
            call.run(t, given, table, length)
        for seed in range(1000):
            rng = random.Random(seed)
            given = inputs.accepted(rng, name, rng.randrange(1, 4))
            for table in rng.sample(tables, rng.randrange(1, len(tables) + 1)):
                given[table] = (given[table] + [0] * 2)[:max(0, len(given[table]) + rng.randrange(-1, 2))]
            call.run(t, given, seed)


@test(at_least=8_000)
def damaged_nets(t):
    """Every table of parents of up to three vertices over every value near the rule, in each call that works from a
    net."""
    for n in range(1, 4):
        values = list(range(n + 2)) + [ABSENT - 1, ABSENT]
        for parents in itertools.product(values, repeat=n):
            rng = random.Random(repr(parents))
            for name, call in CALLS.items():
                if name in ("relabel", "start", "read"):
                    continue
                for net in ("parents", "other_parents"):
                    if net in call.kinds:
                        given = tiny(rng, name, n)
                        given[net] = list(parents)
                        call.run(t, given)


def tiny(rng, name, n):
    """An input of n vertices without edges."""
    given = {table: [0] * n for table in CALLS[name].kinds} | {cell: [0] for cell in CALLS[name].named("cell")}
    given |= {"edges": [], "edge_blocks": [], "limit": 3, "blocks": n, "bytes": [1] * (8 * n), "one": 0, "other": n - 1}
    given |= {"parents": [ABSENT] * n, "other_parents": [ABSENT] * n}
    return given | {table: [9] * length for table, length in CALLS[name].work_lengths(given).items()}


@test(at_least=550)
def full_totals(t):
    """A total of 96,000,000 rows is no damage in any call that works from a net, and one row more is 30 in each. What
    has no edges to be compared with is then 23."""
    for name, call in CALLS.items():
        number = 23 if "compared_weights" in call.kinds else 0
        for net in ("weights", "other_weights"):
            if net not in call.kinds or name in ("start", "read"):
                continue
            for more, first in itertools.product((0, 1), (0, 1, calls.MAX_TOTAL // 2, calls.MAX_TOTAL)):
                given = tiny(random.Random(first), name, 2) | {"limit": calls.MAX_LIMIT}
                given[net] = [first, calls.MAX_TOTAL - first + more]
                t.same(call.run(t, given, net, first)[0], 30 if more else number, name, net, first)


@test(at_least=30_000)
def random_tables(t):
    """Tables of arbitrary numbers of arbitrary small lengths."""
    for seed in range(3000):
        rng = random.Random(seed)
        for call in CALLS.values():
            given = {}
            for table, kind in call.kinds.items():
                values = (0, 1, 2, 3, 4, ABSENT) if table != "bytes" else (0, 1, 2, 255)
                length = 1 if kind == "cell" else rng.choice((0, 2, 2, 2, 3, 3, 3, 4, 6))
                given[table] = rng.choice(values) if kind == "number" else rng.choices(values, k=length)
            call.run(t, copy.deepcopy(given), seed)

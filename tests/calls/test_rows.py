"""Rows instead of ties (document 02, Paper 6): rows at their limits in every call that is lent a list, the first faulty
edge of a list, and what is counted in rows and what in edges."""

import itertools
import random

from oracle import calls
from oracle.forest import ABSENT, net_of, pairs_of
from support import inputs, nets
from support.accepted import added, reported, start
from support.changes import BAD_ROWS
from support.harness import test
from support.library import CALLS

# every list that a call is lent, by the call and the table
TABLES = ("edges", "old_edges", "added")
LISTS = [(name, table) for name, call in CALLS.items() for table in TABLES if table in call.kinds]


def with_list(rng, name, table, edges):
    """An input of six vertices that the call accepts, whose list begins with these edges. Where it is compared with a
    net, it is these edges, and the net that of the same with rows that they may have."""
    if name not in ("report", "separate"):
        given = inputs.accepted(rng, name, 6)
        return given | {table: nets.flat(edges) + given[table][3 * len(edges):]}
    own = [(a, b, min(max(rows, 1), calls.MAX_ROWS)) for a, b, rows in edges]
    if name == "report":
        given = inputs.reporting(rng, inputs.net_of(6, own), own, 3 * calls.MAX_ROWS, 2)
    else:
        given = inputs.separating(rng, 6, own, 0, 1)
    return given | {table: nets.flat(edges)}


# two trees, so that neither of the ranks 0 and 1 is above the other
PAIRS = [(0, 2), (1, 3), (4, 2), (5, 3)]


@test(at_least=2_500)
def at_their_limits(t):
    """1 to 6 rows are accepted at every place of every list that is lent, and any other number is 32."""
    t.same(len(LISTS), 6, LISTS)
    for (name, table), place in itertools.product(LISTS, range(len(PAIRS))):
        for rows in (*range(1, calls.MAX_ROWS + 1), *BAD_ROWS):
            edges = nets.with_rows(random.Random(place), PAIRS)
            edges[place] = (*PAIRS[place], rows)
            given = with_list(random.Random(rows), name, table, edges)
            number, _ = CALLS[name].run(t, given, place, rows)
            t.same(number, 32 if rows in BAD_ROWS else 0, name, table, place, rows)


# an edge with each set of faults, on six vertices, and which of them decides
FAULTY = {
    "none": ((4, 3, 6), 0),
    "32": ((4, 3, 0), 32),
    "5": ((4, 4, 1), 5),
    "4": ((3, 6, 1), 4),
    "5 and 32": ((2, 2, 7), 5),
    "4 and 32": ((6, 3, ABSENT), 4),
    "4 and 5": ((6, 6, 1), 4),
    "all": ((ABSENT, ABSENT, 0), 4),
}


@test(at_least=30_000)
def first_faulty_edge(t):
    """Every set of faults at each of the first three edges, in every list that is lent: the first edge with any fault
    decides, and at that edge 4 before 5 before 32."""
    for (name, table), chosen in itertools.product(LISTS, itertools.product(FAULTY, repeat=3)):
        number = next((FAULTY[which][1] for which in chosen if which != "none"), None)
        given = inputs.accepted(random.Random(repr(chosen)), name, 6)
        given[table] = nets.flat(FAULTY[which][0] for which in chosen) + given[table][9:]
        answer, _ = CALLS[name].run(t, given, table, chosen)
        if number is not None:
            t.same(answer, number, name, table, chosen)


@test(at_least=70)
def old_before_added(t):
    """Of an index, the old list is looked through before the added one, however early the fault of that stands."""
    for one, other in itertools.permutations(("32", "5", "4"), 2):
        (edge, number), (later, its) = FAULTY[one], FAULTY[other]
        for old, more, first in (([0, 1, 2, *edge], [*later, 0, 1, 2], number), ([0, 1, 2], [*later, *edge], its)):
            given = inputs.indexing(random.Random(1), 6, old, more)
            t.same(CALLS["index"].run(t, given, one, other)[0], first, one, other)


# what a report tells in rows, and what in edges, vertices and blocks
IN_ROWS = ("carried", "block_loads", "compared_weights")
IN_EDGES = ("top", "block", "edge_blocks", "reach", "block_count", "edges_taken", "compared_parents", "bound", "volume")


@test(at_least=45_000)
def counted_in_rows(t):
    """Of edges with so many times the rows, and a limit so many times as large, what is carried and shared is so many
    times as much, and all else is the same."""
    for seed in range(800):
        rng = random.Random(seed)
        n, times = rng.randrange(1, 20), rng.choice((2, 3, 6))
        edges, most = nets.ties(rng, n, rng.choice(nets.SHAPES)), calls.MAX_ROWS // times
        once = [(a, b, 1 + rows % most) for a, b, rows in edges]
        often = [(a, b, times * rows) for a, b, rows in once]
        limit, k = max(1, *net_of(n, once)[1]) + rng.randrange(3), rng.randrange(1, 5)
        one = reported(t, rng, n, once, limit, k, seed)
        other = reported(t, rng, n, often, times * limit, k, seed)
        for name in IN_EDGES:
            t.same(other[name], one[name], name, seed)
        for name in IN_ROWS:
            t.same(other[name], [times * rows for rows in one[name]], name, seed)
        for its, after in ((once, one), (often, other)):
            share = after["quotient"][0] * k + after["remainder"][0]
            t.same((share, sum(after["block_loads"])), (calls.rows_of(its),) * 2, seed)


@test(at_least=40_000)
def without_rows(t):
    """What rows have no part in: where the forest moves, reaches and the index are those of the same edges with other
    rows."""
    for seed in range(800):
        rng = random.Random(seed)
        n = rng.randrange(1, 20)
        edges = nets.ties(rng, n, rng.choice(nets.SHAPES))
        others = nets.with_rows(rng, pairs_of(edges))
        empty = start(t, n, seed)
        (one, at), (other, other_at) = (added(t, empty, nets.flat(its), seed) for its in (edges, others))
        t.same((other[0], other_at), (one[0], at), "the forest", seed)
        t.same(sum(one[1]), calls.rows_of(edges), "all rows", seed)
        reaches = [reported(t, rng, n, its, calls.MAX_LIMIT, 2, seed)["reach"] for its in (edges, others)]
        t.same(reaches[0], reaches[1], "reaches", seed)
        runs = [CALLS["index"].run(t, inputs.indexing(rng, n, nets.flat(its), []), seed)[1] for its in (edges, others)]
        t.same(runs[0]["neighbours"], runs[1]["neighbours"], "runs", seed)


def compared(t, rng, n, net, edges, *context):
    """What a report and a separator answer to a list that is said to be the net's own; the limit holds all."""
    given = inputs.reporting(rng, net, edges, calls.MAX_LIMIT, 2)
    separating = inputs.separating(rng, n, edges, 0, n - 1) | net
    return CALLS["report"].run(t, given, *context)[0], CALLS["separate"].run(t, separating, *context)[0]


@test(at_least=30_000)
def rows_of_its_own(t):
    """A list with the net's edges is its own in any order in which each edge keeps its rows, and where an edge of
    several rows is taken as several edges. Where two edges with unlike lower ends exchange unlike rows, it is not."""
    met = {True: 0, False: 0}
    for seed in range(600):
        rng = random.Random(seed)
        n = rng.randrange(2, 20)
        edges = nets.ties(rng, n, rng.choice(nets.SHAPES[:-1]))
        if len(edges) < 2:
            continue
        net = inputs.net_of(n, edges)
        own, _ = compared(t, rng, n, net, nets.another_order(rng, edges), seed)
        t.same(own, 0, "in another order", seed)
        parts = [(a, b, 1) for a, b, rows in edges for _ in range(rows)]
        own, _ = compared(t, rng, n, net, rng.sample(parts, len(parts)), seed)
        t.same(own, 0, "row by row", seed)
        one, other = rng.sample(range(len(edges)), 2)
        wandered = list(edges)
        (a, b, rows), (c, d, its) = edges[one], edges[other]
        wandered[one], wandered[other] = (a, b, its), (c, d, rows)
        same = rows == its or min(a, b) == min(c, d)
        answers = compared(t, rng, n, net, wandered, seed)
        t.same((answers[0], answers[1] == 23), (0, False) if same else (23, True), "rows that wander", seed)
        met[same] += 1
    t.true(min(met.values()) > 100, met)


@test(at_least=700)
def rows_that_overflow(t):
    """Lists whose rows sum to about 2 to the power of 32, or twice that: 32, also on a net that is empty or full."""
    half = 2**31
    for rows in ([ABSENT, 1], [half, half], [half, half - 1], [ABSENT, 1, ABSENT, 1], [2, ABSENT], [6, half - 6, half]):
        edges = nets.flat((place, 5, its) for place, its in enumerate(rows))
        for weight, (name, table) in itertools.product((0, calls.MAX_TOTAL), LISTS):
            given = inputs.accepted(random.Random(weight), name, 6)
            given[table] = edges + given[table][len(edges):]
            if name == "add":
                given |= {"parents": [ABSENT] * 6, "weights": [weight] + [0] * 5}
            t.same(CALLS[name].run(t, given, rows, weight)[0], 32, name, table, rows, weight)

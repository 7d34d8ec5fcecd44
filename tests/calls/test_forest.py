"""Growing and joining against the elimination game: every small net, and many shapes."""

import itertools
import random

from oracle.forest import ABSENT, ties_of
from support import nets
from support.accepted import added, joined, lend, start
from support.harness import test
from support.library import CALLS, inverse_of


def add(*given):
    return added(*given)[0]


def join(*given):
    return joined(*given)[0]


@test(at_least=8_000)
def every_graph(t):
    """Every graph of up to five vertices, its edges in a random order."""
    for n in range(1, 6):
        empty = start(t, n, n)
        for chosen in range(2 ** (n * (n - 1) // 2)):
            rng = random.Random(chosen)
            pairs = [pair for place, pair in enumerate(itertools.combinations(range(n), 2)) if chosen >> place & 1]
            add(t, empty, nets.flat(nets.another_order(rng, nets.with_rows(rng, pairs))), n, chosen)


def sound_tables(n):
    return itertools.product(*([ABSENT] + list(range(x + 1, n)) for x in range(n)))


@test(at_least=100_000)
def every_pair_of_forests(t):
    """Every two forests of up to five vertices joined, whether they come from edges or not, and every edge added to
    each."""
    for n in range(1, 6):
        tables = [list(parents) for parents in sound_tables(n)]
        for place, one in enumerate(tables):
            weights = [(place + x) % 3 for x in range(n)]
            for number, (a, b) in enumerate(itertools.permutations(range(n), 2)):
                add(t, (one, weights), [a, b, 1 + (place + number) % 6], n, place)
            for other in tables:
                join(t, (one, weights), (other, weights[::-1]), n, place)


@test(at_least=300_000)
def shapes(t):
    """Nets of every shape: added as a whole, edge list by edge list, and joined from two halves; each way ends
    alike."""
    for seed in range(4800):
        rng = random.Random(seed)
        shape = nets.SHAPES[seed % len(nets.SHAPES)]
        n = rng.randrange(1, 30)
        grow_three_ways(t, rng, n, nets.ties(rng, n, shape), f"seed {seed} shape {shape.__name__}")


@test(at_least=2_500)
def larger_shapes(t):
    for seed in range(72):
        rng = random.Random(seed)
        shape = nets.SHAPES[seed % len(nets.SHAPES)]
        n = rng.randrange(60, 80 if shape is nets.complete else 300)
        grow_three_ways(t, rng, n, nets.ties(rng, n, shape), f"seed {seed} shape {shape.__name__}")


def grow_three_ways(t, rng, n, ties, context):
    empty = start(t, n, context)
    whole = add(t, empty, nets.flat(ties), context)
    pieces = empty
    at = 0
    while at < len(ties):
        size = rng.randrange(1, len(ties) - at + 1)
        pieces = add(t, pieces, nets.flat(ties[at:at + size]), context)
        at += size
    t.same(pieces, whole, context)
    half = rng.randrange(len(ties) + 1)
    first, second = (add(t, empty, nets.flat(part), context) for part in (ties[:half], ties[half:]))
    t.same(join(t, first, second, context), whole, context)
    t.same(join(t, second, first, context), whole, context)
    add(t, nets.sound_net(rng, n), nets.flat(ties), context)


@test(at_least=85_000)
def rising_lists(t):
    """Lists by rising upper end: the first of a net, onto the net of it, with an edge at the end that falls, and with a
    fault there."""
    for seed in range(1200):
        rng = random.Random(seed)
        shape = nets.SHAPES[seed % len(nets.SHAPES)]
        n = rng.randrange(2, 40)
        ties = sorted(nets.ties(rng, n, shape), key=max)
        empty = start(t, n, seed)
        whole = add(t, empty, nets.flat(ties), seed)
        add(t, whole, nets.flat(ties), seed)
        add(t, empty, nets.flat(ties + ties[:1]), seed)
        for number, fault in ((4, (0, n, 0)), (4, (ABSENT, ABSENT, 1)), (5, (n - 1, n - 1, 0)), (32, (0, n - 1, 0)),
                              (32, (n - 1, 0, 7))):
            t.same(lend(t, "add", empty, {"edges": nets.flat(ties + [fault])}, seed)[0], number, seed)


@test(at_least=10_000)
def relabelled(t):
    for seed in range(2000):
        rng = random.Random(seed)
        n = rng.randrange(1, 40)
        order, edges = rng.sample(range(n), n), nets.flat(nets.ties(rng, n, rng.choice(nets.SHAPES)))
        given = {"order": order, "edges": edges, "out": nets.garbage(rng, len(edges)), "inverse": nets.garbage(rng, n)}
        number, after = CALLS["relabel"].run(t, given, seed)
        t.same(number, 0, seed)
        marks = [(order[a], order[b], rows) for a, b, rows in ties_of(after["out"])]
        t.same(marks, ties_of(edges), seed)
        t.same(after["inverse"], inverse_of(given)["inverse"], seed)

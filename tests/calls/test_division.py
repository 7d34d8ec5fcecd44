"""Link files, dividing and reporting against the oracle, on nets of every shape."""

import random

from oracle import calls
from oracle.forest import ABSENT
from support import inputs, nets
from support.harness import test
from support.library import CALLS

BLOCKS = (1, 2, 3, 7, 1000)


def a_net(seed, most):
    """A net by name, its edges, and what is told of it if a test fails."""
    rng = random.Random(seed)
    shape = nets.SHAPES[seed % len(nets.SHAPES)]
    n = rng.randrange(1, most)
    ties = nets.ties(rng, n, shape)
    return rng, inputs.net_of(n, ties), ties, f"seed {seed} shape {shape.__name__}"


def sound_nets():
    """Nets of edges, and among them sound tables that no edges made."""
    for seed in range(2400):
        rng, net, _, context = a_net(seed, 40)
        if seed % 5 == 0:
            net = dict(zip(net, nets.sound_net(rng, len(net["parents"]))))
        yield rng, net, context


@test(at_least=20_000)
def saved_and_read(t):
    """A net is saved and read back into other tables, and its file, read, is saved as it was."""
    for rng, net, context in sound_nets():
        n = len(net["parents"])
        number, saved = CALLS["save"].run(t, inputs.to_write(rng, "save", 8 * n) | net, context)
        t.same(number, 0, context)
        given = inputs.to_write(rng, "read", n) | {"bytes": saved["bytes"]}
        number, after = CALLS["read"].run(t, given, context)
        t.same((number, {name: after[name] for name in net}), (0, net), context)


def limits_of(rng, net):
    """Limits that are refused, tight, loose and in between."""
    most, total = max(net["weights"]), sum(net["weights"])
    return [max(1, most - 1), max(1, most), most + 1, rng.randrange(max(1, most), total + 2), total + 1]


@test(at_least=50_000)
def divided(t):
    for rng, net, context in sound_nets():
        for limit in limits_of(rng, net):
            CALLS["divide"].run(t, inputs.dividing(rng, "divide", net, limit, rng.choice(BLOCKS)), context)


# next to powers of two, up to the largest total
HEAVY = sorted({2**power + by for power in range(5, 27) for by in (-1, 0, 1)})


def heavy_star(rng):
    """A vertex above more children than are looked through as a whole, some of them heavy; the total is none too
    many."""
    children = rng.randrange(33, 60)
    weights, left = [], calls.MAX_TOTAL
    for _ in range(children):
        fitting = [weight for weight in HEAVY if weight <= left]
        weights.append(rng.choice(fitting[-rng.randrange(1, len(fitting) + 1):] + [0, 1]) if fitting else 0)
        left -= weights[-1]
    rng.shuffle(weights)
    return {"parents": [children] * children + [ABSENT], "weights": weights + [rng.choice((0, left // 2, left))]}


@test(at_least=10_000)
def heavy_children(t):
    """Children of which many are heavy, and carry equal or nearly equal weights, up to the largest total and limit."""
    heaviest = 0
    for seed in range(400):
        rng = random.Random(seed)
        net = heavy_star(rng)
        for limit in [min(limit, calls.MAX_LIMIT) for limit in limits_of(rng, net)]:
            CALLS["divide"].run(t, inputs.dividing(rng, "divide", net, limit, rng.choice(BLOCKS)), seed)
        heaviest = max(heaviest, *net["weights"][:-1])
    t.true(heaviest > 2**26, heaviest)


@test(at_least=50_000)
def reported(t):
    """With the net's own edges, in the order that they came and in another, and with one edge moved or given other
    rows."""
    for seed in range(1200):
        rng, net, ties, context = a_net(seed, 30)
        for limit in limits_of(rng, net):
            edges = list(ties)
            if rng.random() < 0.3:
                rng.shuffle(edges)
            if edges and rng.random() < 0.1:
                a, b, rows = edges[-1]
                edges[-1] = rng.choice(((0, len(net["parents"]) - 1, rows), (a, b, rows % calls.MAX_ROWS + 1)))
            CALLS["report"].run(t, inputs.reporting(rng, net, edges, limit, rng.choice(BLOCKS)), context)

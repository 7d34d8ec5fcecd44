"""Calls that are to be accepted, made on the library and held against the oracle."""

import random

from support import inputs
from support.library import CALLS


def start(t, n, *context):
    """A net with no edges."""
    _, after = CALLS["start"].run(t, inputs.start(random.Random(n), n), *context)
    return after["parents"], after["weights"]


def lend(t, name, net, others, *context):
    """Adds or joins, which may be refused; answers the number and the tables afterwards."""
    given = {"parents": net[0], "weights": net[1], "moved": [77]} | others
    rng = random.Random(sum(map(len, others.values())))
    return CALLS[name].run(t, inputs.with_work(rng, name, given), *context)


def grow(t, name, net, others, *context):
    """Adds or joins; answers the net afterwards, and where its forest moved."""
    number, after = lend(t, name, net, others, *context)
    t.same(number, 0, *context)
    return (after["parents"], after["weights"]), after["moved"][0]


def added(t, net, edges, *context):
    return grow(t, "add", net, {"edges": edges}, *context)


def joined(t, net, other, *context):
    return grow(t, "join", net, {"other_parents": other[0], "other_weights": other[1]}, *context)


def reported(t, rng, n, edges, limit, k, *context):
    """Reports on the net of edges; answers the tables afterwards."""
    given = inputs.reporting(rng, inputs.net_of(n, edges), edges, limit, k)
    number, after = CALLS["report"].run(t, given, *context)
    t.same(number, 0, *context)
    return after


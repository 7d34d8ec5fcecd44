"""Chains of edges, followed without a forest; and shapes of nets whose separators differ."""

import collections

from support import nets


def comb(rng, n):
    """A path, and below each vertex of it one that is tied to it alone."""
    teeth = n // 2
    return [(tooth, teeth + tooth) for tooth in range(teeth)] + [(x, x + 1) for x in range(teeth, n - 1)]


def two_paths(rng, n):
    """To one top."""
    return [(x, x + 2) for x in range(n - 2)] + [(n - 2, n - 1)] * (n > 1)


def two_trees(rng, n):
    """Of the even ranks and of the odd ones."""
    return [(x, rng.randrange(x % 2, x, 2)) for x in range(2, n)]


SHAPES = nets.SHAPES + [comb, two_paths, two_trees]


def neighbours_of(edges):
    beside = collections.defaultdict(set)
    for a, b, _ in edges:
        beside[a].add(b)
        beside[b].add(a)
    return beside


def reached(beside, start, closed=()):
    """The vertices that chains of edges lead to, past none that is closed off."""
    met, left, closed = {start}, [start], set(closed)
    while left:
        new = beside[left.pop()] - met - closed
        met |= new
        left += new
    return met


def above_by_chains(n, beside, x):
    """Without a forest: above a vertex are those that a chain leads to past lower ones than themselves."""
    return {y for y in range(x + 1, n) if y in reached(beside, x, range(y + 1, n))}


def parted(t, beside, one, other, separator, *context):
    """Every chain from one to the other passes a vertex of the separator; it is empty where there is no chain, and
    there alone."""
    t.true(other not in reached(beside, one, separator), "closed off", one, other, separator, *context)
    t.same(bool(separator), other in reached(beside, one), "no chain", one, other, *context)
    t.true(one not in separator and other not in separator, one, other, separator, *context)

"""Counting blocks on busy marks (document 02, Paper 3): how many of its edges a vertex takes, in every order of the
list, and on vertices with a million edges."""

import collections
import itertools
import random
from array import array

from oracle import calls
from oracle.forest import loads_of, pairs_of
from support import nets
from support.accepted import reported
from support.arrays import a_net, report
from support.harness import test

# what the order of the list may change
ORDERED = {"edges", "edge_blocks", "edges_taken"}


def walked(t, edges, k, after, *context):
    """Walks the edges of each vertex: those that it takes meet as many blocks as all do, and where these are all k, one
    fewer does not. Answers for each how its walk ends: never with all k, or with an edge that leads up or down, its
    last or an earlier one."""
    for x, (taken, count) in enumerate(zip(after["edges_taken"], after["block_count"])):
        its = [(edge, block) for edge, block in zip(pairs_of(edges), after["edge_blocks"]) if x in edge]
        blocks = [block for _, block in its]
        t.same((len(set(blocks[:taken])), len(set(blocks))), (count, count), x, *context)
        if count < k:
            t.same(taken, len(its), x, *context)
            yield "never"
        else:
            t.same(len(set(blocks[:taken - 1])), k - 1, x, *context)
            yield "up" if min(its[taken - 1][0]) == x else "down", "last" if taken == len(its) else "earlier"


def between(rng, k):
    """A vertex above about as many leaves as there are blocks, and below one or two others: how many vertices, and the
    edges, which have as many rows each, so that the leaves go round the blocks."""
    hub, above, rows = max(1, k + rng.choice((-1, -1, 0, 3))), rng.randrange(1, 3), rng.randint(1, calls.MAX_ROWS)
    pairs = [(leaf, hub) for leaf in range(hub)] + [(hub, hub + 1 + place) for place in range(above)]
    return hub + above + 1, [(a, b, rows) for a, b in pairs]


@test(at_least=150_000)
def many_nets(t):
    """Small nets with repeats, 1 to 6 blocks and 1,000, most with the tightest limit, so that groups are many. In
    another order of the list, and of the ends of its edges, all but the edges taken is the same."""
    met, differ = collections.Counter(), 0
    for seed in range(2100):
        rng, k = random.Random(seed), (1, 2, 3, 4, 5, 6, 1000)[seed % 7]
        n = rng.randrange(1, 25)
        n, edges = between(rng, min(k, 6)) if seed % 2 else (n, nets.ties(rng, n, rng.choice(nets.SHAPES)))
        edges += rng.choices(edges, k=rng.randrange(len(edges))) if edges and rng.random() < 0.5 else []
        shuffled = nets.another_order(rng, edges)
        limit = max(1, *loads_of(n, edges)) + rng.choice((0, 0, 0, 1, 7))
        one, other = (reported(t, rng, n, its, limit, k, seed) for its in (edges, shuffled))
        for name in one.keys() - ORDERED:
            t.same(other[name], one[name], name, seed)
        for its, after in ((edges, one), (shuffled, other)):
            met.update((k, end) for end in walked(t, its, k, after, seed))
        differ += one["edges_taken"] != other["edges_taken"]
        if k == 1:
            t.same(one["edges_taken"], [int(any(x in edge for edge in pairs_of(edges))) for x in range(n)], seed)
    each = ("never", *itertools.product(("up", "down"), ("last", "earlier")))
    ends = set(itertools.product(range(2, 7), each))
    t.true(all(met[end] >= 5 for end in ends), {end: met[end] for end in ends})
    t.true(met[1000, "never"] > 1000 and differ > 300, met, differ)


# the rows of each edge of the nets below, so that no weight is a number of edges
ROWS = 5


def of_rows(pairs):
    return [(a, b, ROWS) for a, b in pairs]


def grown(t, n, edges):
    """The net of edges, and their list, each third edge the other way round."""
    turned = [edge if place % 3 else nets.turned(edge) for place, edge in enumerate(edges)]
    flat = array("I", nets.flat(turned))
    net = a_net(n, flat)
    t.same(sum(net[1]), ROWS * len(edges))
    return net, flat


@test(at_least=9)
def thousand_blocks(t):
    """Leaves that go round 1,000 blocks: their top meets all with its last edge, with an earlier one or, one leaf
    short, never."""
    for leaves, taken in ((999, 999), (1000, 1000), (1200, 1000)):
        net, edges = grown(t, leaves + 1, of_rows((leaf, leaves) for leaf in range(leaves)))
        number, after = report(net, edges, ROWS, 1000)
        t.same((number, list(after["edge_blocks"])), (0, [leaf % 1000 for leaf in range(leaves)]), leaves)
        t.same(list(after["edges_taken"]), [1] * leaves + [taken], leaves)


BLOCKS = 16
EDGES, FEW = 1_000_000, 100
LEAVES = EDGES // 2


def busy(t, n, hub, pairs, limit):
    """A vertex with a million edges, which are all edges of the net: the hundredth completes the blocks. The limit is a
    number of edges."""
    edges = of_rows(pairs)
    net, flat = grown(t, n, edges)
    number, after = report(net, flat, ROWS * limit, BLOCKS)
    blocks = after["edge_blocks"]
    t.same((number, len(pairs), sum(hub in pair for pair in pairs)), (0, EDGES, EDGES))
    t.same([len(set(blocks[:count])) for count in (FEW - 1, FEW, EDGES)], [BLOCKS - 1, BLOCKS, BLOCKS])
    t.same((after["block_count"][hub], after["edges_taken"][hub]), (BLOCKS, FEW))
    t.true(after["block_count"].tolist() == calls.block_counts_of(n, edges, blocks), "block counts")
    t.true(after["edges_taken"].tolist() == calls.ties_taken_of(n, edges, blocks, BLOCKS), "edges taken")


def leaves_of(*blocks):
    """The leaves that are in some blocks: being of one weight and cut off, all go round the blocks by rising rank."""
    return [leaf for leaf in range(LEAVES) if leaf % BLOCKS in blocks]


def in_front(first):
    """All leaves, these before the others."""
    return first + sorted(set(range(LEAVES)) - set(first))


@test(at_least=6)
def busy_above(t):
    """The upper end of all its edges, two to a leaf; the limit holds one leaf."""
    leaves = in_front(leaves_of(*range(BLOCKS - 1))[:FEW - 1] + [BLOCKS - 1])
    busy(t, LEAVES + 1, LEAVES, [(leaf, LEAVES) for leaf in leaves + leaves[::-1]], 2)


def busy_between(t, leaves, upward, edges_of):
    """A vertex above its leaves and below others, to each of which it has many edges: as many edges lead up as down,
    and weigh so much that all leaves are cut off. Its block is 0, where it comes after all leaves."""
    above = 1000
    hub, n = LEAVES, LEAVES + 1 + above
    down = [(leaf, hub) for leaf in leaves]
    up = [(hub, hub + 1 + place % above) for place in range(EDGES - LEAVES)]
    edges = edges_of(down, up)
    t.same(edges[FEW - 1] in up[:above], upward)
    busy(t, n, hub, edges, len(up))


def by_turns(one, other):
    return [edge for pair in zip(one, other) for edge in pair]


@test(at_least=7)
def busy_between_ending_upward(t):
    """The last block to be met is its own, by the first edge that leads up."""
    leaves = in_front(leaves_of(*range(1, BLOCKS))[:FEW - 1])
    few = FEW - 1
    busy_between(t, leaves, True, lambda down, up: down[:few] + by_turns(up, down[few:]) + up[len(down) - few:])


@test(at_least=7)
def busy_between_ending_downward(t):
    """Edges lead up and down by turns from the first on, and the last block to be met is a leaf's."""
    leaves = in_front(leaves_of(*range(1, BLOCKS - 1))[:FEW // 2 - 1] + [BLOCKS - 1])
    busy_between(t, leaves, False, lambda down, up: by_turns(up, down))

"""Runs of neighbours (document 02, Paper 1): indexes of many nets, lists in two parts, the laws, every rank queried,
damaged starts."""

import itertools
import random
from array import array

from oracle.forest import ABSENT, tie_count, ties_of
from oracle.neighbours import index_of, run_of
from support import inputs, nets
from support.arrays import made_index
from support.harness import test
from support.library import CALLS

INDEX, QUERY = CALLS["index"], CALLS["query"]


def made(t, rng, n, old_edges, added=()):
    """The index that the library makes of two lists, in tables that hold anything before."""
    number, after = INDEX.run(t, inputs.indexing(rng, n, old_edges, list(added)))
    t.same(number, 0, n, old_edges, added)
    return after["starts"], after["neighbours"]


def asked(t, rng, starts, neighbours, rank):
    """A query: the number, and the part of the neighbours that is handed back."""
    number, after = QUERY.run(t, inputs.querying(rng, starts, neighbours, rank))
    (first,), (count,) = after["first"], after["count"]
    return number, neighbours[first:first + count]


def lists(rng, n):
    """A list of edges of some shape: as it comes, or sorted up or down."""
    edges = nets.ties(rng, n, rng.choice(nets.SHAPES))
    return rng.choice((edges, sorted(edges), sorted(edges)[::-1], edges * 2))


def stands_twice(t, n, edges, starts, neighbours, *context):
    """Every edge stands in exactly two runs, as often as it stands in the list, and nothing else does: the list is read
    once, and each edge takes the next entry of the run of each end. In the end all runs are used up, so each entry
    belongs to one edge."""
    next_of = list(starts[:n])
    for a, b, _ in edges:
        for end, other in ((a, b), (b, a)):
            t.true(next_of[end] < starts[end + 1] and neighbours[next_of[end]] == other, end, other, *context)
            next_of[end] += 1
    t.same(next_of, list(starts[1:]), *context)


@test(at_least=200_000)
def many_nets(t):
    """Small nets of all shapes, repeats and nets without edges among them; every rank queried, and those that are
    none."""
    for seed in range(1500):
        rng = random.Random(seed)
        n = rng.randrange(1, 30)
        edges = lists(rng, n)
        index = made(t, rng, n, nets.flat(edges))
        stands_twice(t, n, edges, *index, seed)
        for rank in range(n):
            t.same(asked(t, rng, *index, rank), (0, run_of(rank, edges)), seed, rank)
        for rank in (n, n + 1, ABSENT):
            t.same(asked(t, rng, *index, rank), (4, []), seed, rank)


@test(at_least=8_000)
def every_small_list(t):
    """Every list of up to three edges on up to four vertices, each edge either way round."""
    for n in range(1, 5):
        edges = list(itertools.permutations(range(n), 2))
        for count in range(4):
            for chosen in itertools.product(edges, repeat=count):
                rng = random.Random(n)
                made(t, rng, n, nets.flat(nets.with_rows(rng, chosen)))


@test(at_least=3_000)
def added_lists(t):
    """A list cut into an old one and an added one at every place gives the index of the whole, whatever the tables
    held."""
    for seed in range(60):
        rng = random.Random(seed)
        n = rng.randrange(2, 12)
        flat = nets.flat(lists(rng, n))
        whole = made(t, rng, n, flat)
        for place in range(0, len(flat) + 1, 3):
            t.same(made(t, rng, n, flat[:place], flat[place:]), whole, seed, place)


@test(at_least=40)
def built_again(t):
    """A list that grows: the tables of the last index, lent again with room for more, end as those of all edges so
    far."""
    rng = random.Random(1)
    n, flat, starts, neighbours = 30, [], [5] * 31, []
    for _ in range(20):
        added = nets.flat(nets.ties(rng, n, nets.sparse))
        room = neighbours + [9] * (2 * tie_count(added))
        given = {"old_edges": flat, "added": added, "starts": starts, "neighbours": room}
        _, after = INDEX.run(t, given)
        flat, starts, neighbours = flat + added, after["starts"], after["neighbours"]
        t.same((starts, neighbours), index_of(n, ties_of(flat)))
    t.true(tie_count(flat) > 150, len(flat))


@test(at_least=200_000)
def large_nets(t):
    """Some thousand vertices, where the list is held against the runs edge by edge, and lists that rise, fall or are
    shuffled."""
    for seed, shape in enumerate((nets.grid, nets.tall, nets.star, nets.power_law, nets.dense, nets.tree)):
        rng = random.Random(seed)
        n = rng.randrange(4_000, 8_000)
        edges = nets.with_rows(rng, shape(rng, n))
        for ordered in (sorted(edges), sorted(edges)[::-1], rng.sample(edges, len(edges))):
            flat = nets.flat(ordered)
            place = 3 * rng.randrange(len(edges))
            number, *index = made_index(n, array("I", flat[:place]), array("I", flat[place:]))
            t.same(number, 0, shape.__name__)
            stands_twice(t, n, ordered, *index, shape.__name__)


@test(at_least=39_000)
def damaged_starts(t):
    """Each start of an index changed to each number that is near or far: refused, or the runs that the starts then
    have."""
    met = set()
    for seed in range(25):
        rng = random.Random(seed)
        n = rng.randrange(1, 9)
        starts, neighbours = index_of(n, nets.ties(rng, n, rng.choice((nets.dense, nets.path, nets.star, nets.sparse))))
        numbers = set(range(len(neighbours) + 2)) | {ABSENT - 1, ABSENT, 2**31}
        for place, start in itertools.product(range(n + 1), numbers):
            changed = starts[:place] + [start] + starts[place + 1:]
            for rank in (0, n - 1, n):
                number, run = asked(t, rng, changed, neighbours, rank)
                t.same(run, [] if number else neighbours[changed[rank]:changed[rank + 1]], changed, rank)
                met.add((number, changed == starts))
        for length in {0, len(neighbours) - 1, len(neighbours) + 1, 2 * len(neighbours)} - {-1, len(neighbours)}:
            t.same(asked(t, rng, starts, (neighbours * 2 + [3])[:length], n), (30, []), seed, length)
    t.same(met, {(0, True), (4, True), (0, False), (4, False), (30, False)})


@test(at_least=70_000)
def every_starts(t):
    """Every table of up to four starts over every number near the rule, beside every number of neighbours, for every
    rank."""
    for length in range(5):
        for starts in itertools.product((0, 1, 2, 3, ABSENT), repeat=length):
            rng = random.Random(repr(starts))
            for count, rank in itertools.product(range(4), range(length + 1)):
                asked(t, rng, list(starts), nets.garbage(rng, count), rank)

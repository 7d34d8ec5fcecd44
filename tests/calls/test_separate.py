"""What lies between two marks (document 02, Paper 5): on every small graph and on many shapes the separator is that of
the oracle, and that of the chains of edges themselves, without a forest; closed off, it parts the two vertices."""

import collections
import itertools
import random
from array import array

from oracle import calls
from oracle.between import marks_above_both, related
from oracle.forest import ABSENT, net_of, ties_of
from support import inputs, nets
from support.arrays import a_net, separate
from support.chains import SHAPES, above_by_chains, comb, neighbours_of, parted, two_paths, two_trees
from support.faults import faults
from support.harness import test
from support.history import Asked, met_in
from support.library import CALLS

SEPARATE = CALLS["separate"]
COMPARED = ("compared_parents", "compared_weights")
TOLD = ("separator", "count", "lowest")
WORK = SEPARATE.named("work")


def entries(tables, names):
    return [tables[name] for name in names]


def asked(t, rng, n, edges, one, other, *context):
    """Two ranks of the net of edges, against the oracle and against chains; answers the number and the separator."""
    beside, given = neighbours_of(edges), inputs.separating(rng, n, edges, one, other)
    number, after = SEPARATE.run(t, given, *context)
    above = [above_by_chains(n, beside, rank) for rank in (one, other)]
    t.same(number, 31 if one == other or one in above[1] or other in above[0] else 0, n, edges, one, other, *context)
    t.same(entries(after, COMPARED), [given["parents"], given["weights"]], *context)
    t.same(entries(after, WORK), [[0] * len(given[table]) for table in WORK], *context)
    if number:
        for table in TOLD:
            t.same(after[table], given[table], "as it was", table, *context)
        return number, []
    (count,), (lowest,) = after["count"], after["lowest"]
    separator, rest = after["separator"][:count], after["separator"][count:]
    t.same(separator, sorted(above[0] & above[1]), n, edges, one, other, *context)
    t.same((lowest, rest), (min(separator, default=ABSENT), given["separator"][count:]), n, edges, one, other, *context)
    parted(t, beside, one, other, separator, n, edges, *context)
    return number, separator


@test(at_least=450_000)
def every_small_graph(t):
    """Every graph of up to five vertices, and every two ranks of it, each way round."""
    met = collections.Counter()
    for n in range(1, 6):
        edges = list(itertools.combinations(range(n), 2))
        for chosen in itertools.product((False, True), repeat=len(edges)):
            rng = random.Random(repr(chosen))
            graph = nets.with_rows(rng, itertools.compress(edges, chosen))
            for one, other in itertools.product(range(n), repeat=2):
                number, separator = asked(t, rng, n, graph, one, other)
                met[number, len(separator)] += 1
    t.same(sorted(met), [(0, 0), (0, 1), (0, 2), (0, 3), (31, 0)], "separators of every length")


@test(at_least=110_000)
def many_nets(t):
    """Larger nets of many shapes: tall chains, combs, stars, paths that meet, separate trees. Two ranks either way
    round, and the list in another order, have one separator."""
    met = collections.Counter()
    for seed in range(3000):
        rng, shape = random.Random(seed), SHAPES[seed % len(SHAPES)]
        n = rng.randrange(2, 40)
        edges = nets.ties(rng, n, shape)
        one, other = ranks_of(rng, n, net_of(n, edges)[0])
        answer = asked(t, rng, n, edges, one, other, seed)
        shuffled = nets.another_order(rng, edges)
        t.same(asked(t, rng, n, shuffled, other, one, seed), answer, "either way round", seed)
        met[shape.__name__, answer[0], len(answer[1]) > 2] += 1
    wanted = [(shape.__name__, 31, False) for shape in SHAPES]
    wanted += [(shape, 0, False) for shape in ("none", "two_trees", "star")]
    wanted += [(shape, 0, True) for shape in ("path", "grid", "tree", "power_law", "comb", "two_paths")]
    t.true(all(met[its] >= 4 for its in wanted), {its: met[its] for its in wanted})


def ranks_of(rng, n, parents):
    """Two ranks, as a rule such that neither is above the other."""
    for _ in range(20):
        one, other = rng.choices(range(n), k=2)
        if not related(parents, one, other) or rng.random() < 0.2:
            break
    return one, other


LARGE = [nets.path, nets.star, nets.grid, nets.tree, nets.power_law, nets.islands, comb, two_paths, two_trees]


@test(at_least=2_000)
def large_nets(t):
    """Some thousand vertices: the separator is that of walks along the parents, and parts the two."""
    lengths = []
    for seed, shape in enumerate(2 * LARGE):
        rng = random.Random(seed)
        n = rng.randrange(1_000, 4_000)
        order = rng.sample(range(n), n) if seed % 2 else range(n)
        edges = nets.with_rows(rng, ((order[a], order[b]) for a, b in shape(rng, n)))
        flat, beside = array("I", nets.flat(edges)), neighbours_of(edges)
        parents, weights = a_net(n, flat)
        for _ in range(30):
            one, other = ranks_of(rng, n, parents)
            number, after, (count, lowest) = separate((parents, weights), one, other, flat)
            above_both = marks_above_both(parents, one, other)
            t.same(number, 31 if related(parents, one, other) else 0, shape.__name__, one, other)
            if number == 0:
                t.same((count, lowest), (len(above_both), min(above_both, default=ABSENT)), shape.__name__, one, other)
                t.same(list(after["separator"]), above_both + [7] * (n - count), shape.__name__, one, other)
                parted(t, beside, one, other, above_both, shape.__name__)
                lengths.append(count)
    t.true(min(lengths) == 0 and max(lengths) > 400 and len(lengths) > 250, max(lengths), len(lengths))


@test(at_least=400)
def left_after_a_refusal(t):
    """Refused with 23 or 31, the comparison tables hold the net of the edges and the work tables zeros; refused
    otherwise, they are as they were. The separator and both cells are as they were after every refusal."""
    met = collections.Counter()
    for seed, (number, what, change) in enumerate(faults("separate")):
        rng = random.Random(seed)
        given = inputs.accepted(rng, "separate", 7)
        change(given)
        answer, after = SEPARATE.run(t, given, what)
        compared, work = entries(given, COMPARED), entries(given, WORK)
        if number in (23, 31):
            net = inputs.net_of(len(given["parents"]), ties_of(given["edges"]))
            compared, work = list(net.values()), [[0] * len(table) for table in work]
        t.same((entries(after, COMPARED), entries(after, WORK)), (compared, work), what)
        t.same(entries(after, TOLD), entries(given, TOLD), what)
        met[answer] += 1
    t.same(set(met), {1, 2, 30, 4, 5, 32, 23, 31})


# of the net of a path 0-1, 1-2 and of a vertex without edges: what is wrong with an input, one thing more in each than
# in the next
WRONGS = [
    (1, {"parents": []}),
    (2, {"separator": [7] * 3}),
    (30, {"weights": [2, 5, 0, calls.MAX_TOTAL - 6]}),
    (4, {"one": 4}),
    (5, {"edges": [1, 1, 0, 4, 4, 1]}),
    (32, {"edges": [0, 1, 0, 1, 1, 1]}),
    (23, {"edges": [0, 1, 2, 0, 2, 5]}),
    (31, {"one": 0, "other": 2}),
    (0, {"parents": [1, 2, ABSENT, ABSENT], "weights": [2, 5, 0, 0], "one": 0, "other": 3, "edges": [0, 1, 2, 1, 2, 5],
         "separator": [7] * 4, "compared_parents": [7] * 4, "compared_weights": [7] * 4, "count": [7], "lowest": [7],
         "ends": [7] * 4, "jump": [7] * 4, "lower": [7] * 6}),
]


@test(at_least=100)
def first_that_applies(t):
    """Of all that is wrong with an input, the first in the papers' order is answered."""
    for place, (number, _) in enumerate(WRONGS):
        given = {}
        for _, wrong in reversed(WRONGS[place:]):
            given |= wrong
        t.same(SEPARATE.run(t, given, number)[0], number)


class Parted(Asked):
    """What lies between two ranks of a net parts them in the graph of the book's list."""

    def ask(self, net, ties):
        ranks = self.two_ranks(net)
        accepted, after = self.separate(net, *ranks)
        (count,) = after["count"]
        if accepted:
            parted(self.t, neighbours_of(ties), *ranks, after["separator"][:count])
        self.met[min(count, 2) if accepted else "refused"] += 1


@test(at_least=300_000)
def histories(t):
    """Between calls of every kind, accepted and refused."""
    met = met_in(Parted(t, random.Random(seed), 16) for seed in range(500))
    t.true(len(met) == 4 and min(met.values()) > 100, met)

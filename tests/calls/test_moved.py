"""Where the forest moved (document 02, Paper 2): viewers that reread the parents from the answer on miss nothing in any
history; and the answer of each way in which edges come into a forest."""

import collections
import random

from oracle import calls, forest
from oracle.forest import ABSENT
from support import nets
from support.accepted import added, joined
from support.harness import test
from support.history import History


class Viewer:
    """Keeps a copy of a net's parents, and rereads them from the lowest rank on that it was told of."""

    def __init__(self, parents):
        self.copy, self.lowest = list(parents), ABSENT

    def tell(self, rank):
        self.lowest = min(self.lowest, rank)

    def reread(self, parents):
        self.copy[self.lowest:] = parents[self.lowest:]
        self.lowest = ABSENT


class Viewed(History):
    """A history in which two viewers look at each net. Both are told where each addition or join moved it, and all of
    it when it is started or read; one rereads after every call, the other now and then."""

    def __init__(self, t, rng, most):
        self.viewers, self.met = {}, collections.Counter()
        super().__init__(t, rng, most)

    def edges(self, net):
        """Few of them as a rule, so that a net moves often."""
        flat = super().edges(net)
        return flat[:3 * self.rng.randrange(4)] if self.rng.random() < 0.6 else flat

    def call(self, name, net, **others):
        before = self.nets[net][0]
        quick, late = self.viewers.setdefault(net, (Viewer(before), Viewer(before)))
        accepted, after = super().call(name, net, **others)
        parents = after["parents"]
        if name in ("add", "join"):
            self.met[name, self.told(before, parents, after["moved"][0], quick, late) if accepted else "refused"] += 1
        elif accepted and name in ("start", "read"):
            for viewer in (quick, late):
                viewer.tell(0)
                viewer.reread(parents)
        quick.reread(parents)
        self.t.same(quick.copy, parents, name)
        if self.rng.random() < 0.2:
            self.t.same(late.lowest, calls.moved(late.copy, parents), "the lowest rank that moved in all")
            late.reread(parents)
            self.t.same(late.copy, parents, name)
        return accepted, after

    def told(self, before, parents, moved, *viewers):
        """Tells the viewers where a net moved; answers whether that is nowhere, at the first vertex or further up."""
        self.t.true(all(now <= was for was, now in zip(before, parents)), "no parent rises", before, parents)
        self.t.true(moved == ABSENT or before[moved] != parents[moved], "the entry is another", before, parents, moved)
        for viewer in viewers:
            viewer.tell(moved)
        return "none" if moved == ABSENT else "first" if moved == 0 else "further"


@test(at_least=400_000)
def viewers(t):
    """Over small nets, whose lists are long for them, and over some of up to 80 vertices, where a few edges are put in
    one by one."""
    met = collections.Counter()
    for seed in range(3000):
        history = Viewed(t, random.Random(seed), 80 if seed % 5 == 0 else 8)
        for _ in range(history.rng.randrange(5, 30)):
            history.step()
        met += history.met
    for name in ("add", "join"):
        for what in ("none", "first", "further", "refused"):
            t.true(met[name, what] > 100, name, what, met)


# A list of fewer than an eighth as many edges as there are vertices is put in edge by edge, as long as fewer steps than
# that were made; what is left of it, or a list that is longer, is grown with the whole forest. Here a list is short
# below 50 edges.
VERTICES, SHORT = 400, 50


def side_by_side(chains):
    """A net of so many chains of parents side by side, with no weights."""
    return [x + chains if x + chains < VERTICES else ABSENT for x in range(VERTICES)], [0] * VERTICES


def net_of(edges):
    return forest.net_of(VERTICES, edges)


# Edges that are added to four chains of 100 vertices each, and where the forest moves
MOVES = {
    "a few steps": ([(390, 391)], 390),
    "a few steps each": ([(390, 391), (381, 380)], 380),
    "a root below another": ([(396, 398)], 396),
    "a root, and a vertex below it": ([(399, 397), (394, 395)], 394),
    "a link that is there": ([(4, 0)], ABSENT),
    "an end far above the other": ([(0, 396)], ABSENT),
    "a root far above": ([(0, 397)], 396),
    "from the first vertex up": ([(0, 1)], 0),
    # one edge takes more steps than are to be made, so that the other one is grown
    "neither": ([(0, 396), (397, 1)], ABSENT),
    "one of them": ([(0, 396), (101, 102)], 101),
    "each in chains of its own": ([(0, 1), (50, 51)], 0),
    "each in chains of the other": ([(50, 52), (103, 102)], 50),
    "one a root, the other further down": ([(0, 397), (101, 102)], 101),
    "each a root": ([(0, 398), (1, 397)], 396),
}


@test(at_least=1_700)
def each_way(t):
    """A short list, also from its end, the same made longer by repeats, and the net of it joined: each moves the forest
    at the same rank. Made again, none moves anything, and the weights rise, by as many rows."""
    for what, (pairs, moved) in MOVES.items():
        edges = nets.with_rows(random.Random(what), pairs)
        reverse = edges[::-1]
        lists = [edges, reverse, edges * SHORT] + [edges + reverse[:1] * (m - len(edges)) for m in (SHORT - 1, SHORT)]
        ways = [(added, nets.flat(its), calls.rows_of(its)) for its in lists]
        ways += [(joined, net_of(edges), calls.rows_of(edges))]
        for call, lent, more in ways:
            net, at = call(t, side_by_side(4), lent, what)
            t.same(at, moved, what, more)
            again, at = call(t, net, lent, what)
            t.same((again[0], at), (net[0], ABSENT), what, more)
            t.same((sum(net[1]), sum(again[1])), (more, 2 * more), what)


@test(at_least=150)
def nothing_moves(t):
    """No edges, a net without edges and an equal one leave every forest as it is. The first net counts: one without
    edges moves at the first link of the other."""
    none = net_of([])
    for net in (none, side_by_side(1), side_by_side(4), nets.sound_net(random.Random(1), VERTICES)):
        t.same(added(t, net, []), (net, ABSENT))
        t.same(joined(t, net, none), (net, ABSENT))
        t.same(joined(t, net, net), ((net[0], [2 * weight for weight in net[1]]), ABSENT))
        t.same(joined(t, none, net), (net, min((x for x in range(VERTICES) if net[0][x] != ABSENT), default=ABSENT)))


@test(at_least=16_000)
def lists_of_all_lengths(t):
    """On forests that are tall, wide or neither, lists of one edge, of a few and of about as many as are short; then
    each again."""
    met = collections.Counter()
    for seed in range(120):
        rng = random.Random(seed)
        n, chains = rng.randrange(100, 300), rng.choice((1, 2, 3, 7, 20))
        parents = [x + chains if x + chains < n and rng.random() < 0.98 else ABSENT for x in range(n)]
        net = nets.sound_net(rng, n) if seed % 4 == 0 else (parents, [0] * n)
        for m in (1, 2, 5, n // 8 - 1, n // 8, n // 8 + 1, n):
            low = rng.randrange(n - 2)
            edges = nets.flat(nets.with_rows(rng, (rng.sample(range(low, n), 2) for _ in range(m))))
            after, moved = added(t, net, edges, seed, m)
            t.true(moved >= low, "nothing below the edges moves", seed, m)
            t.same(added(t, after, edges, seed, m)[1], ABSENT, seed, m)
            met[moved == ABSENT] += 1
    t.true(met[True] > 20 and met[False] > 200, met)

"""Inputs that each call accepts. Every table that is to be written holds anything before."""

import itertools
from array import array

from oracle import between, calls, forest
from oracle.neighbours import index_of
from support import nets
from support.library import CALLS


def entries(rng, code, length):
    """Anything that entries can be that `array` has this code for."""
    bits = 8 * array(code).itemsize
    return [rng.getrandbits(bits) for _ in range(length)]


def cells(rng, name):
    call = CALLS[name]
    return {cell: entries(rng, call.code(cell), 1) for cell in call.named("cell")}


def to_write(rng, name, length):
    """What a call is lent to write: tables of a length, and cells."""
    call = CALLS[name]
    return {table: entries(rng, call.code(table), length) for table in call.named("written")} | cells(rng, name)


def with_work(rng, name, given):
    """What a call is given, with its work tables: these hold zeros, as an accepted call leaves them, or anything."""
    holding = rng.choice((nets.garbage, nets.zeros))
    return given | {table: holding(rng, length) for table, length in CALLS[name].work_lengths(given).items()}


def net_of(n, ties):
    """The two tables of a net, by name."""
    return dict(zip(("parents", "weights"), forest.net_of(n, ties)))


def a_net(rng, n):
    """A net, and the ties that it is of."""
    ties = nets.ties(rng, n, rng.choice((nets.dense, nets.path, nets.tree)))
    return net_of(n, ties), ties


def dividing(rng, name, net, limit, k):
    """A net that is to be divided into k blocks."""
    tables = to_write(rng, name, len(net["parents"]))
    return tables | net | {"limit": limit, "blocks": k, "block_loads": nets.garbage(rng, k)}


def reporting(rng, net, ties, limit, k):
    """A net that is to be reported on, with ties that are said to be its own."""
    given = dividing(rng, "report", net, limit, k)
    return with_work(rng, "report", given | {"edges": nets.flat(ties), "edge_blocks": nets.garbage(rng, len(ties))})


def separating(rng, n, ties, one, other):
    """The net of ties, of which two ranks are to be separated."""
    given = to_write(rng, "separate", n) | net_of(n, ties) | {"one": one, "other": other, "edges": nets.flat(ties)}
    return with_work(rng, "separate", given)


def indexing(rng, n, old_edges, added):
    """A list in two parts, of which an index is to be made."""
    ends = 2 * (forest.tie_count(old_edges) + forest.tie_count(added))
    tables = {"starts": nets.garbage(rng, n + 1), "neighbours": nets.garbage(rng, ends)}
    return {"old_edges": old_edges, "added": added} | tables


def querying(rng, starts, neighbours, rank):
    return {"starts": starts, "neighbours": neighbours, "rank": rank} | cells(rng, "query")


# Makers, one for each call, by the name of the call

def relabel(rng, n):
    edges = nets.flat(nets.ties(rng, n, nets.dense))
    return {"order": rng.sample(range(n), n), "edges": edges, "out": nets.garbage(rng, len(edges))}


def start(rng, n):
    return to_write(rng, "start", n)


def add(rng, n):
    net, _ = a_net(rng, n)
    return to_write(rng, "add", n) | net | {"edges": nets.flat(nets.ties(rng, n, nets.dense))}


def join(rng, n):
    (net, _), (other, _) = a_net(rng, n), a_net(rng, n)
    return to_write(rng, "join", n) | net | {f"other_{table}": entries for table, entries in other.items()}


def save(rng, n):
    net, _ = a_net(rng, n)
    return to_write(rng, "save", 8 * n) | net


def read(rng, n):
    net, _ = a_net(rng, n)
    return to_write(rng, "read", n) | {"bytes": calls.link_file(*net.values())}


def tight_limit(rng, net):
    return max(2, *net["weights"]) + rng.randrange(3)


def divide(rng, n):
    net, _ = a_net(rng, n)
    return dividing(rng, "divide", net, tight_limit(rng, net), rng.randrange(1, 5))


def report(rng, n):
    net, ties = a_net(rng, n)
    return reporting(rng, net, ties, tight_limit(rng, net), rng.randrange(1, 5))


def separate(rng, n):
    """Two ranks of which neither is above the other, of a net that hangs together; fewer than four vertices may have no
    such two."""
    unrelated = []
    while not unrelated:
        ties = nets.ties(rng, n, rng.choice((nets.path, nets.star, nets.tree)))
        parents, _ = forest.net_of(n, ties)
        pairs = itertools.permutations(range(n), 2)
        unrelated = [pair for pair in pairs if not between.related(parents, *pair)] or [(0, 0)] * (n < 4)
    return separating(rng, n, ties, *rng.choice(unrelated))


def index(rng, n):
    """Each part of the list has edges where there are two vertices."""
    return indexing(rng, n, *(nets.flat(nets.ties(rng, n, nets.dense)) for _ in range(2)))


def query(rng, n):
    ties = nets.ties(rng, n, rng.choice((nets.dense, nets.path, nets.star)))
    return querying(rng, *index_of(n, ties), rng.randrange(n))


MAKERS = {maker.__name__: maker for maker in (relabel, start, add, join, save, read, divide, report, separate, index,
                                              query)}


def accepted(rng, name, n):
    """An input that the call accepts, with its work tables."""
    return with_work(rng, name, MAKERS[name](rng, n))

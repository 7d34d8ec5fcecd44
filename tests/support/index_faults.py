"""Faults to put into the inputs of the calls of an index."""

from oracle.forest import ABSENT
from support.changes import edge_faults, in_turn, part_edges, put, rank_faults, resize, resize_all


def n_of(given):
    return len(given["starts"]) - 1


def start_faults():
    yield 2, "no starts", lambda g: resize("starts", -len(g["starts"]))(g)
    yield 1, "one start", lambda g: resize("starts", 1 - len(g["starts"]))(g)


def index_faults():
    yield from start_faults()
    for by in (-1, 1, 2, -2, 7, -1000):
        yield 2, f"neighbours {by:+} entries", resize("neighbours", by)
    for edges in ("old_edges", "added"):
        yield from part_edges(edges)
        for by in (1, 2, -1, -2):
            yield 2, f"{edges} {by:+} numbers, and as many neighbours", resize_all(by, edges, "neighbours")
        yield 2, f"{edges} one edge more", resize(edges, 3)
        yield from edge_faults(edges, n_of)
    for old, added in ((1, -1), (2, -2), (1, 2), (2, 1)):
        more = resize("neighbours", 2) if added > 0 else in_turn()
        both = in_turn(resize("old_edges", old), resize("added", added), more)
        yield 2, f"lists {old:+} and {added:+} numbers, whole edges together", both
    last = put("added", 0, 0), put("added", 1, lambda g: n_of(g) - 1)
    yield 4, "no start for the last vertex", in_turn(*last, resize("starts", -1))


def query_faults():
    yield from start_faults()
    yield 30, "first start is 1", put("starts", 0, 1)
    yield 30, "first start is far out", put("starts", 0, ABSENT)
    for place in (1, 2, -2):
        yield 30, f"start {place} is one beyond the last", put("starts", place, lambda g: g["starts"][-1] + 1)
        yield 30, f"start {place} is far out", put("starts", place, ABSENT)
    yield 30, "last start is one more", put("starts", -1, lambda g: g["starts"][-1] + 1)
    yield 30, "last start is one less", put("starts", -1, lambda g: g["starts"][-1] - 1)
    for by in (-1, 1, 7, -1000):
        yield 30, f"neighbours {by:+} entries", resize("neighbours", by)
    yield from rank_faults("rank", n_of)


FAULTS = {"index": index_faults, "query": query_faults}

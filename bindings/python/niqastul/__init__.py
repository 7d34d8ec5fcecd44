"""Niqastul from Python: elimination forests of graphs, grown, joined and divided, and indexes of neighbours, by a proved library.

    net = Net(vertices)                 a graph of so many vertices, 0 to vertices-1 in an elimination order, with no edges
    net.add([0, 1, 1, 1, 2, 6])         add the edges 0-1, of one row, and 1-2, of six
    net.join(other)                     add all edges of another net; both answer the lowest rank whose parent is now another, or None
    net.save(), net.read(data)          the net as bytes, and back
    net.parents, net.weights            the elimination forest, ABSENT for no parent; the rows of the edges, by lower end
    net.divide(limit, blocks)           the forest cut into groups that carry at most the limit, and packed into blocks
    net.report(limit, blocks, edges)    that, and what it costs: block counts, bound and volume of communication; and the even share
    net.separate(one, other, edges)     what lies between two vertices: those above both, one of which every chain of edges passes
    relabel(order, edges)               an edge list in vertex numbers, as ranks in an order
    index = Index(vertices, edges)      beside an edge list, in ranks: for each vertex its neighbours, in the order of the list
    index.neighbours(rank)              those of a rank

The same on files, from the command line: python3 -m niqastul -h.

An edge is three numbers in every list: its two vertices and its rows, 1 to MAX_ROWS. A levelled difference gives the adjustment one
equation row, a satellite vector three, a full pose six. Weights are sums of rows.

A table is an array("I"), or any other contiguous buffer of unsigned 32-bit numbers, as ctypes, memoryview and numpy
have them. Its buffer says what it is, and how long; anything else is a TypeError that names the table. An argument may
also be a list or any other row of integers, which is copied; a net's or an index's own table may not. Buffers are lent
without a copy, but where a call only reads one that is read-only, unaligned, or shares memory with one that it writes.
Two that it writes and that share memory are a ValueError.

A call that is refused raises Refused. Whatever is raised, every table is as it was. Calls let other threads run: these
cannot resize the tables of a running call, and must not write them, nor read what the call writes.

The library is the file that NIQASTUL_LIBRARY names, or that of this repository (make), or an installed one (make
install). One of another version than this package was written for is not loaded."""

import collections
import ctypes

from .calls import MAX_VERTICES, Refused, call, rank_word, within
from .index import Index
from .tables import STRIDE, edge_count, length, table, zeros

ABSENT = 0xFFFFFFFF
MAX_ROWS = 6
MAX_EDGES = 16_000_000
MAX_TOTAL = 96_000_000
MAX_LIMIT = 96_000_000
MAX_BLOCKS = 1_000

# A net divided: for each vertex what it carries (at a top, the weight of its group), the top of its group and its block; the load of
# each block. A vertex that is its own top and has a parent is cut off from it.
Division = collections.namedtuple("Division", "carried top block block_loads")

# What a division costs: the block of each edge; for each vertex its reach, the number of different blocks among its edges, and how many
# edges, in the order of the list, that count took, up to and with the first by which all blocks are met, or all; the sum of the reaches
# of the vertices that are cut off, and the sum of (block count - 1), which is never above it; the even share.
Report = collections.namedtuple("Report", "division edge_blocks reach block_count edges_taken bound volume share")

# What lies between two vertices: those above both, by rising rank, one of which every chain of edges from one to the other passes; and
# the lowest of them, None if there are none, so that there is no chain.
Separator = collections.namedtuple("Separator", "vertices lowest")


class Share(collections.namedtuple("Share", "quotient remainder blocks")):
    """The even share: the total of the weights divided by the number of blocks. The remainder is below that number."""

    __slots__ = ()

    def check_sum(self):
        """The quotient times the number of blocks plus the remainder: the total."""
        return self.quotient * self.blocks + self.remainder


class Net:
    """An elimination forest with a weight on each vertex. The tables may be read and written, and others put in their
    place: a call checks what they are, and what they hold."""

    def __init__(self, vertices):
        n = within("vertices", vertices, MAX_VERTICES)
        self.parents, self.weights = zeros(n), zeros(n)
        call("start", self.parents, self.weights)

    def add(self, edges):
        """Adds edges, as a whole or not at all. Answers the lowest rank whose parent is now another: who keeps a copy of the parents
        rereads them from there on. None if none moved; a weight alone that rises moves nothing."""
        edges = table("edges", edges)
        return self._grow("add", [edges], edge_count("edges", edges))

    def join(self, other):
        """Adds all edges of another net, which stays as it is; answers what add does."""
        if not isinstance(other, Net):
            raise TypeError(f"other: a Net, not {type(other).__name__}")
        return self._grow("join", [other.parents, other.weights], length("other.parents", other.parents))

    def _grow(self, name, lent, more):
        """A call with work tables, the last of which is longer than the net by so many entries; answers where the forest moved."""
        n, moved = self._vertices(), ctypes.c_uint32()
        call(name, self.parents, self.weights, *lent, zeros(n), zeros(n), zeros(n + more), moved)
        return told(moved)

    def save(self):
        """The net as bytes: for each vertex its parent and its weight, little-endian 32-bit numbers."""
        saved = bytearray(8 * self._vertices())
        call("save", self.parents, self.weights, saved)
        return bytes(saved)

    def read(self, saved):
        """Becomes the net that was saved, which has as many vertices."""
        call("read", self.parents, self.weights, saved)

    def divide(self, limit, blocks):
        """Cuts the forest into groups that carry at most a limit, packs the groups into blocks, and answers a Division."""
        limit, blocks = within("limit", limit, MAX_LIMIT), within("blocks", blocks, MAX_BLOCKS)
        its = to_divide(self._vertices(), blocks)
        call("divide", self.parents, self.weights, limit, blocks, *its)
        return its

    def report(self, limit, blocks, edges):
        """Divides, and reports what the division costs, given all edges of the net in any order."""
        limit, blocks = within("limit", limit, MAX_LIMIT), within("blocks", blocks, MAX_BLOCKS)
        edges = table("edges", edges)
        n, m = self._vertices(), edge_count("edges", edges)
        its, tables, lent = to_divide(n, blocks), [zeros(m), zeros(n), zeros(n), zeros(n)], to_compare(n, m)
        bound, volume, quotient, remainder = ctypes.c_uint64(), ctypes.c_uint64(), ctypes.c_uint32(), ctypes.c_uint32()
        call("report", self.parents, self.weights, limit, blocks, edges, *its, *tables, *lent, bound, volume, quotient, remainder)
        return Report(its, *tables, bound.value, volume.value, Share(quotient.value, remainder.value, blocks))

    def separate(self, one, other, edges):
        """What lies between two vertices of which neither is above the other, given all edges of the net in any order: a Separator."""
        one, other, edges = rank_word("one", one), rank_word("other", other), table("edges", edges)
        n, m, count, lowest = self._vertices(), edge_count("edges", edges), ctypes.c_uint32(), ctypes.c_uint32()
        separator = zeros(n)
        call("separate", self.parents, self.weights, one, other, edges, separator, *to_compare(n, m), count, lowest)
        return Separator(separator[:count.value], told(lowest))

    def _vertices(self):
        return length("parents", self.parents)


def to_divide(n, blocks):
    """The tables of a division, to be written."""
    return Division(zeros(n), zeros(n), zeros(n), zeros(blocks))


def to_compare(n, m):
    """The comparison tables and work tables of a call that is given a net's own edges."""
    return [zeros(n), zeros(n), zeros(n), zeros(n), zeros(n + m)]


def told(cell):
    """The rank that a cell tells, or None."""
    return None if cell.value == ABSENT else cell.value


def relabel(order, edges):
    """An edge list in vertex numbers, as ranks in an order: the vertex order[r] has rank r. Each edge keeps its rows."""
    order, edges = table("order", order), table("edges", edges)
    out = zeros(length("edges", edges))
    call("relabel", order, edges, out, zeros(length("order", order)))
    return out

"""Runs of neighbours, kept beside an edge list."""

import ctypes

from .calls import MAX_VERTICES, call, rank_word, within
from .tables import WORDS_READ, edge_count, export, table, zeros


class Index:
    """For each vertex its neighbours in the order of an edge list, repeats included: its run. All runs stand in the
    table `runs`, end to end by rising rank, and `starts` has where each starts and, last, where the last one ends. The
    tables may be read and written, and others put in their place: a call checks what they are, and where runs start."""

    def __init__(self, vertices, edges, added=()):
        """The index of edges, three numbers to an edge, followed by those that are added to them. It has no rows."""
        n, edges, added = within("vertices", vertices, MAX_VERTICES), table("edges", edges), table("added", added)
        self.starts, self.runs = zeros(n + 1), zeros(2 * (edge_count("edges", edges) + edge_count("added", added)))
        call("index", edges, added, self.starts, self.runs)

    def neighbours(self, rank):
        """The other end of each edge at a vertex, in the order of the list: a part of the runs, to be read, and no copy."""
        runs, first, count = self.runs, ctypes.c_uint64(), ctypes.c_uint64()
        call("query", self.starts, runs, rank_word("rank", rank), first, count)
        with export("runs", WORDS_READ, runs) as view:
            return view.toreadonly()[first.value:first.value + count.value]

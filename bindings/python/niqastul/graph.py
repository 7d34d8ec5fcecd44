"""A net and its division, from files. A run counts as one call: of the refusals that apply, the first in document 01's order is
given, 1, 6, 3, 8, 4 of a mark that is asked for, 4, 5 or 32 of a tie, 20, 22. Each is the library's own answer but 6, which speaks of
files."""

import collections

from . import Index, Net, Refused, files, relabel

# The order, the bytes of the edge file, its edges in ranks, and the net of them.
Graph = collections.namedtuple("Graph", "order ties edges net")


def read(progress, marks, ties, asked=()):
    """The graph of an order file and an edge file, of which some marks are asked for."""
    return grown(progress, files.content(marks), files.content(ties), asked=asked)


def read_divided(progress, marks, ties, want):
    """The graph of an order file and an edge file, its limit, and the report on its division."""
    marks, ties, want = (files.content(path) for path in (marks, ties, want))
    graph, (limit, blocks) = grown(progress, marks, ties, want), files.numbers(want)
    progress.at("dividing")
    return graph, limit, graph.net.report(limit, blocks, graph.edges)


def grown(progress, marks, ties, want=None, asked=()):
    """The graph of the bytes of its files; `want` and the marks asked for are only checked here, since their refusals come before those
    of edges."""
    order = order_of_files(marks, ties, want)
    net = Net(len(order))
    if want is not None:
        # a net without edges can be divided by every limit and number of blocks in range
        Net(1).divide(*files.numbers(want))
    check_asked(order, asked)
    progress.at("growing the net")
    edges = relabel(order, files.numbers(ties))
    net.add(edges)
    return Graph(order, ties, edges, net)


def order_of_files(marks, ties=b"", want=None, link=None):
    """The order, once the bytes of all files are whole records, and as many as there have to be: 1, 6, 3."""
    Net(len(marks) // files.MARK)
    files.whole(marks, files.MARK)
    files.whole(ties, files.TIE)
    if want is not None and len(want) != 8 or link is not None and len(link) != 2 * len(marks):
        raise Refused(6)
    order = files.numbers(marks)
    relabel(order, [])
    return order


def check_asked(order, asked):
    """4 of the marks that are asked for. A query of an index without edges looks at the rank alone, and mark numbers are below the same
    n."""
    if asked:
        Index(len(order), []).neighbours(max(asked))


def ranks_of(vertices, order):
    return {vertex: rank for rank, vertex in enumerate(order) if vertex in vertices}

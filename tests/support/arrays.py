"""The library's calls on arrays as they stand, for tables that are too large for the oracle."""

from array import array

from oracle import calls
from oracle.forest import ABSENT, tie_count
from support.library import CALLS


def zeros(length):
    return array("I", bytes(4 * length))


def edge_list(pairs, rows):
    """A flat list of edges between pairs of vertices, each of so many rows."""
    return array("I", [number for a, b in pairs for number in (a, b, rows)])


def run(name, **tables):
    """Calls the library on arrays as they stand; work tables are made here if none are lent, and so is the cell of a
    forest that moves."""
    call = CALLS[name]
    work = {table: zeros(length) for table, length in call.work_lengths(tables).items() if table not in tables}
    tables = {"moved": zeros(1)} | work | tables
    return call.ask(tables, lambda table: tables[table].buffer_info()[0])


def sevens(name, n):
    """What a call is lent to write: tables of n entries, and cells, all holding sevens."""
    call = CALLS[name]
    tables = {table: array(call.code(table), [7]) * n for table in call.named("written")}
    return tables | {cell: array(call.code(cell), [7]) for cell in call.named("cell")}


def a_net(n, edges=()):
    """The two tables of the net of edges, started and added to."""
    parents, weights = zeros(n), zeros(n)
    assert run("start", parents=parents, weights=weights) == 0
    assert run("add", parents=parents, weights=weights, edges=array("I", edges)) == 0
    return parents, weights


def a_full_list():
    """As many edges as a list may have, half of them at each of two vertices under a third, and of as many rows as they
    may have; and their net, which has the largest total."""
    half, rows = calls.MAX_TIES // 2, calls.MAX_ROWS
    edges = array("I", [0, 2, rows]) * half + array("I", [2, 1, rows]) * half
    return edges, (array("I", [2, 2, ABSENT]), array("I", [rows * half, rows * half, 0]))


def report(net, edges, limit, blocks):
    """Reports on a net with new tables; answers the number and the tables by name."""
    tables = sevens("report", len(net[0])) | {"block_loads": zeros(blocks), "edge_blocks": zeros(tie_count(edges))}
    return run("report", parents=net[0], weights=net[1], limit=limit, blocks=blocks, edges=edges, **tables), tables


def figures(after):
    """Bound and volume, and the even share, quotient and remainder, of the tables of a report."""
    return [after[cell][0] for cell in CALLS["report"].named("cell")]


def separate(net, one, other, edges):
    """Asks what lies between two ranks of a net; answers the number, the tables by name, and both cells."""
    tables = sevens("separate", len(net[0]))
    number = run("separate", parents=net[0], weights=net[1], one=one, other=other, edges=edges, **tables)
    return number, tables, [tables["count"][0], tables["lowest"][0]]


def made_index(vertices, old_edges, added):
    """Indexes lists into new tables; answers the number and the tables."""
    ends = 2 * (tie_count(old_edges) + tie_count(added))
    starts, neighbours = array("I", [7]) * (vertices + 1), array("I", [7]) * ends
    return run("index", old_edges=old_edges, added=added, starts=starts, neighbours=neighbours), starts, neighbours


def asked(starts, neighbours, rank):
    """Queries an index; answers the number, and the part of the neighbours that is handed back."""
    first, count = array("Q", [7]), array("Q", [7])
    number = run("query", starts=starts, neighbours=neighbours, rank=rank, first=first, count=count)
    return number, neighbours[first[0]:first[0] + count[0]]

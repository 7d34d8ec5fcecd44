"""The limits at their full size: 1,000,000 vertices, lists of 16,000,000 edges, a total of 96,000,000 rows, and one
more of each. Run once, over arrays."""

from array import array

from oracle import calls
from oracle.forest import ABSENT
from support.arrays import a_full_list, a_net, asked, edge_list, figures, made_index, report, run, separate, zeros
from support.harness import test
from support.library import CALLS

MOST = calls.MAX_MARKS


def grown(t, n, edges, parents, *context):
    """A net of n vertices from its edges, with these parents; answers its tables."""
    net = a_net(n)
    t.same(run("add", parents=net[0], weights=net[1], edges=edges), 0, *context)
    t.true(net[0] == parents, "parents", *context)
    return net


@test(at_least=10)
def most_vertices(t):
    """1,000,000 vertices are accepted; a path, a tall chain and a star of as many have the parents that they must
    have."""
    up = array("I", range(1, MOST)) + array("I", [ABSENT])
    path = edge_list(((x + 1, x) for x in range(MOST - 1)), 6)
    tall = edge_list(((0, x) for x in range(1, MOST)), 5)
    star = edge_list(((MOST - 1, x) for x in range(MOST - 1)), 1)
    net = grown(t, MOST, path, up, "path")
    t.true(net[1] == array("I", [6]) * (MOST - 1) + zeros(1), "weights of the path")
    first = grown(t, MOST, tall, up, "tall chain")
    t.true(first[1] == array("I", [5 * (MOST - 1)]) + zeros(MOST - 1), "weights of the chain")
    second = grown(t, MOST, star, array("I", [MOST - 1]) * (MOST - 1) + array("I", [ABSENT]), "star")
    t.same(run("join", parents=second[0], weights=second[1], other_parents=net[0], other_weights=net[1]), 0)
    t.true(second[0] == up, "star and path joined")
    t.true(second[1] == array("I", [7]) * (MOST - 1) + zeros(1), "weights of star and path")
    backward, out = array("I", range(MOST - 1, -1, -1)), zeros(len(path))
    t.same(run("relabel", order=backward, edges=path, out=out), 0)
    t.true(out == edge_list(((MOST - 2 - x, MOST - 1 - x) for x in range(MOST - 1)), 6), "a path turned round")
    backward[0] = 0
    t.same(run("relabel", order=backward, edges=path, out=out), 3, "the last entry repeats")


def links(*lowest):
    """Two tables of a net of 1,000,000 vertices: these parents from rank 0 up, and the others absent."""
    return array("I", lowest) + array("I", [ABSENT]) * (MOST - len(lowest)), zeros(MOST)


@test(at_least=27)
def farthest_moved(t):
    """A forest of 1,000,000 vertices that moves next to its end alone, from its start on, or nowhere: by one edge,
    which goes all the way up, by a list of as many as are grown with the whole forest, and by a join."""
    last = MOST - 1
    up, apart, (whole, _) = links(*range(1, last)), links(*range(2, MOST)), links(*range(1, MOST))
    moves = (up, (0, last, 6), last - 1, whole), (apart, (0, 1, 2), 0, whole), (up, (last - 1, 0, 1), ABSENT, up[0])
    for net, edge, moved, after in moves:
        other = a_net(MOST, edge)
        for name, lent in (("add", {"edges": array("I", edge)}), ("add", {"edges": array("I", edge) * (MOST // 8)}),
                           ("join", {"other_parents": other[0], "other_weights": other[1]})):
            parents, cell = net[0][:], array("I", [7])
            t.same(run(name, parents=parents, weights=net[1][:], moved=cell, **lent), 0, name, edge)
            t.same(list(cell), [moved], name, edge)
            t.true(parents == after, name, edge)


@test(at_least=6)
def one_vertex_too_many(t):
    """1,000,001 vertices are 1 in each call, whatever else is wrong, and no table changes."""
    many = array("I", [5]) * (MOST + 1)
    one = array("I", [ABSENT])
    for name, call in CALLS.items():
        lent, cells = call.named("read", "written"), call.named("cell")
        for length in (MOST + 1, 1):
            tables = {table: array(call.code(table), [5]) * length for table in lent + cells}
            tables |= {number: 1 for number in call.named("number")}
            tables[call.counted] = array("I", [5]) * (MOST + 1 + call.beyond_n)
            t.same(run(name, **tables), 1, name)
            t.true(all(tables[cell][0] == (0 if name == "query" else 5) for cell in cells), name)
            t.true(all(tables[table].count(5) == len(tables[table]) for table in lent), name)
    t.same(run("join", parents=one[:], weights=zeros(1), other_parents=many, other_weights=many), 1, "the other net")


@test(at_least=30)
def largest_total(t):
    """15,625 edges of 6 rows and ten doublings are 96,000,000 rows, which is accepted; one row more is 20 in adding and
    joining."""
    net = a_net(3, [0, 2, 6] * 15_625)
    for doubling in range(10):
        copy = a_net(3)
        t.same(run("join", parents=copy[0], weights=copy[1], other_parents=net[0], other_weights=net[1]), 0, doubling)
        t.same(run("join", parents=net[0], weights=net[1], other_parents=copy[0], other_weights=copy[1]), 0, doubling)
    t.same(list(net[1]), [calls.MAX_TOTAL, 0, 0])
    for rows in (1, 6):
        t.same(run("add", parents=net[0], weights=net[1], edges=array("I", [0, 1, rows])), 20, rows)
    for rows in (0, 7, ABSENT):
        t.same(run("add", parents=net[0], weights=net[1], edges=array("I", [0, 1, rows])), 32, rows)
    t.same(run("add", parents=net[0], weights=net[1], edges=array("I")), 0, "no edge more")
    one = a_net(3, [1, 2, 1])
    t.same(run("join", parents=net[0], weights=net[1], other_parents=one[0], other_weights=one[1]), 20)
    t.same(run("join", parents=one[0], weights=one[1], other_parents=net[0], other_weights=net[1]), 20)
    t.same((list(net[0]), list(net[1])), ([2, ABSENT, ABSENT], [calls.MAX_TOTAL, 0, 0]), "as it was")
    t.same((list(one[0]), list(one[1])), ([ABSENT, 2, ABSENT], [0, 1, 0]), "as it was")


def a_file(*weights):
    """A link file of vertices with these weights and no parents."""
    return array("B", calls.link_file([ABSENT] * len(weights), weights))


@test(at_least=16)
def totals_of_files(t):
    """A file of 96,000,000 rows is read, and one of a row more is 20, however the rows are spread."""
    full = calls.MAX_TOTAL
    for weights in ((full, 0), (0, full), (full // 2, full // 2), (1, full - 1)):
        parents, read = array("I", [5, 5]), array("I", [5, 5])
        t.same(run("read", parents=parents, weights=read, bytes=a_file(*weights)), 0, weights)
        t.same((list(parents), list(read)), ([ABSENT] * 2, list(weights)), weights)
        more = weights[0] + 1, weights[1]
        t.same(run("read", parents=parents, weights=read, bytes=a_file(*more)), 20, more)
        t.same((list(parents), list(read)), ([ABSENT] * 2, list(weights)), "as it was", more)


# the last edge of a list on three vertices that has one edge too many, and what the list is refused for
FAULTY_LASTS = [((1, 2, 1), 20), ((1, 2, 6), 20), ((1, 1, 1), 5), ((1, 1, 0), 5), ((3, 3, 0), 4), ((1, 3, 1), 4),
                ((1, 2, 0), 32), ((1, 2, 7), 32), ((1, 2, ABSENT), 32)]


def refused(t, net, edges, held, number, *context):
    """An addition is refused, and leaves the net and the work tables, which held one number alone, as they were."""
    call = CALLS["add"]
    tables = {"parents": net[0][:], "weights": net[1][:], "edges": edges}
    work = {table: array("I", [held]) * length for table, length in call.work_lengths(tables).items()}
    t.same(run("add", **tables, **work), number, *context)
    t.true((tables["parents"], tables["weights"]) == net, "as it was", *context)
    t.true(all(table.count(held) == len(table) for table in work.values()), "as they were", *context)


@test(at_least=39)
def longest_list(t):
    """A list of 16,000,000 edges is added at once, of as many rows as edges may have; one edge more is 20, even if all
    have one row, unless an edge of it is faulty."""
    edges = array("I", [0, 2, 6]) * calls.MAX_TIES
    net = grown(t, 3, edges, array("I", [2, ABSENT, ABSENT]))
    t.same(list(net[1]), [calls.MAX_TOTAL, 0, 0])
    t.same(run("add", parents=net[0], weights=net[1], edges=array("I", [0, 1, 1])), 20, "one row more")
    net = a_net(3, [1, 2, 1])
    for held in (0, 7):
        refused(t, net, edges, held, 20, "a row more than the largest total")
    edges[-1] = 5
    t.same(run("add", parents=net[0], weights=net[1], edges=edges), 0, "the largest total")
    t.same((list(net[0]), list(net[1])), ([2, 2, ABSENT], [calls.MAX_TOTAL - 1, 1, 0]))
    edges[2::3] = array("I", [1]) * calls.MAX_TIES
    edges += array("I", [1, 2, 1])
    net = a_net(3)
    for place, (last, number) in enumerate(FAULTY_LASTS):
        edges[-3:] = array("I", last)
        refused(t, net, edges, 7 * (place % 2), number, last)
    edges[-3:] = array("I", [1, 2, 4])
    out = zeros(len(edges))
    t.same(run("relabel", order=array("I", [2, 0, 1]), edges=edges, out=out), 0, "relabelling has no such limit")
    t.same(list(out[-6:]), [1, 0, 1, 2, 0, 4])


@test(at_least=15)
def longest_history(t):
    """A net whose edges came in several lists may have more than 16,000,000 of them, as long as its total is none too
    many. A report and a separator that are lent them all are 20, and those lent fewer 23."""
    edges, net = array("I", [0, 2, 1]) * calls.MAX_TIES, a_net(3)
    more = array("I", [1, 2, 6])
    t.same(run("add", parents=net[0], weights=net[1], edges=edges), 0)
    t.same(run("add", parents=net[0], weights=net[1], edges=more), 0, "one edge more than a list may have")
    t.same((list(net[0]), list(net[1])), ([2, 2, ABSENT], [calls.MAX_TIES, 6, 0]))
    limit = calls.MAX_LIMIT
    t.same(report(net, edges + more, limit, 2)[0], 20, "its own list")
    t.same(separate(net, 0, 1, edges + more)[0], 20, "its own list")
    t.same(report(net, edges, limit, 2)[0], 23, "all but one")
    t.same(separate(net, 0, 1, edges)[0], 23, "all but one")
    t.same(report(net, edges + more, calls.MAX_TIES - 1, 2)[0], 20, "20 before 22")
    for times in range(2, 6):
        t.same(run("add", parents=net[0], weights=net[1], edges=edges), 0, times)
    t.same(list(net[1]), [5 * calls.MAX_TIES, 6, 0], "80,000,001 edges")
    other = a_net(3)
    t.same(run("join", parents=other[0], weights=other[1], other_parents=net[0], other_weights=net[1]), 0)
    t.same(other, net, "joining has no limit on edges")


def divide(t, net, limit, blocks, *context):
    """Divides a net that is to be accepted; answers what was written, by name."""
    n = len(net[0])
    tables = {"carried": zeros(n), "top": zeros(n), "block": zeros(n), "block_loads": zeros(blocks)}
    t.same(run("divide", parents=net[0], weights=net[1], limit=limit, blocks=blocks, **tables), 0, *context)
    return tables


def a_star():
    """999,999 vertices under the last, each of weight 2."""
    last = MOST - 1
    edges = edge_list(((x, last) for x in range(last)), 2)
    return edges, (array("I", [last]) * last + array("I", [ABSENT]), array("I", [2]) * last + zeros(1))


@test(at_least=5)
def widest_star(t):
    """With a limit of 6 all but the last three leaves are cut, the lowest first."""
    limit, last = 6, MOST - 1
    cut = last - 3
    after = divide(t, a_star()[1], limit, 2)
    t.true(after["carried"] == array("I", [2]) * last + array("I", [limit]), "carried")
    t.true(after["top"] == array("I", range(cut)) + array("I", [last]) * 4, "tops")
    t.true(after["block"] == array("I", [0, 1]) * (cut // 2) + zeros(4), "blocks")
    t.same(list(after["block_loads"]), [cut + limit, cut])


@test(at_least=8)
def longest_path(t):
    """A path of 1,000,000 vertices and a limit of 3: every third vertex is cut, and the last, which weighs nothing,
    goes with the three before it. The groups, of 3 each, go round the 1,000 blocks; one block takes them all."""
    groups, last = (MOST - 1) // 3, MOST - 1
    path = array("I", range(1, MOST)) + array("I", [ABSENT]), array("I", [1]) * last + zeros(1)
    tops = [top for group in range(groups - 1) for top in [3 * group + 2] * 3] + [last] * 4
    blocks = [group % 1000 for group in range(groups) for _ in range(3)]
    after = divide(t, path, 3, 1000)
    t.true(after["carried"] == array("I", [1, 2, 3]) * groups + array("I", [3]), "carried")
    t.true(after["top"] == array("I", tops), "tops")
    t.true(after["block"] == array("I", blocks + blocks[-1:]), "blocks")
    t.same(list(after["block_loads"]), [3 * (groups // 1000 + (block < groups % 1000)) for block in range(1000)])
    after = divide(t, path, calls.MAX_LIMIT, 1, "the largest limit")
    t.true(after["carried"] == array("I", range(1, MOST)) + array("I", [last]), "all is carried to the top")
    t.same((set(after["top"]), set(after["block"]), list(after["block_loads"])), ({last}, {0}, [last]))


@test(at_least=10)
def reported_star(t):
    """A report on 1,000,000 vertices: each cut leaf reaches the top, which has edges of both blocks. Rows are shared,
    and leaves are reached and counted."""
    edges, net = a_star()
    limit, last = 6, MOST - 1
    number, after = report(net, edges, limit, 2)
    t.same(number, 0)
    t.same(figures(after), [last - 3, 1, last, 0])
    t.true(after["edge_blocks"] == after["block"][:last], "an edge belongs to the block of its lower end")
    t.true(after["reach"] == array("I", [1]) * last + zeros(1), "reaches")
    t.true(after["block_count"] == array("I", [1]) * last + array("I", [2]), "block counts")
    t.true(after["edges_taken"] == array("I", [1]) * last + array("I", [2]), "the first two leaves are of both blocks")
    t.true((after["compared_parents"], after["compared_weights"]) == net, "the net of the edges")
    edges[0], edges[-3] = last - 1, 0
    number, after = report(net, edges, limit, 2)
    t.same((number, figures(after)), (0, [last - 3, 1, last, 0]), "two edges exchanged")
    edges[2] = 3
    t.same(report(net, edges, limit, 2)[0], 23, "one edge has other rows")
    edges[0], edges[2] = 1, 2
    t.same(report(net, edges, limit, 2)[0], 23, "one edge is another")


@test(at_least=27)
def longest_report(t):
    """A reported list of 16,000,000 edges is accepted; one more is 20, unless an edge of it is faulty."""
    half = calls.MAX_TIES // 2
    edges, net = a_full_list()
    load = calls.MAX_TOTAL // 2
    number, after = report(net, edges, load, 2)
    t.same(number, 0)
    t.same(figures(after), [1, 1, load, 0])
    t.true(after["edge_blocks"] == zeros(half) + array("I", [1]) * half, "edge blocks")
    t.same([list(after[name]) for name in ("reach", "block_count")], [[1, 1, 0], [1, 1, 2]])
    t.same(list(after["block_loads"]), [load, load])
    t.same(list(after["edges_taken"]), [half, half, half + 1], "the last vertex meets the second block half way")
    t.true((after["compared_parents"], after["compared_weights"]) == net, "the net of the edges")
    edges += array("I", [1, 2, 1])
    number, after = report(net, edges, load, 2)
    t.same((number, figures(after)), (20, [7] * 4))
    unwritten = ("block_count", "edges_taken", "compared_parents")
    t.same([list(after[name]) for name in unwritten], [[7, 7, 7]] * 3, "as they were")
    for last, number in FAULTY_LASTS:
        edges[-3:] = array("I", last)
        t.same(report(net, edges, load, 2)[0], number, last)
        t.same(report(net, edges, load - 1, 2)[0], number, "before 22", last)


def separated(t, net, edges, one, other, above_both, *context):
    """Two ranks, either way round, have these vertices above both; the rest of the table is as it was."""
    for ranks in ((one, other), (other, one)):
        number, after, cells = separate(net, *ranks, edges)
        t.same((number, cells), (0, [len(above_both), min(above_both, default=ABSENT)]), ranks, *context)
        rest = array("I", [7]) * (len(net[0]) - len(above_both))
        t.true(after["separator"] == above_both + rest, "separator", ranks, *context)
        t.true((after["compared_parents"], after["compared_weights"]) == net, "the net of the edges", ranks, *context)


def related(t, net, edges, one, other, *context):
    """Two ranks, either way round, are refused with 31."""
    for ranks in ((one, other), (other, one)):
        number, after, cells = separate(net, *ranks, edges)
        t.same((number, cells), (31, [7, 7]), ranks, *context)
        t.same(after["separator"].count(7), len(net[0]), "as it was", ranks, *context)
        t.true((after["compared_parents"], after["compared_weights"]) == net, "the net of the edges", ranks, *context)


@test(at_least=50)
def farthest_apart(t):
    """1,000,000 vertices: two paths side by side, which meet at the top or not at all, and a path above two leaves. In
    each of them the most that a walk from two vertices upward can take."""
    last = MOST - 1
    apart = edge_list(((x, x + 2) for x in range(last - 1)), 3)
    meeting = apart + array("I", [last - 1, last, 6])
    forked = array("I", [0, 2, 1]) + edge_list(((x, x + 1) for x in range(1, last)), 5)
    up = array("I", range(2, MOST))
    net = grown(t, MOST, meeting, up + array("I", [last, ABSENT]), "two paths to one top")
    separated(t, net, meeting, 0, 1, array("I", [last]), "two paths to one top")
    separated(t, net, meeting, 0, last - 2, array("I", [last]), "the lower end and the upper end")
    related(t, net, meeting, 0, last - 1, "half a million above")
    related(t, net, meeting, 1, last, "the top")
    number, _, cells = separate(net, 0, 1, apart)
    t.same((number, cells), (23, [7, 7]), "all edges but one")
    net = grown(t, MOST, apart, up + array("I", [ABSENT] * 2), "two trees")
    separated(t, net, apart, 0, 1, zeros(0), "two trees")
    related(t, net, apart, 1, last, "in one of two trees")
    net = grown(t, MOST, forked, array("I", [2]) + up + array("I", [ABSENT]), "two leaves")
    separated(t, net, forked, 0, 1, up, "all above both")
    related(t, net, forked, last, last, "the top itself")
    for one, other in ((0, MOST), (MOST, 0)):
        t.same(separate(net, one, other, array("I", [0, 0, 0]))[::2], (4, [7, 7]), "a rank too many")


@test(at_least=30)
def longest_separated_list(t):
    """A list of 16,000,000 edges is compared; one more is 20, before 23 and 31, unless an edge of it is faulty or a
    rank is."""
    edges, net = a_full_list()
    separated(t, net, edges, 0, 1, array("I", [2]))
    related(t, net, edges, 0, 2)
    edges += array("I", [1, 2, 1])
    for other in (1, 0):
        number, after, cells = separate(net, 0, other, edges)
        t.same((number, cells), (20, [7, 7]), other)
        written = CALLS["separate"].named("written")
        t.same([list(after[name]) for name in written], [[7, 7, 7]] * 3, "as they were")
    for last, number in FAULTY_LASTS:
        edges[-3:] = array("I", last)
        t.same(separate(net, 0, 1, edges)[::2], (number, [7, 7]), last)
        t.same(separate(net, 3, 1, edges)[0], 4, "a rank too many", last)


@test(at_least=12)
def widest_index(t):
    """A path of 1,000,000 vertices, its first half old and its second added. Its runs are its own neighbours; the ends
    have one."""
    last, none = MOST - 1, zeros(0)
    path = edge_list(((x, x + 1) for x in range(last)), 6)
    half = 3 * (last // 2)
    number, starts, neighbours = made_index(MOST, path[:half], path[half:])
    t.same(number, 0)
    t.true(starts == zeros(1) + array("I", range(1, 2 * last, 2)) + array("I", [2 * last]), "starts")
    t.true(neighbours[0:1] + neighbours[2::2] == array("I", [1]) + array("I", range(2, MOST)), "neighbours above")
    t.true(neighbours[1::2] == array("I", range(last)), "neighbours below")
    for rank, neighbours_of in ((0, [1]), (1, [0, 2]), (last - 1, [last - 2, last]), (last, [last - 1])):
        t.same(asked(starts, neighbours, rank), (0, array("I", neighbours_of)), rank)
    t.same(asked(starts, neighbours, MOST), (4, none))
    starts[last] = 2 * last + 1
    t.same(asked(starts, neighbours, 0), (30, none), "a start far behind the run is wrong")
    t.same(made_index(MOST + 1, path[:half], path[half:])[0], 1)
    t.same(asked(zeros(MOST + 2), none, 0), (1, none))
    t.same(asked(zeros(MOST + 1), none, last), (0, none), "no edges")


@test(at_least=22)
def longest_index(t):
    """16,000,000 edges in two lists are accepted; one more, in whichever list, is 20, unless an edge is faulty."""
    half = calls.MAX_TIES // 2
    old_edges, added = array("I", [0, 2, 6]) * half, array("I", [2, 1, 1]) * half
    number, starts, neighbours = made_index(3, old_edges, added)
    t.same((number, list(starts)), (0, [0, half, 2 * half, 4 * half]))
    t.true(neighbours == array("I", [2]) * (2 * half) + zeros(half) + array("I", [1]) * half, "runs")
    for rank in range(3):
        t.true(asked(starts, neighbours, rank) == (0, neighbours[starts[rank]:starts[rank + 1]]), rank)
    all_old = old_edges + added + added[:3]
    for lists in ((old_edges + added[:3], added), (old_edges, added + old_edges[:3]), (all_old, zeros(0))):
        number, starts, neighbours = made_index(3, *lists)
        t.same((number, list(starts)), (20, [7] * 4), "as they were")
        t.same(neighbours.count(7), len(neighbours), "as they were")
    added += array("I", [1, 2, 1])
    for last, number in FAULTY_LASTS:
        added[-3:] = array("I", last)
        t.same(made_index(3, old_edges, added)[0], number, last)
    old_edges[-2] = 0
    t.same(made_index(3, old_edges, added)[0], 5, "the old list comes first")
    old_edges[-2:] = array("I", [2, 7])
    added[0] = 3
    t.same(made_index(3, old_edges, added)[0], 32, "the old list comes first")

"""Document 01, Terms, with the rows of document 02, Paper 6: the forest, loads, above and under, reach. A tie is two
ranks and its rows; a tie list may be flat."""

ABSENT = 0xFFFFFFFF


def tie_count(flat):
    """How many ties a flat list has, three numbers to a tie; what is left at its end makes none."""
    return len(flat) // 3


def ties_of(flat):
    return [(flat[3 * i], flat[3 * i + 1], flat[3 * i + 2]) for i in range(tie_count(flat))]


def pairs_of(ties):
    """The ranks that ties join: rows have no part in the forest."""
    return [(a, b) for a, b, _ in ties]


def parents_of(n, pairs):
    """The elimination game on pairs of ranks: eliminate ranks upward. At x, let S be the higher neighbours of x, added
    ones included; make all of S neighbours of each other; the parent of x is the lowest of S, or none if S is empty."""
    neighbours = [set() for _ in range(n)]
    for a, b in pairs:
        neighbours[a].add(b)
        neighbours[b].add(a)
    parents = []
    for x in range(n):
        higher = {y for y in neighbours[x] if y > x}
        for y in higher:
            neighbours[y] |= higher - {y}
        parents.append(min(higher, default=ABSENT))
    return parents


def loads_of(n, ties):
    """Load of x: the sum of the rows of the ties whose lower end is x, repeats counted."""
    loads = [0] * n
    for a, b, rows in ties:
        loads[min(a, b)] += rows
    return loads


def net_of(n, ties):
    """The parents and the loads that ties give."""
    return parents_of(n, pairs_of(ties)), loads_of(n, ties)


def links(parents):
    """The links of a table of parents: each rank that has a parent, with it."""
    return [(x, p) for x, p in enumerate(parents) if p != ABSENT]


def above(parents, x):
    """The marks reached from x by one or more parents, lowest first."""
    found = []
    while parents[x] != ABSENT:
        x = parents[x]
        found.append(x)
    return found


def reaches(parents, ties):
    """Reach of each x: how many marks above x have a tie with a mark under x. "Under x" means x itself or having x
    above."""
    over = [above(parents, x) for x in range(len(parents))]
    is_over = [set(marks) for marks in over]
    reached = [set() for _ in parents]
    for a, b, _ in ties:
        for u, y in ((a, b), (b, a)):
            for x in [u] + over[u]:
                if y in is_over[x]:
                    reached[x].add(y)
    return [len(marks) for marks in reached]

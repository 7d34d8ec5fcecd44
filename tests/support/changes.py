"""Changes to an input that make a fault of it. One writes into the input in place, and may be put on top of others that
are decided later. Faults are triples of a number, a name and a change."""

from oracle.forest import ABSENT

# rows that no edge has: next to those that one may have, and such whose lowest bytes alone would do
BAD_ROWS = (0, 7, 256, 65_537, 2**31 + 1, ABSENT)


def put(table, place, value):
    def change(given):
        given[table] = list(given[table])
        given[table][place] = value(given) if callable(value) else value

    return change


def resize(table, by):
    def change(given):
        if by < 0 and not given[table]:
            raise IndexError("already empty")
        length = len(given[table]) + by
        given[table] = (list(given[table]) + [1] * max(by, 0))[:max(length, 0)]

    return change


def in_turn(*changes):
    def change(given):
        for its in changes:
            its(given)

    return change


def resize_all(by, *tables):
    """Several tables alike, so that their lengths still fit each other."""
    return in_turn(*(resize(table, by) for table in tables))


def set_number(name, value):
    def change(given):
        given[name] = value

    return change


def rank_faults(rank, n_of):
    """Of a rank that is asked for."""
    for beyond in (0, 1, 1000):
        yield 4, f"{rank} n + {beyond}", lambda g, b=beyond: set_number(rank, n_of(g) + b)(g)
    yield 4, f"{rank} far out", set_number(rank, ABSENT)


def edge_faults(edges, n_of):
    """Of a list, given how n is told by the input."""
    for place in (0, 3, -3):
        yield 4, f"first end of {edges} {place} is n", put(edges, place, n_of)
        yield 4, f"second end of {edges} {place} is far out", put(edges, place + 1, ABSENT)
        yield 5, f"{edges} {place} is a loop", put(edges, place, lambda g, p=place: g[edges][p + 1])
        for rows in BAD_ROWS:
            yield 32, f"{edges} {place} has {rows} rows", put(edges, place + 2, rows)
    yield 4, f"{edges} 3 is n and n", in_turn(put(edges, 3, n_of), put(edges, 4, n_of))


def part_edges(edges):
    """A list with part of an edge more, or without part of its last."""
    for by in (1, 2, -1, -2):
        yield 2, f"{edges} {by:+} numbers", resize(edges, by)

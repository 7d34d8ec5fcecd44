"""Document 02, Paper 1: runs of neighbours. The runs are found as the drawing desk found them, by a scan of the whole
list for each rank. Calls answer as those of document 01 do."""

from .calls import MAX_TIES, bad_count, fault, not_whole
from .forest import tie_count, ties_of


def run_of(rank, ties):
    """The neighbours of a rank in list order, repeats included."""
    return [b if a == rank else a for a, b, _ in ties if rank in (a, b)]


def index_of(n, ties):
    """All runs laid end to end by rising rank, and beside them a table of n + 1 run starts, the last being the end of
    the last run."""
    starts, neighbours = [], []
    for rank in range(n):
        starts.append(len(neighbours))
        neighbours += run_of(rank, ties)
    return starts + [len(neighbours)], neighbours


def bad_starts(starts):
    """The index's n is its number of starts less one, and no starts at all is 2."""
    if not starts:
        return 2
    return 1 if bad_count(len(starts) - 1) else 0


def index_refusal(old, added, starts, neighbours):
    if bad_starts(starts):
        return bad_starts(starts)
    if not_whole(old) or not_whole(added):
        return 2
    ties = tie_count(old) + tie_count(added)
    if len(neighbours) != 2 * ties:
        return 2
    number = fault(len(starts) - 1, list(old) + list(added))
    if number:
        return number
    return 20 if ties > MAX_TIES else 0


def index(old, added, starts, neighbours):
    number = index_refusal(old, added, starts, neighbours)
    if number:
        return number, starts, neighbours
    return 0, *index_of(len(starts) - 1, ties_of(old) + ties_of(added))


def rise(starts, last):
    """Whether the starts go from 0 up to a number without falling."""
    return starts[0] == 0 and starts[-1] == last and sorted(starts) == list(starts)


def query_refusal(starts, neighbours, rank):
    if bad_starts(starts):
        return bad_starts(starts)
    if not rise(starts, len(neighbours)):
        return 30
    return 4 if rank >= len(starts) - 1 else 0


def query(starts, neighbours, rank):
    """A part of the index is told by where it starts and by its length; a refused query hands back an empty part, at
    0."""
    number = query_refusal(starts, neighbours, rank)
    if number:
        return number, 0, 0
    return 0, starts[rank], starts[rank + 1] - starts[rank]

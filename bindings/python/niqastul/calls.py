"""The calls of the shared library: what is lent to them, and what they refuse."""

import contextlib
import ctypes
import functools
import operator
import re

from .loading import load
from .tables import BYTES_READ, BYTES_WRITTEN, WORDS_READ, WORDS_WRITTEN, address, copied, lend

# The name carries the version of the header: a library of another version takes other arguments than those below.
LIBRARY = "libniqastul.so.0.8"

# What each call is lent, in the order of include/niqastul.h: `name` is a table that is read, `name!` one that is
# written, `name:` and `name:!` are such tables of bytes, and `name#` is a number or a cell.
CALLS = {
    "relabel": "order edges out! inverse!",
    "start": "parents! weights!",
    "add": "parents! weights! edges ends! jump! lower! moved#",
    "join": "parents! weights! other.parents other.weights ends! jump! lower! moved#",
    "save": "parents weights saved:!",
    "read": "parents! weights! saved:",
    "divide": "parents weights limit# blocks# carried! top! block! block_loads!",
    "report": "parents weights limit# blocks# edges carried! top! block! block_loads! edge_blocks! reach! block_count! "
              "edges_taken! compared_parents! compared_weights! ends! jump! lower! bound# volume# quotient# remainder#",
    "separate": "parents weights one# other# edges separator! compared_parents! compared_weights! ends! jump! lower! "
                "count# lowest#",
    "index": "edges added starts! runs!",
    "query": "starts runs rank# first# count#",
}

KINDS = {"": WORDS_READ, "!": WORDS_WRITTEN, ":": BYTES_READ, ":!": BYTES_WRITTEN, "#": None}

# the texts of niqastul_text in include/niqastul.h
REASONS = {
    1: "no vertex, or more than 1,000,000",
    2: "a table of the wrong length, or an edge list that is not whole edges",
    3: "an entry of the order is out of range or repeats",
    4: "an edge or a query names a vertex out of range",
    5: "both ends of an edge are one vertex",
    6: "not whole records, or not as many as the net has vertices",
    7: "a record's parent is neither absent nor above its vertex",
    8: "a limit or a number of blocks out of range",
    20: "more than 16,000,000 edges in a list, or 96,000,000 rows in all",
    21: "two nets with different numbers of vertices",
    22: "a weight above the limit",
    23: "the edges are not those of the net",
    30: "a net or an index whose tables are damaged",
    31: "the two ranks are equal, or one stands above the other",
    32: "the rows of an edge are not 1 to 6",
}

MAX_RANK = 0xFFFFFFFF
MAX_VERTICES = 1_000_000


class Refused(ValueError):
    """A call was refused; `number` is that of include/niqastul.h."""

    def __init__(self, number):
        super().__init__(f"refused {number}: {REASONS[number]}")
        self.number = number


def integer(name, number):
    try:
        return operator.index(number)
    except TypeError:
        raise TypeError(f"{name}: an integer, not {type(number).__name__}") from None


def within(name, number, most):
    """A number from 1, or 0 if it is out of range: that is refused alike, and fits the word."""
    number = integer(name, number)
    return number if 0 < number <= most else 0


def rank_word(name, rank):
    """A rank as it is passed: what does not fit the word is no vertex, and neither is its last number."""
    rank = integer(name, rank)
    return rank if 0 <= rank <= MAX_RANK else MAX_RANK


def call(name, *given):
    """Lends tables, numbers and cells to a call, and raises its refusal. Tables are held until it has returned, and no
    longer."""
    kinds = parameters(name)
    lent = dict(zip(kinds, given))
    with contextlib.ExitStack() as held:
        views = {its: held.enter_context(lend(its, kind, lent[its])) for its, kind in kinds.items() if kind}
        for its in shared(kinds, views):
            views[its] = held.enter_context(copied(kinds[its], views[its]))
        lent.update(views)
        number = getattr(library(), "niqastul_" + name)(*(word for its in lent.values() for word in words(its)))
    if number:
        raise Refused(number)


@functools.lru_cache(maxsize=None)
def parameters(name):
    """The kind of each parameter of a call by its name, in their order."""
    marked = (re.fullmatch(r"([\w.]+)(\W*)", word) for word in CALLS[name].split())
    return {its[1]: KINDS[its[2]] for its in marked}


def shared(kinds, views):
    """The tables that a call reads and that share memory with one that it writes: it has to be lent copies of them,
    since it is proved for tables that lie apart. Two that it writes are an error: one of them would come out wrong."""
    read = []
    for pair in overlaps(views):
        written = [its for its in pair if kinds[its].written]
        if len(written) == 2:
            raise ValueError(f"{' and '.join(pair)} share memory, and the call writes both")
        read += set(pair).difference(written) if written else ()
    return read


def overlaps(views):
    """The pairs of tables that share memory: by rising address, each with those before it that have not ended."""
    places = sorted((address(view), address(view) + view.nbytes, its) for its, view in views.items() if view)
    before = []
    for start, end, its in places:
        before = [(until, other) for until, other in before if start < until]
        yield from ((other, its) for _, other in before)
        before.append((end, its))


def words(its):
    """What a table, a number or a cell is passed as."""
    if isinstance(its, memoryview):
        return [ctypes.c_void_p(address(its)) if its else None, ctypes.c_size_t(len(its))]
    return [ctypes.c_uint32(its) if isinstance(its, int) else ctypes.byref(its)]


@functools.lru_cache(maxsize=None)
def library():
    """Loaded at the first call, so that help and what needs no library do without."""
    return load(LIBRARY)

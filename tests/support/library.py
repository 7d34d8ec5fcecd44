"""The shared library, call by call, and what the oracle expects of it.

`Call.run` lends each table with guards before and behind it, and compares the answer, every entry of every table
afterwards and the guards with what is expected: the whole of what a call may do and may not do."""

import ctypes
import functools
from array import array

from oracle import between, calls, neighbours
from oracle.forest import tie_count
from support import ROOT, header

PATH = ROOT / "target" / "lib" / "libniqastul.so"

GUARDS = {"I": [0xA5A5A5A5] * 4, "B": [0xA5] * 4, "Q": [0x5A5A5A5A5A5A5A5A] * 2}
GUARD = {code: array(code, entries) for code, entries in GUARDS.items()}

# Who judges each call. An oracle has the tables and numbers of its call in the same order, less the work tables and
# the cells. What is written comes in its answer behind the number, and what goes to the cells comes last.
ORACLES = {
    "relabel": calls.translate,
    "start": calls.start,
    "add": calls.add,
    "join": calls.join,
    "save": calls.save,
    "read": calls.read,
    "divide": calls.divide,
    "report": calls.report,
    "separate": between.separate,
    "index": neighbours.index,
    "query": neighbours.query,
}

# the tables that tell n, where these are not the parents, and by how much they are longer than n
COUNTED = {"relabel": ("order", 0), "index": ("starts", 1), "query": ("starts", 1)}


@functools.cache
def library():
    """Loaded at the first call, so that tests can be listed without it."""
    return ctypes.CDLL(str(PATH))


class Call:
    """Inputs are given by name: a list for each table and each cell, and the numbers."""

    def __init__(self, name):
        self.name, self.parameters, self.oracle = name, header.CALLS[name], ORACLES[name]
        self.kinds = {table: its.kind for table, its in self.parameters.items()}
        self.counted, self.beyond_n = COUNTED.get(name, ("parents", 0))

    @functools.cached_property
    def function(self):
        return getattr(library(), "niqastul_" + self.name)

    def named(self, *kinds):
        return [name for name, its in self.kinds.items() if its in kinds]

    def code(self, table):
        return self.parameters[table].code

    def work_lengths(self, given):
        """How long the work tables have to be; `lower` has room for what the call takes in beside the net."""
        n = len(given[self.counted])
        more = len(given["other_parents"]) if self.name == "join" else tie_count(given.get("edges", ()))
        return {table: n + more if table == "lower" else n for table in self.named("work")}

    def work_end(self, given):
        """The work tables as an accepted call leaves them."""
        if self.name == "relabel":
            return inverse_of(given)
        return {table: [0] * length for table, length in self.work_lengths(given).items()}

    def judge(self, given):
        """The oracle's number, and what it says of the tables and the cells; for None a cell stays as it was."""
        number, *after = self.oracle(*(given[table] for table in self.named("read", "written", "number")))
        written, cells = self.named("written"), self.named("cell")
        tables = dict(zip(written + cells, after, strict=True))
        return number, {name: [its] if name in cells else its for name, its in tables.items() if its is not None}

    def expected(self, given):
        """The number, and every table that is lent to be written, by name. A work table of the wrong length is 2; 23,
        and 31 behind it, are found by growing a net, so that the work tables end as if accepted."""
        number, after = self.judge(given)
        ends = self.work_end(given)
        if number != 1 and any(len(given[name]) != len(ends[name]) for name in ends):
            return 2, {}
        return number, after | ends if number in (0, 23, 31) else after

    def ask(self, given, address):
        """The library's number, of numbers and lengths as they are given; `address` tells where a table begins."""
        words = []
        for name, kind in self.kinds.items():
            if kind == "number":
                words.append(ctypes.c_uint32(given[name]))
                continue
            words.append(ctypes.c_void_p(address(name)))
            if kind != "cell":
                words.append(ctypes.c_size_t(len(given[name])))
        return self.function(*words)

    def run(self, checks, given, *context):
        """Calls the library with copies of the tables and compares; answers the number and the tables afterwards."""
        number, after = self.expected(given)
        tables = [name for name, kind in self.kinds.items() if kind != "number"]
        lent = {name: guarded(self.code(name), given[name]) for name in tables}
        checks.same(self.ask(given, lambda name: begin(lent[name])), number, self.name, given, *context)
        for name, table in lent.items():
            wanted = guarded(table.typecode, after.get(name, given[name]))
            checks.same(table, wanted, self.name, name, given, *context)
        return number, {name: unguarded(table) for name, table in lent.items()}


def guarded(code, table):
    return GUARD[code] + array(code, table) + GUARD[code]


def begin(table):
    """Where a table begins, behind its guard."""
    return table.buffer_info()[0] + table.itemsize * len(GUARD[table.typecode])


def unguarded(table):
    guard = len(GUARD[table.typecode])
    return list(table[guard:-guard])


def inverse_of(given):
    order = given["order"]
    rank = {vertex: place for place, vertex in enumerate(order)}
    return {"inverse": [rank.get(vertex, 0) for vertex in range(len(order))]}


CALLS = {name: Call(name) for name in header.CALLS}

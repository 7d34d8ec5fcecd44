"""What is lent to the library: every kind of object, as every table of every call. Each either does what an array of
the same numbers does, or is an error that names the table and leaves everything as it was. Run by test_niqastul.py."""

import collections
import ctypes
import itertools
import mmap
import pathlib
import re
import resource
import signal
import struct
import subprocess
import sys
import tracemalloc
import unittest
from array import array
from unittest import mock

from niqastul import ABSENT, Index, Net, calls, relabel

HERE = pathlib.Path(__file__).resolve().parent

EDGES = [0, 2, 1, 0, 4, 1, 1, 3, 1, 1, 4, 1, 2, 5, 1, 0, 2, 1]


# ---- The calls ----

def net(parents, weights):
    its = Net(1)
    its.parents, its.weights = parents, weights
    return its


def index(starts, runs):
    its = Index(1, [])
    its.starts, its.runs = starts, runs
    return its


def grown(edges):
    its = Net(6)
    its.add(edges)
    return its


# A call as it is made from Python: the numbers in each of its tables, by name, and the call. The last sign of a name is
# the table's sort: `!` a net's or index's own that is written, `=` one that is read, `?` an argument, `:` one of bytes.
Case = collections.namedtuple("Case", "tables call")

OWN, OTHER, ITS_INDEX = grown(EDGES), grown([0, 1, 1, 3, 5, 6]), Index(6, EDGES)
READ = {"parents=": OWN.parents, "weights=": OWN.weights}
WRITTEN = {"parents!": OWN.parents, "weights!": OWN.weights}

CASES = {
    "add": Case(WRITTEN | {"edges?": [1, 2, 1, 3, 4, 6, 1, 5, 3]}, lambda p, w, edges: net(p, w).add(edges)),
    "join": Case(WRITTEN | {"other.parents=": OTHER.parents, "other.weights=": OTHER.weights},
                 lambda p, w, other_p, other_w: net(p, w).join(net(other_p, other_w))),
    "save": Case(READ, lambda p, w: net(p, w).save()),
    "read": Case(WRITTEN | {"saved:": OTHER.save()}, lambda p, w, saved: net(p, w).read(saved)),
    "divide": Case(READ, lambda p, w: net(p, w).divide(4, 2)),
    "report": Case(READ | {"edges?": EDGES}, lambda p, w, edges: net(p, w).report(4, 2, edges)),
    "separate": Case(READ | {"edges?": EDGES}, lambda p, w, edges: net(p, w).separate(0, 1, edges)),
    "relabel": Case({"order?": [3, 0, 1, 2, 4, 5], "edges?": EDGES}, relabel),
    "index": Case({"edges?": EDGES, "added?": EDGES[:6]}, lambda edges, added: vars(Index(6, edges, added))),
    "neighbours": Case({"starts=": ITS_INDEX.starts, "runs=": ITS_INDEX.runs},
                       lambda starts, runs: list(index(starts, runs).neighbours(0))),
}


# ---- The kinds of objects ----

def raw(numbers, size):
    """Numbers of a size as they stand in memory, cut off where they do not fit."""
    return b"".join((number % 256 ** size).to_bytes(size, sys.byteorder) for number in numbers)


def placed(data, memory):
    """A view of bytes in memory that a function sets aside."""
    view = memoryview(memory(len(data)))
    view[:] = data
    return view


def address(buffer):
    return ctypes.addressof((ctypes.c_char * 0).from_buffer(buffer))


def array_in(code, numbers):
    its = array(code)
    its.frombytes(raw(numbers, its.itemsize))
    return its


def unaligned(numbers, memory):
    data = raw(numbers, 4)
    view = placed(data + b"\0", memory)
    view = next(view[at:len(data) + at] for at in (0, 1) if address(view[at:]) % 4)
    view[:] = data
    return view.cast("I")


def enlarged(its):
    """An array of ctypes with more memory than entries."""
    ctypes.resize(its, 2 * ctypes.sizeof(its))
    return its


def released(view):
    view.release()
    return view


def closed():
    its = mmap.mmap(-1, mmap.PAGESIZE)
    its.close()
    return its


class Lying(array):
    """An array that says other things of itself than its buffer."""

    def __len__(self):
        return 1_000_000

    def __getitem__(self, place):
        return 7

    def __iter__(self):
        return iter([7] * 7)


class Row:
    """A row of numbers that is no buffer, and lies about its length."""

    def __init__(self, numbers):
        self.numbers = numbers

    def __len__(self):
        return 1_000_000

    def __iter__(self):
        return iter(self.numbers)


class Exporting(Row):
    """A buffer made in Python, from 3.12 on."""

    def __init__(self, numbers):
        super().__init__(array("I", numbers))

    def __buffer__(self, flags):
        return memoryview(self.numbers)


CTYPES = {name: getattr(ctypes, name) for name in (
    "c_char", "c_uint8", "c_int8", "c_uint16", "c_int32", "c_uint32", "c_uint64", "c_float", "c_double")}
CTYPES["other byte order"] = getattr(ctypes.c_uint32, "__ctype_be__" if sys.byteorder == "little" else "__ctype_le__")

# how an object of each kind is made of numbers, in memory that a function sets aside if the kind can be placed
KINDS = {
    **{f"array {code}": lambda numbers, memory, code=code: array_in(code, numbers) for code in "bBuhHiIlLqQfd"},
    **{f"view {code}": lambda numbers, memory, code=code:
       placed(raw(numbers, struct.calcsize(code)), memory).cast(code) for code in "cbB?hHiIlLqQnNfdP"},
    **{name: lambda numbers, memory, its=its: (its * len(numbers)).from_buffer(
        placed(raw(numbers, ctypes.sizeof(its)), memory)) for name, its in CTYPES.items()},
    "lying array": lambda numbers, memory: Lying("I", raw(numbers, 4)),
    "bytes": lambda numbers, memory: raw(numbers, 1),
    "bytearray": lambda numbers, memory: bytearray(raw(numbers, 1)),
    "read-only": lambda numbers, memory: placed(raw(numbers, 4), memory).toreadonly().cast("I"),
    "read-only bytes": lambda numbers, memory: placed(raw(numbers, 1), memory).toreadonly(),
    "view of bytes": lambda numbers, memory: memoryview(raw(numbers, 4)).cast("I"),
    "unaligned": unaligned,
    "with gaps": lambda numbers, memory: placed(raw(numbers, 8), memory).cast("I")[::2],
    "backwards": lambda numbers, memory: placed(raw(numbers, 4), memory).cast("I")[::-1],
    "two-dimensional": lambda numbers, memory: placed(raw(numbers, 4), memory).cast("I", (len(numbers), 1)),
    "resized ctypes": lambda numbers, memory: enlarged((ctypes.c_uint32 * len(numbers))(*numbers)),
    "one number": lambda numbers, memory: ctypes.c_uint32(7),
    "released view": lambda numbers, memory: released(memoryview(array("I", numbers))),
    "closed mmap": lambda numbers, memory: closed(),
    "row": lambda numbers, memory: Row(numbers),
    "list": lambda numbers, memory: list(numbers),
    "tuple": lambda numbers, memory: tuple(numbers),
    "generator": lambda numbers, memory: iter(list(numbers)),
    "list of floats": lambda numbers, memory: [float(number) for number in numbers],
    "None": lambda numbers, memory: None,
    "int": lambda numbers, memory: len(numbers),
    "float": lambda numbers, memory: 1.5,
    "str": lambda numbers, memory: "0" * len(numbers),
    "net": lambda numbers, memory: Net(len(numbers)),
}
if sys.version_info >= (3, 12):
    KINDS["made in Python"] = lambda numbers, memory: Exporting(numbers)

WORDS = {"array I", "view I", "c_uint32", "lying array", "made in Python"}
WORDS |= {"array L", "view L"} if struct.calcsize("L") == 4 else set()
COPIED = {"read-only", "view of bytes", "unaligned"}
ROWS = {"row", "list", "tuple", "generator"}
BYTES = {"bytes", "bytearray", "array B", "view B", "view c", "c_uint8", "c_char", "read-only bytes"}

# the kinds that each sort of table may be; all others are errors
TAKEN = {"!": WORDS, "=": WORDS | COPIED, "?": WORDS | COPIED | ROWS, ":": BYTES}

# each kind with the right numbers, and some also with too few and too many
LENGTHS = [lambda numbers: numbers[:-1], lambda numbers: numbers + [0], lambda numbers: numbers * 4, lambda numbers: []]
ANY_LENGTH = ("array I", "view I", "lying array", "read-only", "list", "bytes", "bytearray", "view B", "array L")
TRIED = [(kind, list) for kind in KINDS] + list(itertools.product(ANY_LENGTH, LENGTHS))


# ---- One call, and what comes of it ----

def bytes_of(name, numbers):
    """What stands in the memory of a table that is right."""
    return raw(numbers, 1 if name.endswith(":") else 4)


def right(name, data, memory=bytearray):
    """A table that is right; in memory that a function sets aside, if it is not to be any that Python has."""
    if memory is bytearray:
        return data if name.endswith(":") else array("I", data)
    return placed(data, memory) if name.endswith(":") else placed(data, memory).cast("I")


def outcome(call, tables):
    """What a call answers, or the error that it raises: with its traceback, and so with all that this still holds."""
    try:
        return call(*tables)
    except (TypeError, ValueError) as error:
        return error


def alike(one, other):
    return repr(one) == repr(other) if isinstance(one, Exception) else one == other


def contents(its):
    try:
        with memoryview(its) as view:
            return view.tobytes()
    except (TypeError, ValueError):
        return list(its) if isinstance(its, (list, tuple)) else None


def resize(its):
    """Makes a table longer and shorter again, which fails as long as somebody holds its buffer."""
    if isinstance(its, array):
        array.frombytes(its, bytes(its.itemsize))
        array.pop(its)
    elif isinstance(its, bytearray):
        its.append(0)
        its.pop()


def try_all(memory):
    """Every kind as every table of every call; answers how many that were."""
    tables = [(case, name) for case in CASES for name in CASES[case].tables]
    for (case, name), (kind, length) in itertools.product(tables, TRIED):
        numbers = CASES[case].tables | {name: length(list(CASES[case].tables[name]))}
        lent = {its: right(its, bytes_of(its, numbers[its]), memory) for its in numbers}
        lent[name] = KINDS[kind](numbers[name], memory)
        after = {its: contents(lent[its]) for its in lent}
        found = outcome(CASES[case].call, lent.values())
        if kind in TAKEN[name[-1]]:
            compared = {its: right(its, bytes_of(its, numbers[its])) for its in numbers}
            assert alike(found, outcome(CASES[case].call, compared.values())), (case, name, kind, found)
            after |= {its: contents(compared[its]) for its in compared if its.endswith("!")}
        else:
            assert isinstance(found, TypeError) and str(found).startswith(name[:-1] + ": "), (case, name, kind, found)
        assert {its: contents(lent[its]) for its in lent} == after, (case, name, kind)
        for its in lent.values():
            resize(its)
    return len(tables) * len(TRIED)


# ---- Memory that ends ----

def guarded(size):
    """Memory that ends where a page begins that kills whoever touches it."""
    pages = -(-size // mmap.PAGESIZE) * mmap.PAGESIZE or mmap.PAGESIZE
    memory = mmap.mmap(-1, pages + mmap.PAGESIZE)
    libc = ctypes.CDLL(None, use_errno=True)
    if libc.mprotect(ctypes.c_void_p(address(memory) + pages), ctypes.c_size_t(mmap.PAGESIZE), 0):
        raise OSError(ctypes.get_errno(), "mprotect")
    return memoryview(memory)[pages - size:pages]


def read_guarded(size, more):
    """Reads guarded memory, and more."""
    resource.setrlimit(resource.RLIMIT_CORE, (0, 0))
    memory = guarded(size)
    return ctypes.string_at(address(memory), size + more)


def ran(code):
    """How a Python ends that runs a line of this file, and what it says."""
    command = [sys.executable, "-c", f"import test_buffers as its; its.{code}"]
    run = subprocess.run(command, cwd=HERE, capture_output=True, text=True)
    return run.returncode, run.stdout + run.stderr


# ---- Numbers ----

# what a number is called, a call that takes it, and how a number out of range is refused
NUMBERS = [
    ("vertices", lambda number: vars(Net(number)), 1),
    ("vertices", lambda number: vars(Index(number, [])), 1),
    ("limit", lambda number: OWN.divide(number, 2), 8),
    ("limit", lambda number: OWN.report(number, 2, EDGES), 8),
    ("blocks", lambda number: OWN.divide(4, number), 8),
    ("blocks", lambda number: OWN.report(4, number, EDGES), 8),
    ("one", lambda number: OWN.separate(number, 0, EDGES), 4),
    ("other", lambda number: OWN.separate(0, number, EDGES), 4),
    ("rank", ITS_INDEX.neighbours, 4),
]


class One:
    def __index__(self):
        return 1


class Buffers(unittest.TestCase):
    def test_every_kind_as_every_table(self):
        for case, (tables, call) in CASES.items():
            answer = outcome(call, [right(name, bytes_of(name, tables[name])) for name in tables])
            self.assertNotIsInstance(answer, Exception, case)
        self.assertGreater(try_all(bytearray), 2000)

    def test_no_call_leaves_its_tables(self):
        """The same with tables that end where memory ends; and that such an end holds."""
        self.assertEqual(ran("try_all(its.guarded)"), (0, ""))
        for size in (1, 4, mmap.PAGESIZE):
            self.assertEqual(ran(f"read_guarded({size}, 0)"), (0, ""))
            self.assertEqual(ran(f"read_guarded({size}, 1)"), (-signal.SIGSEGV, ""))

    def test_tables_that_share_memory(self):
        for case, (tables, call) in CASES.items():
            data = {name: bytes_of(name, tables[name]) for name in tables}
            for one, other in itertools.permutations(data, 2):
                for shift in (0, 4, len(data[one]) - 4, len(data[one])):
                    with self.subTest(case=case, one=one, other=other, shift=shift):
                        self.share(call, data, {one: 0, other: shift}, shift < len(data[one]))

    def share(self, call, data, places, overlapping):
        """Two tables in one memory do what copies of them do, unless they overlap and the call writes both."""
        memory, parts = bytearray(sum(map(len, data.values()))), {}
        for name, place in places.items():
            parts[name] = memoryview(memory)[place:place + len(data[name])]
            parts[name][:] = data[name]
        before = bytes(memory)
        compared = {name: right(name, bytes(parts.get(name, data[name]))) for name in data}
        lent = {name: right(name, data[name]) for name in data}
        lent |= {name: part if name.endswith(":") else part.cast("I") for name, part in parts.items()}
        found = outcome(call, lent.values())
        if overlapping and all(name.endswith("!") for name in places):
            self.assertIs(type(found), ValueError)
            self.assertTrue(all(name[:-1] in str(found) for name in places), found)
            self.assertEqual(memory, before)
        else:
            self.assertTrue(alike(found, outcome(call, compared.values())), found)
            for name in data:
                if name.endswith("!"):
                    self.assertEqual(contents(lent[name]), contents(compared[name]))

    def test_a_table_between_two_that_share_memory(self):
        memory = memoryview(array("I", range(9)))
        with self.assertRaisesRegex(ValueError, "^parents and weights "):
            net(memory[:6], memory[3:]).add(memory[1:4])
        self.assertEqual(memory.tolist(), list(range(9)))

    def test_tables_are_held_while_a_call_runs(self):
        its, edges, held = Net(6), array("I", EDGES), []

        def add(*words):
            for table in (its.parents, its.weights, edges):
                with self.assertRaises(BufferError):
                    table.append(0)
                held.append(table)
            return 0

        with mock.patch.object(calls, "library", lambda: mock.Mock(niqastul_add=add)):
            its.add(edges)
        self.assertEqual(len(held), 3)
        for table in held:
            table.append(0)

    def test_tables_resized_between_calls(self):
        its = grown(EDGES)
        its.parents.append(ABSENT)
        self.assertEqual(outcome(its.add, [EDGES]).number, 2)
        its.weights.append(0)
        self.assertEqual(its.add([0, 6, 1]), 5)
        del its.parents[:6], its.weights[:6]
        self.assertEqual(len(its.save()), 8)
        its.parents, its.weights = array("I"), array("I")
        self.assertEqual(outcome(its.save, []).number, 1)

    def test_tables_that_are_gone(self):
        own = [lambda its: its.add(EDGES), lambda its: its.join(OWN), OWN.join, Net.save, lambda its: its.read(b""),
               lambda its: its.divide(4, 2), lambda its: its.report(4, 2, EDGES), lambda its: its.separate(0, 1, EDGES)]
        of_nets = [(Net(6), name, call) for name in ("parents", "weights") for call in own]
        of_indexes = [(Index(6, EDGES), name, lambda its: its.neighbours(0)) for name in ("starts", "runs")]
        for its, name, call in of_nets + of_indexes:
            delattr(its, name)
            with self.assertRaisesRegex(AttributeError, name):
                call(its)

    def test_join_takes_nets(self):
        for other in (None, 5, "net", [], ITS_INDEX, Net):
            with self.assertRaisesRegex(TypeError, "^other: "):
                OWN.join(other)

    def test_numbers(self):
        for name, call, refusal in NUMBERS:
            for number in (1.0, "1", b"1", None, [1], 1j, object(), array("I", [1])):
                with self.assertRaisesRegex(TypeError, f"^{name}: "):
                    call(number)
            for number in (-1, 10 ** 9, 2 ** 32, 2 ** 32 + 1, 2 ** 64 + 1, 2 ** 70):
                self.assertEqual(outcome(call, [number]).number, refusal)
            for number in (True, One()):
                self.assertTrue(alike(outcome(call, [number]), outcome(call, [1])))

    def test_entries_that_fit_no_word(self):
        for number in (-1, 2 ** 32, 2 ** 70):
            with self.assertRaisesRegex(OverflowError, "^edges: "):
                OWN.add([0, 1, number])

    def test_too_many_vertices_take_no_memory(self):
        tracemalloc.start()
        self.addCleanup(tracemalloc.stop)
        for call, number in itertools.product((Net, lambda its: Index(its, [])), (1_000_001, 10 ** 9, 2 ** 70)):
            self.assertEqual(outcome(call, [number]).number, 1)
        self.assertLess(tracemalloc.get_traced_memory()[1], 2 ** 20)

    def test_calls_are_lent_what_the_header_says(self):
        header = (HERE.parents[1] / "include" / "niqastul.h").read_text()
        declared = dict(re.findall(r"^uint32_t niqastul_(\w+)\((.*?)\);", header, re.S | re.M))
        self.assertEqual(set(declared), set(calls.CALLS))
        for name, text in declared.items():
            lent = re.findall(r"(const )?uint(\d+)_t \*?\w+(, size_t)?", text)
            marks = [{"32": "", "8": ":"}[of] + "!" * (not const) if table else "#" for const, of, table in lent]
            self.assertEqual(re.sub(r"[\w.]", "", calls.CALLS[name]).split(" "), marks, name)


if __name__ == "__main__":
    unittest.main()

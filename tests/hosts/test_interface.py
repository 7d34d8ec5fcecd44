"""The header compiles as C and as C++; limits are those of the documents; answers have one text and the hosts one
version; and what pointers and lengths may be."""

import ast
import ctypes
import mmap
import re
import subprocess
import sys
import tempfile

from oracle import calls
from oracle.forest import ABSENT
from support import ROOT, header
from support.compiled import LANGUAGES, printed
from support.harness import test
from support.library import PATH, library

RUST, PYTHON = ROOT / "bindings" / "rust", ROOT / "bindings" / "python"


@test(at_least=6)
def constants(t):
    """The header's numbers, as a C program prints them."""
    source = """#include <stdio.h>
    #include "niqastul.h"
    int main(void) {
        printf("%u %u %u %u %u %u", NIQASTUL_ABSENT, NIQASTUL_MAX_VERTICES, NIQASTUL_MAX_EDGES, NIQASTUL_MAX_TOTAL,
               NIQASTUL_MAX_LIMIT, NIQASTUL_MAX_BLOCKS);
        printf(" %u %u %u %u", NIQASTUL_STRIDE, NIQASTUL_MAX_ROWS, (unsigned)niqastul_add_lower(5, 8),
               (unsigned)niqastul_join_lower(5, 8));
        printf(" %u %u", (unsigned)niqastul_index_neighbours(5, 7), (unsigned)niqastul_bytes(5));
    }"""
    numbers = (ABSENT, calls.MAX_MARKS, calls.MAX_TIES, calls.MAX_TOTAL, calls.MAX_LIMIT, calls.MAX_BLOCKS)
    numbers += (3, calls.MAX_ROWS, 7, 13, 6, 40)
    for language in LANGUAGES:
        t.same(printed(language, source).split(), [str(x) for x in numbers], language)
    answers = [int(number) for number in re.findall(r"^    NIQASTUL_\w+ = (\d+)", header.TEXT, flags=re.M)]
    t.same(answers, [0] + calls.ORDER, "the header lists the answers in the order of decision")
    t.same(len(set(answers)), len(answers), "each once")


DEFINED = re.findall(r"^#define NIQASTUL_(?!VERSION)(\w+) (?:UINT32_C\()?(\w+)", header.TEXT, flags=re.M)


def in_python(expression):
    """What an expression is worth where the Python package is imported."""
    words = [sys.executable, "-c", f"import niqastul, niqastul.calls; print({expression})"]
    return ast.literal_eval(subprocess.run(words, cwd=PYTHON, check=True, capture_output=True, text=True).stdout)


@test(at_least=2)
def constants_of_bindings(t):
    """The Rust crate and the Python package have the header's constants."""
    source = (RUST / "src" / "lib.rs").read_text()
    t.same(re.findall(r"^pub const (\w+): \w+ = (\w+);", source.replace("_", ""), flags=re.M),
           [(name.replace("_", ""), number) for name, number in DEFINED])
    t.same(in_python(f"[niqastul.{', niqastul.'.join(name for name, _ in DEFINED)}]"),
           [int(number, 0) for _, number in DEFINED])


def python_texts():
    """The text of each refusal by its number, as the Python package has it."""
    return in_python("niqastul.calls.REASONS")


def rust_texts():
    source = (RUST / "src" / "lib.rs").read_text()
    numbers = re.findall(r"^    (\w+) = (\d+),$", source, flags=re.M)
    texts = dict(re.findall(r'^ +(\w+) => "(.+)",$', source, flags=re.M))
    return {int(number): texts[name] for name, number in numbers}


def rattle_texts():
    source = (ROOT / "crates" / "refusal" / "src" / "kinds.rt").read_text()
    numbers = re.findall(r"^    (\w+) = (\d+),$", source, flags=re.M)
    texts = dict(re.findall(r'^ +Refusal::(\w+) =>\s+"(.+)",$', source, flags=re.M))
    return {int(number): texts[name] for name, number in numbers}


@test(at_least=24)
def texts(t):
    """Each answer has one text in C, in Python, in Rust and in Rattle, and another one than any other answer."""
    source = """#include <stdio.h>
    #include "niqastul.h"
    int main(void) { for (uint32_t number = 0; number < 100; number++) puts(niqastul_text(number)); return 0; }"""
    known = {0: "accepted"} | python_texts()
    t.same(sorted(known), sorted([0] + calls.ORDER))
    t.same(len(set(known.values())), len(known))
    t.same(rust_texts(), python_texts())
    t.same(rattle_texts(), python_texts())
    for language in LANGUAGES:
        shown = printed(language, source).splitlines()
        t.same(shown, [known.get(number, "unknown answer") for number in range(100)], language)
    for number, text in known.items():
        t.true(re.fullmatch(r"[ -~]{5,70}", text), number, text)


@test(at_least=1)
def wanted_from_outside(t):
    """What the archive for C asks its host for: `memset`, and nothing else."""
    archive = PATH.parent / "libniqastul.a"
    shown = subprocess.run(["nm", "-u", archive], check=True, capture_output=True, text=True).stdout
    t.same(re.findall(r"^ +U (\w+)$", shown, flags=re.M), ["memset"])


NONE = None, ctypes.c_size_t(0)


def lent(*entries):
    """A table, and its pointer and its length as they are passed."""
    table = (ctypes.c_uint32 * len(entries))(*entries)
    return table, (table, ctypes.c_size_t(len(entries)))


@test(at_least=8)
def no_pointer(t):
    """The pointer of a table of length 0 is not followed."""
    entries, table = lent(5, 5)
    t.same(library().niqastul_start(*NONE, *NONE), 1)
    t.same(library().niqastul_start(*table, *NONE), 2)
    t.same(library().niqastul_relabel(*lent(1, 0)[1], *NONE, *NONE, *table), 0)
    t.same(list(entries), [1, 0])
    t.same(library().niqastul_index(*NONE, *NONE, *table, *NONE), 0, "one vertex and no edges")
    t.same(list(entries), [0, 0])
    cells = ctypes.byref(ctypes.c_uint64(7)), ctypes.byref(ctypes.c_uint64(7))
    t.same(library().niqastul_query(*table, *NONE, ctypes.c_uint32(0), *cells), 0)
    t.same(library().niqastul_query(*NONE, *NONE, ctypes.c_uint32(0), *cells), 2)


@test(at_least=2)
def no_edges(t):
    """Two vertices are separated whose net has none."""
    net, ranks = lent(ABSENT, ABSENT)[1] + lent(0, 0)[1], (ctypes.c_uint32(0), ctypes.c_uint32(1))
    tables, cells = [lent(0, 0)[1] for _ in range(6)], [ctypes.c_uint32(7), ctypes.c_uint32(7)]
    written = [word for table in tables for word in table] + [ctypes.byref(cell) for cell in cells]
    t.same(library().niqastul_separate(*net, *ranks, *NONE, *written), 0)
    t.same([cell.value for cell in cells], [0, ABSENT])


@test(at_least=6)
def long_table(t):
    """A length is a number of 64 bits: of 2^32 neighbours or more none can be named, and no start is the end of the
    last run. The memory is set aside and never touched."""
    unreserved = 0x4000
    memory = mmap.mmap(-1, 4 * (2**32 + 5), flags=mmap.MAP_PRIVATE | mmap.MAP_ANONYMOUS | unreserved)
    neighbours = ctypes.byref(ctypes.c_char.from_buffer(memory))
    for last, length, number, part in ((5, 5, 0, (0, 5)), (0, 2**32, 30, (0, 0)), (5, 2**32 + 5, 30, (0, 0))):
        (_, starts), cells = lent(0, last), (ctypes.c_uint64(7), ctypes.c_uint64(7))
        words = *starts, neighbours, ctypes.c_size_t(length), ctypes.c_uint32(0), *map(ctypes.byref, cells)
        t.same(library().niqastul_query(*words), number, length)
        t.same(tuple(cell.value for cell in cells), part, length)


HOST = """#include "niqastul.h"
int main(void) { return (int)niqastul_start(0, 0, 0, 0); }"""


def dynamic_section(file):
    return subprocess.run(["readelf", "-d", file], check=True, capture_output=True, text=True).stdout


@test(at_least=7)
def versions(t):
    """One version throughout; the shared object is named by it, so that a host built against another header cannot load
    it."""
    version = re.search(r"^VERSION = (\d+\.\d+)\.\d+$", (ROOT / "Makefile").read_text(), re.M)
    t.true(version, "the Makefile names the version")
    whole, name = version[0].split()[-1], "libniqastul.so." + version[1]
    major, minor, patch = whole.split(".")
    numbers = [("VERSION", f'"{whole}"'), ("VERSION_MAJOR", major), ("VERSION_MINOR", minor), ("VERSION_PATCH", patch)]
    t.same(re.findall(r"^#define NIQASTUL_(VERSION\w*) (.+)$", header.TEXT, re.M), numbers)
    for file in ("Cargo.toml", "Cargo.lock"):
        t.true(f'version = "{whole}"' in (RUST / file).read_text(), whole, file)
    python = "".join(path.read_text() for path in (PYTHON / "niqastul").glob("*.py"))
    t.same(set(re.findall(r"libniqastul\.so\.[\d.]+\d", python)), {name})
    t.same(re.findall(r"soname: \[(.*)\]", dynamic_section(PATH)), [name])
    with tempfile.TemporaryDirectory() as folder:
        program, words = folder + "/host", ["-I", ROOT / "include", "-L", PATH.parent]
        subprocess.run(["gcc", *words, "-x", "c", "-", "-lniqastul", "-o", program], input=HOST, text=True, check=True)
        asked_for = re.findall(r"Shared library: \[(libniqastul.*)\]", dynamic_section(program))
    t.same(asked_for, [name], "what a host asks for")

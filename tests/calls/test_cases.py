"""Cases of calls as text: document 01's nets on paper and its whole case, and refusals in combination. Below each case
stands what the call answers and leaves. The library has to write that text, and to do on every table what the oracle
says."""

import re

from oracle.forest import ABSENT
from support import ROOT
from support.harness import test
from support.library import CALLS

CASES = ROOT / "tests" / "cases"

# tables that a case has the entries of, though a call writes them
NET = ("parents", "weights")

# tables of which a case has the size by itself, where one number is the size of all others
OTHER_SIZES = ("block_loads", "edge_blocks", "lower")


def sizes_of(tables, sizes):
    """The size of each table: one for each, or that of all but those with other sizes, and then these."""
    if len(sizes) == len(tables):
        return dict(zip(tables, sizes))
    its = dict(zip([table for table in tables if table in OTHER_SIZES], sizes[1:], strict=True))
    return {table: its.get(table, sizes[0]) for table in tables}


def lent(call, tables):
    """What a case lends, by name: entries, with numbers in front of the table that follows them, then the sizes of what
    is only written, which holds nines."""
    given, left = {}, list(map(list, tables))
    for name, kind in call.kinds.items():
        if kind == "number":
            given[name] = left[0].pop(0)
        elif kind == "read" or name in NET:
            given[name] = left.pop(0)
    written = [name for name in call.named("written", "work") if name not in given]
    sizes = sizes_of(written, left.pop() if written else [])
    return given | {name: [9] * size for name, size in sizes.items()} | {cell: [9] for cell in call.named("cell")}


def said(call, given, after):
    """What an accepted call answers beside its tables."""
    cell = {name: after[name][0] for name in call.named("cell")}
    if call.name in ("add", "join"):
        return ", none moved" if cell["moved"] == ABSENT else f", moved {cell['moved']}"
    if call.name == "report":
        total = cell["quotient"] * given["blocks"] + cell["remainder"]
        return ", bound %d, volume %d, share %d %d, sum %d" % (*cell.values(), total)
    if call.name == "separate":
        return f", count {cell['count']}, lowest {'none' if cell['lowest'] == ABSENT else cell['lowest']}"
    return ""


def words_of(table):
    return "".join(" -" if entry == ABSENT else f" {entry}" for entry in table)


def result(t, line):
    """The line that stands below a case, from what the library does."""
    call, text = CALLS[line.split()[0]], line.split(":", 1)[1]
    words = [re.findall(r"\d+|-", table) for table in text.split(";")[:-1]]
    given = lent(call, [[ABSENT if word == "-" else int(word) for word in table] for table in words])
    number, after = call.run(t, given, line)
    answer = f"refused {number}" if number else "accepted" + said(call, given, after)
    left = [after[name] for name in call.named("written", "work")]
    return f"  {answer} ;" + "".join(words_of(table) + " ;" for table in left)


def compare(t, name):
    lines = iter((CASES / name).read_text().splitlines())
    for line in lines:
        if not line.startswith("#"):
            t.same(result(t, line), next(lines), line)


@test(at_least=300)
def nets_and_files(t):
    compare(t, "nets.txt")


@test(at_least=500)
def divisions(t):
    compare(t, "divisions.txt")

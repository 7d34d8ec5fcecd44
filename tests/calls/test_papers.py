"""Cases of document 02, paper by paper: each entry of tests/cases/PNN.json that names a call, made on the library and
by the oracle. Entries without a call are notes. A table that a case does not name is compared with the oracle's
alone."""

import json
import random

from oracle.forest import ABSENT, tie_count
from support import ROOT, inputs, program
from support.harness import test
from support.library import CALLS

CASES = ROOT / "tests" / "cases"

# what the papers call otherwise than the header: calls, then tables and numbers
CALL_NAMES = {"translate": "relabel"}
NAMES = {"ties": "edges", "B": "limit", "k": "blocks", "a": "one", "b": "other", "old": "old_edges", "f": "bytes",
         "file": "bytes"}

# the tables of a net, as a case has them; it has null for what there was not yet
NET = ("parents", "weights")


def a_net(prefix, net):
    """The tables of a net by name. A case that has one more than is known here is an error."""
    named = dict(zip(NET, net))
    if any(its is not None for its in net[len(NET):]):
        raise LookupError(f"a net has more than {NET}: {net}")
    return {prefix + table: its for table, its in named.items() if its is not None}


def by_name(entries):
    """What a case is lent, or what it leaves, by the names of the header."""
    found = {}
    for name, its in entries.items():
        if name == "net":
            found |= a_net("", its)
        elif name == "other":
            found |= a_net("other_", its)
        elif name == "t":
            found |= by_name(its)
        else:
            found[NAMES.get(name, name)] = its
    return found


def lent(call, case):
    """What the case lends; where it does not say what a table to be written holds, or a cell, that is nines."""
    given = by_name(case["in"])
    lengths = {"block_loads": given.get("blocks"), "edge_blocks": tie_count(given.get("edges", ()))}
    for table in call.named("written"):
        given.setdefault(table, [9] * lengths.get(table, len(given[call.counted])))
    return inputs.with_work(random.Random(1), call.name, given | {cell: [9] for cell in call.named("cell")})


def numbers(values):
    """The numbers of a case's values, in order; null is none, which the calls answer as absent."""
    if isinstance(values, dict):
        values = list(values.values())
    if isinstance(values, list):
        return [number for value in values for number in numbers(value)]
    return [ABSENT if values is None else values]


def made(t, case):
    """Makes the call, and holds what it answers and leaves against the case."""
    call = CALLS[CALL_NAMES.get(case["call"], case["call"])]
    given = lent(call, case)
    number, after = call.run(t, given, case)
    t.same(number, case["code"], case)
    for name, table in by_name(case["tables"]).items():
        t.same(after[name], table, name, case)
    cells = call.named("cell")
    if number or not cells:
        t.same(case["values"], None, case)
    else:
        t.same([after[cell][0] for cell in cells], numbers(case["values"]), case)


@test(at_least=180)
def every_case(t):
    files = sorted(CASES.glob("P*.json"))
    t.true(files, "no file of cases")
    for file in files:
        for case in json.loads(file.read_text()):
            if case.get("call") == "run_blocks":
                lists = [bytes(case["in"][name]) for name in ("marks", "ties", "want")]
                t.same(program.run(t, lists, case), case["text"], case)
            elif "call" in case:
                made(t, case)

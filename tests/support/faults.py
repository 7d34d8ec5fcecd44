"""Faults to put into inputs that a call accepts, each with the number that it must get."""

from oracle import calls
from oracle.forest import ABSENT, ties_of
from support import index_faults, nets
from support.changes import edge_faults, in_turn, part_edges, put, rank_faults, resize, resize_all, set_number
from support.library import CALLS

# tables whose length is n, or whose wrong lengths are not simply 2
OTHER_LENGTHS = ("parents", "order", "edges", "other_parents")


def n_of(given):
    return len(given["parents"])


def lengths(name):
    """Every table a little too long, too short or empty."""
    for table in CALLS[name].named("read", "written", "work"):
        if table in OTHER_LENGTHS or (name, table) == ("read", "bytes"):
            continue
        for by in (-1, 1, 7, -1000):
            yield 2, f"{table} {by:+} entries", resize(table, by)
    if "edges" in CALLS[name].kinds:
        yield from part_edges("edges")
        yield 2, "one edge more", resize("edges", 3)


def damages(parents="parents", weights="weights"):
    """What breaks the rule of 7 or the total."""
    for place in (0, 2, -1):
        yield 30, f"{parents}[{place}] is the next after the last", put(parents, place, lambda g: len(g[parents]))
        yield 30, f"{parents}[{place}] is far out", put(parents, place, ABSENT - 1)
        yield 30, f"{parents}[{place}] is its own rank", put(parents, place, lambda g, p=place: p % len(g[parents]))
    yield 30, f"{parents}[2] is below it", put(parents, 2, 1)
    yield 30, f"the last of {parents} is 0", put(parents, -1, 0)
    yield 30, f"{weights} sum to one too many", full(weights, less=-1)
    yield 30, f"{weights} has one of 32 bits", put(weights, 0, 0xFFFFFFFF)
    half = 0x80000000
    rest = put(weights, 1, lambda g: half - sum(g[weights][2:]))
    yield 30, f"{weights} sum to 2^32", in_turn(put(weights, 0, half), rest)


def full(weights, less=0):
    """Fills a table of weights up to the largest total, less some."""
    return put(weights, 1, lambda g: calls.MAX_TOTAL - less - sum(g[weights]) + g[weights][1])


def orders():
    yield 3, "an order entry is n", put("order", 1, lambda g: len(g["order"]))
    yield 3, "an order entry is far out", put("order", -1, ABSENT)
    yield 3, "the last order entry repeats", put("order", -1, lambda g: g["order"][0])
    yield 3, "neighbouring order entries repeat", put("order", 2, lambda g: g["order"][1])


def limits():
    yield 8, "no limit", set_number("limit", 0)
    yield 8, "limit too large", set_number("limit", calls.MAX_LIMIT + 1)
    yield 8, "limit far out", set_number("limit", 0xFFFFFFFF)
    for k in (0, calls.MAX_BLOCKS + 1):
        loads = lambda g, k=k: resize("block_loads", k - len(g["block_loads"]))(g)
        yield 8, f"{k} blocks", in_turn(set_number("blocks", k), loads)
    yield 22, "a weight above the limit", put("weights", 1, lambda g: g["limit"] + 1)


def other_nets():
    """Edges that are not the net's own."""
    def one_edge_alone(given):
        given["edges"] = nets.flat((0, n_of(given) - 1, rows) for _, _, rows in ties_of(given["edges"]))

    yield 23, "another weight", put("weights", -1, 1)
    yield 23, "other edges", one_edge_alone
    for place in (2, -1):
        yield 23, f"other rows at {place}", put("edges", place, lambda g, p=place: g["edges"][p] % calls.MAX_ROWS + 1)


def joins():
    yield 1, "no vertex in the other net", lambda g: resize("other_parents", -len(g["other_parents"]))(g)
    for by in (-1, 1):
        change = resize_all(by, "other_parents", "other_weights", "lower")
        sound = put("other_parents", -2, ABSENT), change, put("other_parents", -1, ABSENT)
        yield 21, f"the other net has {by:+} vertices", in_turn(*sound)
    yield from damages("other_parents", "other_weights")
    more = put("other_weights", 0, lambda g: 6 + g["other_weights"][0])
    yield 20, "both nets too full together", in_turn(full("weights", 5), more)
    yield 20, "both nets full", in_turn(full("weights"), full("other_weights"))


def additions():
    yield 20, "one row too many", lambda g: full("weights", calls.rows_of(ties_of(g["edges"])) - 1)(g)
    yield 20, "the net is full", full("weights")


def relations():
    """Two ranks that are none of the net's; that are one, or of which one is above the other: in a net that hangs
    together the last is above all."""
    yield from rank_faults("one", n_of)
    yield from rank_faults("other", n_of)
    yield 4, "both ranks are n", lambda g: g.update(one=n_of(g), other=n_of(g))
    for rank in (0, -1):
        yield 31, f"{rank} and itself", lambda g, r=rank: g.update(one=r % n_of(g), other=r % n_of(g))
    for one, other in (("one", "other"), ("other", "one")):
        yield 31, f"{one} has {other} as parent", lambda g, o=one, p=other: g.update({o: 0, p: g["parents"][0]})
        yield 31, f"{one} is far under {other}", lambda g, o=one, p=other: g.update({o: 0, p: n_of(g) - 1})


def file_faults():
    """Bytes that are no file of n records, and records that are no net's."""
    def record(place, half, value):
        def change(given):
            at, number = (8 * place + 4 * half) % len(given["bytes"]), value(given) if callable(value) else value
            given["bytes"] = given["bytes"][:at] + calls.word(number) + given["bytes"][at + 4:]

        return change

    def one_too_many(given):
        loads = calls.words(given["bytes"])[1::2]
        return calls.MAX_TOTAL + 1 - sum(loads) + loads[1]

    for by in (-1, 1, 4, 8, -8, -1000):
        yield 6, f"bytes {by:+}", resize("bytes", by)
    for place in (0, 2, -1):
        yield 7, f"record {place} names n", record(place, 0, n_of)
        yield 7, f"record {place} names itself", record(place, 0, lambda g, p=place: p % n_of(g))
        yield 7, f"record {place} is far out", record(place, 0, ABSENT - 1)
    yield 7, "record 2 names 1", record(2, 0, 1)
    yield 7, "the last record names 0", record(-1, 0, 0)
    yield 20, "one too many", record(1, 1, one_too_many)
    yield 20, "32 bits", record(0, 1, 0xFFFFFFFF)


def edges_of(name):
    """Faulty edges, given the table that tells n."""
    return edge_faults("edges", lambda g: len(g[CALLS[name].counted]))


# what each call can be refused for beside a count and lengths
OWN = {
    "relabel": lambda: (*orders(), *edges_of("relabel")),
    "start": lambda: (),
    "add": lambda: (*damages(), *edges_of("add"), *additions()),
    "join": lambda: (*joins(), *damages()),
    "save": damages,
    "read": file_faults,
    "divide": lambda: (*limits(), *damages()),
    "report": lambda: (*limits(), *other_nets(), *damages(), *edges_of("report")),
    "separate": lambda: (*other_nets(), *relations(), *damages(), *edges_of("separate")),
}


def faults(name):
    if name in index_faults.FAULTS:
        yield from index_faults.FAULTS[name]()
        return
    of_n = CALLS[name].counted
    yield 1, "no vertex", lambda g: resize(of_n, -len(g[of_n]))(g)
    yield from lengths(name)
    yield from OWN[name]()

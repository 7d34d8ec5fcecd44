"""The program `blocks`, run on files: document 01's whole case, every refusal, its capacities, and many small nets."""

import os
import random
import resource
from subprocess import DEVNULL

from support import nets
from support.files import ORDER, THREE, TIES, WHOLE, WHOLE_CASE, file_of
from support.harness import test
from support.pipes import PAGE, fed, read_slowly
from support.program import PROGRAM, folder_of, printed, run, wanted
from support.waiting import TOO_LONG


@test(at_least=18)
def missing_and_broken_files(t):
    """The whole case with each file left out, or with part of a record."""
    marks, ties = file_of(*ORDER), file_of(*TIES)
    for missing in range(3):
        files = [marks, ties, file_of(4, 2)]
        files[missing] = None
        t.same(run(t, files).split("\n")[0], ["refused 1", "0 3 - 0 0 0 0 0", "refused 6"][missing])
    for number, files in (
        (1, (b"abc", ties, file_of(4, 2))),
        (6, (marks[:-1], ties, file_of(4, 2))),
        (6, (marks, ties[:-4], file_of(4, 2))),
        (6, (marks, ties[:-8], file_of(4, 2))),
        (6, (marks, ties, file_of(4, 2, 1))),
        (3, (file_of(0, 1, 1), ties, file_of(0, 0))),
    ):
        t.same(run(t, files), f"refused {number}\n")


FOREIGN = file_of(9, 9, 9)

# files that one run is given, and what it prints: of two reasons for a refusal the first by document 01's order
LIMIT_3 = """0 3 2 3 2 0 0 1
1 0 3 2 2 5 1 1
2 1 4 1 2 5 1 2
3 2 4 0 1 5 1 1
4 4 5 0 1 5 1 2
5 5 - 0 0 5 1 1
bound 2 volume 2 share 3 0
"""
ONE_BLOCK = """0 3 2 3 2 2 0 1
1 0 3 2 2 5 0 1
2 1 4 1 2 2 0 1
3 2 4 0 1 5 0 1
4 4 5 0 1 5 0 1
5 5 - 0 0 5 0 1
bound 2 volume 0 share 6 0
"""
ONE_GROUP = """0 3 2 3 2 5 0 1
1 0 3 2 2 5 0 1
2 1 4 1 2 5 0 1
3 2 4 0 1 5 0 1
4 4 5 0 1 5 0 1
5 5 - 0 0 5 0 1
bound 0 volume 0 share 3 0
"""
RUNS = {
    "limit 4, 2 blocks": (file_of(*ORDER), file_of(*TIES), file_of(4, 2), WHOLE_CASE),
    "limit 3": (file_of(*ORDER), file_of(*TIES), file_of(3, 2), LIMIT_3),
    "1 block": (file_of(*ORDER), file_of(*TIES), file_of(4, 1), ONE_BLOCK),
    "one vertex, no edge": (file_of(0), b"", file_of(1, 1), "0 0 - 0 0 0 0 0\nbound 0 volume 0 share 0 0\n"),
    "no vertex": (b"", FOREIGN, b"", "refused 1\n"),
    "part of a vertex": (bytes(3), FOREIGN, b"", "refused 1\n"),
    "1,001 vertices": (bytes(4_004), FOREIGN, b"", "refused 2\n"),
    "4,000 edges": (file_of(*ORDER), bytes(48_000), file_of(4, 2), "refused 5\n"),
    "4,000 edges and a byte": (file_of(*ORDER), bytes(48_001), file_of(4, 2), "refused 6\n"),
    "4,001 edges less a byte": (file_of(*ORDER), bytes(48_011), file_of(4, 2), "refused 6\n"),
    "4,001 edges": (file_of(*ORDER), bytes(48_012), b"", "refused 2\n"),
    "a byte behind 1,000 vertices": (bytes(4_001), FOREIGN, b"", "refused 6\n"),
    "one edge and a third": (bytes(8), bytes(16), bytes(8), "refused 6\n"),
    "one edge and two thirds": (bytes(8), bytes(20), bytes(8), "refused 6\n"),
    "no limits": (bytes(8), FOREIGN, b"", "refused 6\n"),
    "an order that repeats": (bytes(8), FOREIGN, bytes(8), "refused 3\n"),
    "limit 0": (file_of(*ORDER), FOREIGN, file_of(0, 2), "refused 8\n"),
    "limit 96,000,000": (file_of(*ORDER), file_of(*TIES), file_of(96_000_000, 2), ONE_GROUP),
    "limit 96,000,001": (file_of(*ORDER), FOREIGN, file_of(96_000_001, 2), "refused 8\n"),
    "1,001 blocks": (file_of(*ORDER), FOREIGN, file_of(4, 1001), "refused 8\n"),
    "vertex 9": (file_of(*ORDER), FOREIGN, file_of(1, 2), "refused 4\n"),
    "one vertex twice": (file_of(*ORDER), file_of(1, 1, 9, 9, 9, 1), file_of(1, 2), "refused 5\n"),
    "0 rows": (file_of(*ORDER), file_of(1, 2, 0, 9, 9, 1), file_of(1, 2), "refused 32\n"),
    "7 rows": (file_of(*ORDER), file_of(1, 2, 6, 2, 1, 7), file_of(1, 2), "refused 32\n"),
    "limit 2": (file_of(*ORDER), file_of(*TIES), file_of(2, 2), "refused 22\n"),
}


@test(at_least=50)
def printed_runs(t):
    """Runs whose whole text is written down here, not only the oracle's."""
    for name, (marks, ties, want, text) in RUNS.items():
        t.same(run(t, (marks, ties, want), name), text, name)


@test(at_least=30)
def capacities(t):
    """1,000 marks and 4,000 ties are taken, one more of either is 2, and part of a record more is 6."""
    rng = random.Random(1)
    marks = file_of(*rng.sample(range(1000), 1000))
    for shape in (nets.path, nets.tall, nets.star, nets.sparse, nets.grid, nets.tree):
        found = nets.ties(rng, 1000, shape)
        ties = file_of(*nets.flat((found + rng.choices(found, k=4000))[:4000]))
        for limit in (24_000, 140):
            text = run(t, (marks, ties, file_of(limit, 5)), shape.__name__, limit)
            t.true(text == "refused 22\n" or text.count("\n") == 1001, shape.__name__, limit)
    want = file_of(24_000, 3)
    for more in (1, 2, 3):
        t.same(run(t, (marks + bytes(more), ties, want)), "refused 6\n", more)
    for more in (1, 4, 8, 11):
        t.same(run(t, (marks, ties + bytes(more), want)), "refused 6\n", more)
    for many, most in ((1001, 4000), (1000, 4001), (1001, 4001), (1_000_000, 0), (1_000_001, 0)):
        t.same(run(t, (bytes(4 * many), bytes(12 * most), b"")), "refused 2\n", many, most)
    t.same(run(t, (b"", bytes(12 * 4001), want)), "refused 1\n")


def damaged(rng, files):
    """Now and then a byte too few, a byte changed or a file left out."""
    damage, which = rng.randrange(12), rng.randrange(3)
    data = files[which]
    if damage == 0:
        files[which] = data[:rng.randrange(len(data) + 1)]
    elif damage == 1 and data:
        place = rng.randrange(len(data))
        files[which] = data[:place] + rng.randbytes(1) + data[place + 1:]
    elif damage == 2:
        files[which] = None
    return files


@test(at_least=1_500)
def small_runs(t):
    """Small nets, whole and damaged."""
    for seed in range(1500):
        rng = random.Random(seed)
        n = rng.randrange(1, 16)
        ties, limits = nets.ties(rng, n, rng.choice(nets.SHAPES)), (rng.randrange(1, 42), rng.randrange(1, 5))
        files = [file_of(*rng.sample(range(n), n)), file_of(*nets.flat(ties)), file_of(*limits)]
        run(t, damaged(rng, files), seed)


def close(*descriptors):
    for descriptor in descriptors:
        os.close(descriptor)


def open_many():
    for _ in range(40):
        os.set_inheritable(os.dup(0), True)


def one_at_a_time():
    """Beside standard input, output and error there is room for one open file."""
    resource.setrlimit(resource.RLIMIT_NOFILE, (4, 4))


@test(at_least=5)
def descriptors(t):
    """A file is read whatever descriptor it gets, 0 among them, which is that of the first file where standard input is
    closed; and it is closed before the next is opened."""
    files = list(WHOLE.values())
    for what, before in {
        "standard input closed": lambda: close(0),
        "input and error closed": lambda: close(0, 2),
        "error closed": lambda: close(2),
        "many open": open_many,
        "room for one": one_at_a_time,
    }.items():
        run(t, files, what, stdin=DEVNULL, stderr=DEVNULL, preexec_fn=before, close_fds=False)


def in_parts(data, *places):
    """Data cut at places, which rise."""
    return [data[start:end] for start, end in zip((0, *places), (*places, len(data)))]


def run_on_pipes(t, files, pipes, *context, **room):
    """Runs the program on files of which some are pipes, given by their parts, and compares with the oracle."""
    contents = dict(zip(THREE, files))
    regular = [None if name in pipes else content for name, content in contents.items()]
    with folder_of(regular) as folder, fed(folder, pipes, **room):
        text = printed(folder, timeout=TOO_LONG)
    t.same(text, wanted(files), *context)


@test(at_least=102)
def files_in_parts(t):
    """Each file a pipe that gives it in two parts, cut at every byte; then all three byte by byte. A read then gets
    less than there is to come, and what has come may end within a record."""
    files = list(WHOLE.values())
    for name, data in zip(THREE, files):
        for place in range(1, len(data)):
            run_on_pipes(t, files, {name: in_parts(data, place)}, name, place)
    by_bytes = {name: in_parts(data, *range(1, len(data))) for name, data in zip(THREE, files)}
    run_on_pipes(t, files, by_bytes, "byte by byte")


def the_largest(rng, shape):
    """As many marks and ties as there may be, and a limit that holds them."""
    found = nets.ties(rng, 1000, shape)
    ties = (found + rng.choices(found, k=4000))[:4000]
    return file_of(*rng.sample(range(1000), 1000)), file_of(*nets.flat(ties)), file_of(24_000, 5)


@test(at_least=8)
def long_pipes(t):
    """Files that do not fit their pipe, given at once, or in parts of any length; and files that are longer than the
    program reads, of which it leaves the rest."""
    for seed, shape in enumerate((nets.tree, nets.grid, nets.path)):
        rng = random.Random(seed)
        files = the_largest(rng, shape)
        t.true(len(files[1]) > PAGE, len(files[1]))
        run_on_pipes(t, files, {name: [data] for name, data in zip(THREE, files)}, "at once", room=PAGE)
        places = [sorted(rng.sample(range(1, len(data)), min(9, len(data) - 1))) for data in files]
        parts = {name: in_parts(data, *its) for name, data, its in zip(THREE, files, places)}
        run_on_pipes(t, files, parts, "in parts")
    files = bytes(4_000_000), bytes(8_000_000), bytes(100_000)
    run_on_pipes(t, files, {name: [data] for name, data in zip(THREE, files)}, "too long")


@test(at_least=10)
def slow_reader(t):
    """The text goes to a pipe of one page and is taken a few bytes at a time: it comes whole, also where the program is
    stopped while it waits, by which a write ends early."""
    for seed, shape in enumerate((nets.tree, nets.star)):
        files = the_largest(random.Random(seed), shape)
        text = wanted(files)
        t.true(len(text) > 4 * PAGE, len(text))
        with folder_of(files) as folder:
            for interrupted in (False, True):
                got = read_slowly([PROGRAM], folder, interrupted)
                t.same(len(got), len(text), shape.__name__, interrupted)
                t.same(got, text, shape.__name__, interrupted)

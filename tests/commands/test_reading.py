"""What the commands share that read an order and ties: refusals by number, and files that are replaced whole or not
touched."""

import os

from oracle import blocks, calls
from support.broken import LARGEST, broken_three
from support.files import THREE, WHOLE, file_of
from support.folder import a_folder, full_disk
from support.harness import test
from support.refused import FAULTS, WANTS, untouched

# the commands, with the names that they are given
GROW, SPLIT, PICTURE = ("grow", *THREE[:2], "out"), ("split", *THREE, "out"), ("picture", *THREE, "out")
READERS = GROW, SPLIT, PICTURE


@test(at_least=200)
def refusals(t):
    """Each refusal of files, with no output there and with an old one."""
    with a_folder() as folder:
        for words in READERS:
            for number, fault in FAULTS + WANTS * (words != GROW):
                folder.write(**(WHOLE | fault), out=None)
                untouched(t, folder, words, number, str(fault)[:200])
                if words != SPLIT:
                    folder.write(out=b"old")
                    untouched(t, folder, words, number, str(fault)[:200])
        folder.write(**WHOLE, out=None)
        t.same(folder.run(*SPLIT)[0], 0)
        folder.write(ties_rec=file_of(0, 0, 1))
        untouched(t, folder, SPLIT, 5, "an earlier split stays")


@test(at_least=5)
def longest_files(t):
    """One tie more than 16,000,000 is 20, unless one is faulty; without it, ties of 6 rows fill a net."""
    with a_folder(large=True) as folder:
        folder.write(marks_ord=file_of(2, 0, 1), ties_rec=file_of(0, 2, 6) * (calls.MAX_TIES + 1))
        full = "refused 20: more than 16,000,000 edges in a list, or 96,000,000 rows in all\n"
        t.same(folder.run(*GROW)[::2], (1, full))
        with open(folder.path / "ties.rec", "r+b") as file:
            file.seek(blocks.TIE * calls.MAX_TIES)
            file.write(file_of(1, 1, 1))
            file.flush()
            t.same(folder.run(*GROW)[::2], (1, "refused 5: both ends of an edge are one vertex\n"))
            t.true(not (folder.path / "out").exists())
            file.truncate(blocks.TIE * calls.MAX_TIES)
        t.same(folder.run(*GROW)[:2], (0, ""))
        t.same((folder.path / "out").read_bytes()[:8], file_of(1, calls.MAX_TOTAL))


@test(at_least=1_000)
def broken_files(t):
    """Small nets, a byte now and then changed or left out: refused as document 01 says, or done."""
    seen = set()
    with a_folder() as folder:
        for seed in range(200):
            given = broken_three(seed)
            folder.write(**dict(zip(WHOLE, given)))
            for words in READERS:
                number = blocks.refusal(*given[:2], LARGEST if words == GROW else given[2])
                seen.add((words[0], number))
                if number:
                    untouched(t, folder, words, number, seed)
                else:
                    t.same(folder.run(*words[:-1], words[0]), (0, "", ""), *words, seed)
    wanted = {(words[0], number) for words in READERS for number in (0, 1, 3, 4, 5, 6, 32)}
    t.same(wanted - seen, set(), "not met")


def bad_names():
    """Commands with a name that cannot be used, and what is said of it."""
    for words in READERS:
        for place in range(1, len(words) - 1):
            yield words[:place] + ("gone",) + words[place + 1:], "gone: "
    for name in ("taken", "pipe", "gone/out"):
        yield (*GROW[:3], name), name + ": "
    for name in ("taken", "some", "marks.ord"):
        yield (*SPLIT[:4], name), name + ": "
    yield (*PICTURE[:4], "some", "out"), "some: line 1 is not two numbers"
    yield (*PICTURE[:4], "gone", "out"), "gone: "
    for name in ("taken", "gone"):
        yield ("together", "marks.ord", name, "some"), "refused 6"


@test(at_least=40)
def unusable(t):
    """2 and a line that names the file: one that is not there, a folder for a file, a pipe that must not be replaced,
    bad places."""
    with a_folder() as folder:
        folder.write(**WHOLE, some=b"text", places_txt=b"0 0\n" * 6)
        (folder.path / "taken").mkdir()
        (folder.path / "taken" / "other").write_bytes(b"")
        os.mkfifo(folder.path / "pipe")
        for words, text in bad_names():
            before = folder.state()
            status, out, err = folder.run(*words)
            t.same((status, out), (1 if "refused" in text else 2, ""), *words)
            t.true(text in err and err.count("\n") == 1, err, *words)
            t.same(folder.state(), before, *words)
        t.true((folder.path / "pipe").is_fifo())
        five = b"0 0\n" * 5
        for places in (five, five + b"0 0\n0 0\n", five + b"0 inf\n", five + b"0\n", five + b"0 0 0\n", b"\xff"):
            folder.write(places_txt=places)
            t.same(folder.run(*PICTURE[:4], "places.txt", "out")[0], 2, str(places))


# the functions of the system that each command calls, and the time at which they find the disk full
FILLED = {
    GROW: (("fsync", 0), ("replace", 0)),
    SPLIT: (("mkdir", 0), ("rename", 0), ("rename", 1)),
    PICTURE: (("fsync", 0), ("replace", 0)),
}


@test(at_least=12)
def whole_or_not(t):
    """A disk that is full while files are written or moved: what was there stays, and nothing is left beside it."""
    with a_folder() as folder:
        folder.write(**WHOLE)
        for words, faults in FILLED.items():
            t.same(folder.run(*words)[0], 0, *words)
            before = folder.state()
            for name, at in faults:
                with full_disk(name, at):
                    ran = folder.run(*words)
                t.same(ran, (2, "", "niqastul: [Errno 28] No space left on device\n"), *words, name)
                t.same(folder.state(), before, *words, name)
            os.rename(folder.path / "out", folder.path / words[0])

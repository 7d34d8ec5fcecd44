"""What commands are refused for, and what a command that is refused must say and must leave alone."""

import itertools

from oracle import calls
from support.files import THREE, WHOLE, file_of
from support.folder import a_folder

# faults of the order and of the ties, with the number that each must get
FAULTS = [
    (1, {"marks_ord": b""}),
    (1, {"marks_ord": b"abc"}),
    (1, {"marks_ord": bytes(4 * calls.MAX_MARKS + 4)}),
    (6, {"marks_ord": WHOLE["marks_ord"] + b"\0"}),
    (6, {"ties_rec": WHOLE["ties_rec"][:-4]}),
    (6, {"ties_rec": WHOLE["ties_rec"][:-8]}),
    (6, {"ties_rec": b"abc", "marks_ord": bytes(8)}),
    (3, {"marks_ord": file_of(0, 1, 2, 3, 4, 4)}),
    (3, {"marks_ord": file_of(0, 1, 6), "ties_rec": file_of(7, 7, 7)}),
    (4, {"ties_rec": file_of(0, 1, 1, 2, 6, 1, 3, 3, 1)}),
    (5, {"ties_rec": file_of(0, 1, 1, 3, 3, 0, 2, 6, 1)}),
    (32, {"ties_rec": file_of(0, 1, 1, 3, 2, 0, 2, 6, 1)}),
    (32, {"ties_rec": file_of(0, 1, 7, 3, 3, 1)}),
]

# faults of want.rec, alone and beside those of the others
WANTS = [
    (6, {"want_rec": b""}),
    (6, {"want_rec": file_of(4)}),
    (6, {"want_rec": file_of(4, 2, 1), "marks_ord": bytes(8)}),
    (8, {"want_rec": file_of(0, 2), "ties_rec": file_of(7, 7, 7)}),
    (8, {"want_rec": file_of(4, 1001)}),
    (8, {"want_rec": file_of(4, 0)}),
    (8, {"want_rec": file_of(calls.MAX_LIMIT + 1, 1)}),
    (3, {"want_rec": file_of(0, 0), "marks_ord": bytes(8)}),
    (4, {"want_rec": file_of(1, 2), "ties_rec": file_of(0, 6, 1)}),
    (32, {"want_rec": file_of(1, 2), "ties_rec": file_of(0, 5, 7)}),
    (22, {"want_rec": file_of(2, 2)}),
]


def untouched(t, folder, words, number, *context):
    """The command is refused with the number and its meaning, and no file is made or changed."""
    before = folder.state()
    status, out, err = folder.run(*words)
    t.same((status, out), (1, ""), *words, *context)
    t.true(err.startswith(f"refused {number}: ") and len(err) > 20, number, err, *words, *context)
    t.same(folder.state(), before, *words, *context)


def not_there(t, folder, words, names):
    """2, and a line that names the file that is missing."""
    for gone in names:
        folder.write(**(WHOLE | {gone.replace(".", "_"): None}))
        status, out, err = folder.run(*words)
        t.true((status, out) == (2, "") and f"{gone}: No such file" in err and err.count("\n") == 1, err)


def marks_refused(t, command, good, *among):
    """Of a command that is given an order, ties and marks: the refusals of the files; a mark that is not one of the n
    is 4, before any tie is looked at and behind what comes before 4. `good` are marks that are none of these; a bad one
    is put `among` some."""
    n, words = len(WHOLE["marks_ord"]) // 4, (command, *THREE[:2])
    with a_folder() as folder:
        for number, fault in FAULTS:
            folder.write(**(WHOLE | fault))
            untouched(t, folder, (*words, *good.split()), number, str(fault)[:200])
            for its in among:
                bad = (*words, *its.format(n).split())
                untouched(t, folder, bad, 4 if number in (5, 32) else number, str(fault)[:200])
        for bad in (n, n + 1, 2**32 - 1, 2**32, 2**32 + 1, 2**64, 10**40):
            for ties, its in itertools.product((WHOLE["ties_rec"], file_of(0, 0, 1)), among):
                folder.write(**(WHOLE | {"ties_rec": ties}))
                untouched(t, folder, (*words, *its.format(bad).split()), 4, bad)
        untouched(t, folder, (*words, *good.split()), 5)
        not_there(t, folder, (*words, *good.split()), words[1:])


def too_long(t, folder, good, bad):
    """On files of as many ties as there may be, with marks that are good and bad: one tie more is 20, unless one is
    faulty, or a mark."""
    def refused(words, text, *tie):
        with open(folder.path / "ties.rec", "ab") as file:
            file.write(file_of(*tie))
        t.same(folder.run(*words)[::2], (1, text))

    refused(good, "refused 20: more than 16,000,000 edges in a list, or 96,000,000 rows in all\n", 0, 1, 1)
    refused(bad, "refused 4: an edge or a query names a vertex out of range\n")
    refused(good, "refused 5: both ends of an edge are one vertex\n", 1, 1, 1)

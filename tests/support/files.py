"""Files as document 01 has them, as bytes; its whole case; and what the oracle says of link files."""

from oracle import calls
from oracle.forest import ABSENT, net_of, ties_of

THREE = ("marks.ord", "ties.rec", "want.rec")

# the whole case: an order, ties of one row each, and what is printed with a limit of 4 and 2 blocks
ORDER = [3, 0, 1, 2, 4, 5]
TIES = [3, 1, 1, 3, 4, 1, 0, 2, 1, 0, 4, 1, 1, 5, 1, 1, 3, 1]

WHOLE_CASE = """\
0 3 2 3 2 2 0 1
1 0 3 2 2 5 1 1
2 1 4 1 2 2 0 1
3 2 4 0 1 5 1 1
4 4 5 0 1 5 1 2
5 5 - 0 0 5 1 1
bound 2 volume 1 share 3 0
"""


def file_of(*numbers):
    return bytes(byte for number in numbers for byte in calls.word(number))


# the files of the whole case, named as `Folder.write` takes them
WHOLE = {"marks_ord": file_of(*ORDER), "ties_rec": file_of(*TIES), "want_rec": file_of(4, 2)}


def link_file(order, edges):
    """The link file of the net of edges in mark numbers."""
    number, flat = calls.translate(order, edges, edges)
    assert number == 0
    return bytes(calls.link_file(*net_of(len(order), ties_of(flat))))


def moved_line(before, after):
    """What add and join print, given the bytes of a link file and of the one that came of it."""
    rank = calls.moved(*(calls.words(link)[0::2] for link in (before, after)))
    return "none moved\n" if rank == ABSENT else f"moved {rank}\n"

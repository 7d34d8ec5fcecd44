"""Document 01, Files, and document 02, Papers 4 and 6: one run of the program `blocks`, from the bytes of its three
files to what it prints.

    python3 -m oracle.blocks DIR        prints what `blocks` has to print when it is run in DIR"""

import pathlib
import sys

from . import calls
from .forest import ABSENT, loads_of, net_of, reaches, ties_of

MAX_MARKS = 1_000
MAX_TIES = 4_000

# the bytes of a tie: two mark numbers and the rows
TIE = 12


def refusal(marks, ties, want):
    """For the order of refusals a run counts as one call. The numbers that are left out cannot arise: the net is made
    in the run."""
    n = len(marks) // 4
    if n == 0:
        return 1
    if n > MAX_MARKS or len(ties) // TIE > MAX_TIES:
        return 2
    if len(marks) % 4 or len(ties) % TIE or len(want) != 8:
        return 6
    order = calls.words(marks)
    if calls.bad_order(order):
        return 3
    if calls.bad_limits(*calls.words(want)):
        return 8
    if calls.fault(n, calls.words(ties)):
        return calls.fault(n, calls.words(ties))
    limit, _ = calls.words(want)
    _, flat = calls.translate(order, calls.words(ties), calls.words(ties))
    if any(load > limit for load in loads_of(n, ties_of(flat))):
        return 22
    return 0


def run(marks, ties, want):
    """What is printed, of the bytes of marks.ord, ties.rec and want.rec; a file that cannot be opened counts as
    empty."""
    number = refusal(marks, ties, want)
    if number:
        return f"refused {number}\n"
    order, (limit, k) = calls.words(marks), calls.words(want)
    n = len(order)
    _, flat = calls.translate(order, calls.words(ties), calls.words(ties))
    listed = ties_of(flat)
    parents, loads = net_of(n, listed)
    _, tops, blocks, _ = calls.division(parents, loads, limit, k)
    block_counts = calls.block_counts_of(n, listed, calls.tie_blocks_of(listed, blocks))
    reach = reaches(parents, listed)
    lines = []
    for x in range(n):
        parent = "-" if parents[x] == ABSENT else parents[x]
        lines.append(f"{x} {order[x]} {parent} {loads[x]} {reach[x]} {tops[x]} {blocks[x]} {block_counts[x]}")
    bound, volume = calls.bound_of(parents, listed, tops), calls.volume_of(block_counts)
    quotient, remainder = calls.share_of(loads, k)
    lines.append(f"bound {bound} volume {volume} share {quotient} {remainder}")
    return "".join(line + "\n" for line in lines)


def content(path):
    return path.read_bytes() if path.is_file() else b""


if __name__ == "__main__":
    folder = pathlib.Path(sys.argv[1])
    print(run(*(content(folder / name) for name in ("marks.ord", "ties.rec", "want.rec"))), end="")

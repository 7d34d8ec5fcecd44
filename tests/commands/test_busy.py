"""The command busy: its lines are those of the oracle's division and a scan of the edge file, and its refusals document
01's."""

import collections
import random

from oracle import blocks, calls
from oracle.forest import loads_of, net_of, ties_of
from support import nets
from support.broken import broken_three
from support.files import THREE, WHOLE, file_of
from support.folder import a_folder
from support.harness import test
from support.refused import FAULTS, WANTS, not_there, untouched

COMMAND = ("busy", *THREE)


def lines(marks, ties, want):
    """What is printed, of the bytes of three files: the ties of a mark are found as they stand in the file, without
    ranks."""
    order, flat, (limit, k) = (calls.words(data) for data in (marks, ties, want))
    n, ranks = len(order), ties_of(calls.translate(order, flat, flat)[1])
    _, _, own, _ = calls.division(*net_of(n, ranks), limit, k)
    tie_blocks, printed = calls.tie_blocks_of(ranks, own), []
    for mark in order:
        its = [block for (*ends, _), block in zip(ties_of(flat), tie_blocks) if mark in ends]
        if len(set(its)) == k:
            printed.append((mark, len(its), calls.taken(its, k)))
    return printed


def printed_by(t, folder, files, *context):
    """The command is carried out on files, prints what it must and touches nothing; answers its lines as numbers."""
    folder.write(**dict(zip(WHOLE, files)))
    before, wanted = folder.state(), lines(*files)
    text = "".join(f"{mark} {count} {taken}\n" for mark, count, taken in wanted)
    t.same(folder.run(*COMMAND), (0, text, ""), *context)
    t.same(folder.state(), before, *context)
    return wanted


@test(at_least=1_500)
def many_nets(t):
    """Ties as they came and in another order: the same marks with as many ties, of which fewer or more are taken."""
    met = collections.Counter()
    with a_folder() as folder:
        for seed in range(400):
            rng = random.Random(seed)
            n, k = rng.randrange(1, 30), rng.randrange(1, 7)
            order, ties = rng.sample(range(n), n), nets.ties(rng, n, rng.choice(nets.SHAPES))
            limit = max(1, *loads_of(n, [(*map(order.index, ends), rows) for *ends, rows in ties])) + rng.randrange(3)
            lists = ties, rng.sample(ties, len(ties))
            files = [[file_of(*order), file_of(*nets.flat(its)), file_of(limit, k)] for its in lists]
            one, other = (printed_by(t, folder, its, seed) for its in files)
            t.same([line[:2] for line in one], [line[:2] for line in other], seed)
            met[k, len(one) > 0] += 1
            met["fewer", k > 1] += any(count > taken for _, count, taken in one)
            met["differ"] += one != other
    wanted = [(k, some) for k in (*range(1, 7), "fewer") for some in (False, True)] + ["differ"]
    t.true(all(met[its] >= 4 for its in wanted), met)


@test(at_least=60)
def refusals(t):
    """Those of the three files, and files that are not there."""
    with a_folder() as folder:
        for number, fault in FAULTS + WANTS:
            folder.write(**(WHOLE | fault))
            untouched(t, folder, COMMAND, number, str(fault)[:200])
        not_there(t, folder, COMMAND, THREE)


@test(at_least=600)
def broken_files(t):
    """A byte now and then changed or left out: refused as document 01 says, or the lines of what the files then
    hold."""
    met = set()
    with a_folder() as folder:
        for seed in range(320):
            files = broken_three(seed, values=5)
            number = blocks.refusal(*files)
            met.add(number)
            if number:
                folder.write(**dict(zip(WHOLE, files)))
                untouched(t, folder, COMMAND, number, seed)
            else:
                printed_by(t, folder, files, seed)
    t.same(met, {0, 1, 3, 4, 5, 6, 8, 22, 32})

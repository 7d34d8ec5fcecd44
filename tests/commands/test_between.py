"""The command between: the marks of its line are those above both, and part the two in the edge file; its refusals are
those of the documents."""

import collections
import random

from oracle import calls
from oracle.between import marks_above_both, related
from oracle.forest import net_of, ties_of
from support import nets
from support.broken import broken_two, refusal_of_marks
from support.chains import SHAPES, neighbours_of, parted
from support.files import THREE, file_of
from support.folder import a_folder
from support.harness import test
from support.refused import marks_refused, too_long, untouched

COMMAND = ("between", *THREE[:2])


def printed_by(t, folder, order, flat, marks, *context):
    """The command prints what it must, of an order and of ties in mark numbers, or refuses two marks with 31; answers
    the marks printed, None if refused."""
    parents, _ = net_of(len(order), ties_of(calls.translate(order, flat, flat)[1]))
    ranks, words = [order.index(mark) for mark in marks], (*COMMAND, *map(str, marks))
    if related(parents, *ranks):
        return untouched(t, folder, words, 31, *context)
    above = [order[rank] for rank in marks_above_both(parents, *ranks)]
    t.same(folder.run(*words), (0, " ".join(map(str, above or ["none"])) + "\n", ""), *context)
    parted(t, neighbours_of(ties_of(flat)), *marks, above, *context)
    return above


@test(at_least=2_000)
def many_nets(t):
    """Two marks either way round."""
    met = collections.Counter()
    with a_folder() as folder:
        for seed in range(600):
            rng = random.Random(seed)
            n = rng.randrange(2, 30)
            order, flat = rng.sample(range(n), n), nets.flat(nets.ties(rng, n, rng.choice(SHAPES)))
            folder.write(marks_ord=file_of(*order), ties_rec=file_of(*flat))
            marks = rng.choices(range(n), k=2)
            above = printed_by(t, folder, order, flat, marks, seed)
            t.same(printed_by(t, folder, order, flat, marks[::-1], seed), above, "either way round", seed)
            met["refused" if above is None else min(len(above), 2)] += 1
    t.true(len(met) == 4 and min(met.values()) > 20, met)


@test(at_least=150)
def refusals(t):
    """Two bad marks that are one are 4, not 31."""
    marks_refused(t, "between", "3 0", "{} 0", "3 {}", "{0} {0}")


@test(at_least=500)
def broken_files(t):
    """A byte now and then changed or left out: refused as the documents say, or the line of what the files then
    hold."""
    met = collections.Counter()
    with a_folder() as folder:
        for seed in range(500):
            rng = random.Random(seed)
            n, given = broken_two(folder, rng, 8)
            marks = rng.randrange(n), rng.randrange(n + 1)
            number = refusal_of_marks(*given, *marks)
            if number:
                untouched(t, folder, (*COMMAND, *map(str, marks)), number, seed)
            elif printed_by(t, folder, *map(calls.words, given), marks, seed) is None:
                number = 31
            met[number] += 1
    t.same(set(met), {0, 1, 3, 4, 5, 6, 31, 32})


@test(at_least=5)
def longest_files(t):
    """16,000,000 ties of 6 rows; one more is 20, for two marks that are one too."""
    with a_folder(large=True) as folder:
        folder.write(marks_ord=file_of(2, 0, 1, 3), ties_rec=file_of(0, 1, 6) * (calls.MAX_TIES - 1) + file_of(1, 2, 6))
        t.same(folder.run(*COMMAND, "0", "2")[:2], (0, "1\n"))
        t.same(folder.run(*COMMAND, "2", "3")[:2], (0, "none\n"))
        too_long(t, folder, (*COMMAND, "0", "0"), (*COMMAND, "0", "4"))

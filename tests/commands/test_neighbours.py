"""The command neighbours: its lines are those of a scan of the edge file, and its refusals those of the documents."""

import random

from oracle import calls
from oracle.forest import ties_of
from oracle.neighbours import run_of
from support import nets
from support.broken import broken_two, refusal_of_marks
from support.files import THREE, file_of
from support.folder import a_folder
from support.harness import test
from support.refused import marks_refused, too_long, untouched

FILES = THREE[:2]


def lines(ties, asked):
    """What is printed: a mark's neighbours, both as mark numbers, are found without ranks."""
    return "".join(" ".join(map(str, [mark] + run_of(mark, ties))) + "\n" for mark in asked)


@test(at_least=300)
def many_nets(t):
    """Every mark asked for at once, then some in any order and several times."""
    with a_folder() as folder:
        for seed in range(150):
            rng = random.Random(seed)
            n = rng.randrange(1, 40)
            ties = nets.ties(rng, n, rng.choice(nets.SHAPES))
            folder.write(marks_ord=file_of(*rng.sample(range(n), n)), ties_rec=file_of(*nets.flat(ties)))
            for asked in (range(n), rng.choices(range(n), k=5)):
                t.same(folder.run("neighbours", *FILES, *map(str, asked)), (0, lines(ties, asked), ""), seed)


@test(at_least=60)
def refusals(t):
    marks_refused(t, "neighbours", "0", "{}", "0 {} 1")


@test(at_least=300)
def broken_files(t):
    """A byte now and then changed or left out: refused as the documents say, or the lines of what the files then
    hold."""
    met = set()
    with a_folder() as folder:
        for seed in range(300):
            rng = random.Random(seed)
            n, given = broken_two(folder, rng, 6)
            mark = rng.randrange(n + 1)
            number = refusal_of_marks(*given, mark)
            met.add(number)
            if number:
                untouched(t, folder, ("neighbours", *FILES, str(mark)), number, seed)
            else:
                wanted = lines(ties_of(calls.words(given[1])), [mark])
                t.same(folder.run("neighbours", *FILES, str(mark)), (0, wanted, ""), seed)
    t.same(met, {0, 1, 3, 4, 5, 6, 32})


@test(at_least=4)
def longest_files(t):
    """16,000,000 ties of 6 rows are indexed, one more is 20; unless a tie is faulty, or a mark."""
    with a_folder(large=True) as folder:
        folder.write(marks_ord=file_of(2, 0, 3, 1), ties_rec=file_of(0, 2, 6) * (calls.MAX_TIES - 1) + file_of(1, 2, 6))
        t.same(folder.run("neighbours", *FILES, "1", "3")[:2], (0, "1 2\n3\n"))
        too_long(t, folder, ("neighbours", *FILES, "1"), ("neighbours", *FILES, "4"))

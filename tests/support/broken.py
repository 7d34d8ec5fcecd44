"""Files of small nets that are broken by lot, and what a run over them is refused for."""

import random

from oracle import blocks, calls
from support import nets
from support.files import file_of

# a limit and a number of blocks that nothing is refused for
LARGEST = file_of(calls.MAX_LIMIT, 1)


def broken(rng, files, values=256):
    """Files, one of them with a byte changed to one of so many values, or cut off somewhere."""
    which = rng.randrange(len(files))
    data = files[which]
    place = rng.randrange(len(data) + 1)
    files[which] = data[:place] + (bytes([rng.randrange(values)]) + data[place + 1:]) * rng.randrange(2)
    return files


def two_files(rng, n):
    """The order and the ties of a net of n marks."""
    ties = nets.flat(nets.ties(rng, n, rng.choice(nets.SHAPES)))
    return [file_of(*rng.sample(range(n), n)), file_of(*ties)]


def broken_three(seed, values=256):
    """The three files of a small net, with a faulty tie now and then, and one of them broken."""
    rng = random.Random(seed)
    files = two_files(rng, rng.randrange(1, 8)) + [file_of(rng.randrange(1, 9), rng.randrange(1, 5))]
    files[1] += rng.choice((file_of(0, 0, 1), file_of(0, 1, 7))) * (seed % 10 == 0)
    return broken(rng, files, values)


def broken_two(folder, rng, most):
    """Writes the order and the ties of a net of fewer marks than so many, one of them broken; answers the number of
    marks and both."""
    n = rng.randrange(1, most)
    given = broken(rng, two_files(rng, n), values=5)
    folder.write(marks_ord=given[0], ties_rec=given[1])
    return n, given


def refusal_of_marks(marks, ties, *asked):
    """That of a run over the two files, with 4 of a mark asked for in its place: before 4, 5 or 32 of a tie."""
    number = blocks.refusal(marks, ties, LARGEST)
    return 4 if number in (0, 4, 5, 32) and max(asked) >= len(marks) // 4 else number

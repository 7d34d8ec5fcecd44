"""Even share (document 02, Paper 4): the total divided by k, next to multiples of k, at the largest total, between the
calls of histories, and in the last line that `blocks` prints."""

import random
import re
import subprocess

from oracle import calls
from oracle.forest import loads_of
from support import nets, program
from support.accepted import reported
from support.arrays import a_full_list, figures, report
from support.compiled import compiled
from support.files import THREE, file_of
from support.folder import a_folder
from support.harness import test
from support.history import Asked, met_in

# one block, few and as many as there may be
BLOCKS = (*range(1, 13), 999, 1000)


def fits(t, share, weights, k, *context):
    """The quotient times k plus the remainder is the total, and the remainder is below k: no other two numbers do
    so."""
    quotient, remainder = share
    t.same(quotient * k + remainder, sum(weights), share, k, *context)
    t.true(remainder < k, share, k, *context)


def totals(k):
    """No row, and as many as k or twice k, one more and one less: there the quotient changes."""
    return sorted({total for multiple in (k, 2 * k) for total in (0, multiple - 1, multiple, multiple + 1)})


def an_edge_list(rng, total, least=1):
    """How many vertices, and edges among them of so many rows in all; each but the last has at least so many."""
    n, edges = rng.randrange(2, 10), []
    pairs = nets.complete(rng, n)
    while total:
        rows = min(total, rng.randint(least, calls.MAX_ROWS))
        edges.append((*rng.choice(pairs), rows))
        total -= rows
    return n, edges


@test(at_least=2_200)
def next_to_multiples(t):
    """A total that k divides, one more and one less, which may be below k, and none."""
    for k in BLOCKS:
        for total in totals(k):
            rng = random.Random(repr((k, total)))
            n, edges = an_edge_list(rng, total)
            weights = loads_of(n, edges)
            after = reported(t, rng, n, edges, max(1, *weights), k, total)
            fits(t, after["quotient"] + after["remainder"], weights, k, total)


@test(at_least=6)
def largest_total(t):
    """16,000,000 edges of 6 rows, with a remainder and without; then one row fewer, and one edge fewer."""
    edges, (parents, weights) = a_full_list()
    limit, full = max(weights), weights[1]
    for k, share in ((1, [96_000_000, 0]), (7, [13_714_285, 5]), (999, [96_096, 96]), (1000, [96_000, 0])):
        number, after = report((parents, weights), edges, limit, k)
        t.same((number, figures(after)[2:]), (0, share), k)
    edges[-1], weights[1] = 5, full - 1
    number, after = report((parents, weights), edges, limit, 1000)
    t.same((number, figures(after)[2:]), (0, [95_999, 999]), "one row fewer")
    del edges[-3:]
    weights[1] = full - 6
    number, after = report((parents, weights), edges, limit, 1000)
    t.same((number, figures(after)[2:]), (0, [95_999, 994]), "one edge fewer")


class Shared(Asked):
    """The even share is that of the book's list."""

    def ask(self, net, ties):
        k = self.rng.choice((1, 2, 3, 7, 1000))
        accepted, after = self.divide("report", net, calls.MAX_LIMIT, k)
        if accepted:
            share = after["quotient"] + after["remainder"]
            fits(self.t, share, loads_of(len(after["parents"]), ties), k)
            self.met[tuple(number > 0 for number in share)] += 1


@test(at_least=300_000)
def histories(t):
    """Reports stand between calls of every kind, accepted and refused."""
    met = met_in(Shared(t, random.Random(seed)) for seed in range(310))
    t.true(len(met) == 4 and min(met.values()) > 500, met)


def last_line(t, printed, k, *context):
    """The last line continues with the even share of the loads that stand in the lines above it."""
    *lines, last = printed.splitlines()
    share = re.fullmatch(r"bound \d+ volume \d+ share (\d+) (\d+)", last)
    t.true(share, last, *context)
    fits(t, [int(word) for word in share.groups()], [int(line.split()[3]) for line in lines], k, *context)


def files_of(rng, total, k, least=1):
    """The bytes of marks.ord, ties.rec and want.rec; the limit holds all."""
    n, edges = an_edge_list(rng, total, least)
    return file_of(*rng.sample(range(n), n)), file_of(*nets.flat(edges)), file_of(max(1, total), k)


@test(at_least=430)
def printed_by_blocks(t):
    """The same totals on files, and as many ties as `blocks` takes, of as many rows as they may have."""
    for k in BLOCKS:
        for total, least in (*((total, 1) for total in totals(k)), (24_000, calls.MAX_ROWS)):
            files = files_of(random.Random(repr((k, total))), total, k, least)
            last_line(t, program.run(t, files, k, total), k, total)


@test(at_least=9)
def printed_in_c(t):
    """The example in C with the static library, on a longer list."""
    example = compiled("examples/blocks.c", "example")
    with a_folder() as folder:
        for k in (7, 999, 1000):
            folder.write(**dict(zip(THREE, files_of(random.Random(k), 100_003, k))))
            command = [example, *(folder.path / name for name in THREE)]
            last_line(t, subprocess.run(command, check=True, capture_output=True, text=True).stdout, k)

"""The oracle itself: document 01's nets on paper, its whole case, the laws that the documents state, and runs, moved
forests, ties taken, even shares, marks between two others and rows worked by hand."""

import random

from oracle import between, blocks, calls, neighbours
from oracle.book import Book
from oracle.forest import ABSENT, links, net_of, parents_of, reaches, ties_of
from support import nets
from support.files import ORDER, TIES, WHOLE_CASE, file_of
from support.harness import test

NONE = ABSENT


@test(at_least=10)
def nets_on_paper(t):
    p5 = net_of(3, [(0, 2, 1)])
    t.same(parents_of(1, []), [NONE], "P1")
    t.same(parents_of(3, [(0, 1), (1, 2)]), [1, 2, NONE], "P2")
    t.same(parents_of(4, [(0, 1), (0, 2), (0, 3)]), [1, 2, 3, NONE], "P3")
    t.same(parents_of(4, [(0, 3), (1, 3), (2, 3)]), [3, 3, 3, NONE], "P4")
    t.same(p5[0], [2, NONE, NONE], "P5")
    t.same(calls.add(*p5, [0, 1, 1])[:2], (0, [1, 2, NONE]), "P6")
    t.same(calls.join(*p5, *net_of(3, [(0, 1, 1)]))[:2], (0, [1, 2, NONE]), "P7")
    t.same(reaches([1, 2, 3, NONE], [(0, 1, 1), (0, 2, 1), (0, 3, 1)]), [3, 2, 1, 0], "P8")
    t.same(reaches([3, 3, 3, NONE], [(0, 3, 1), (1, 3, 1), (2, 3, 1)]), [1, 1, 1, 0], "P9")
    t.same(net_of(3, [(0, 1, 1), (0, 1, 1)]), ([1, NONE, NONE], [2, 0, 0]), "P10")


@test(at_least=10)
def whole_case(t):
    def run(limit, k, marks=file_of(*ORDER), ties=file_of(*TIES)):
        return blocks.run(marks, ties, file_of(limit, k))

    t.same(run(4, 2), WHOLE_CASE)
    t.same(run(2, 2), "refused 22\n")
    t.true(run(4, 1).endswith("\nbound 2 volume 0 share 6 0\n"), "volume with one block")
    t.same(run(4, 2, marks=b""), "refused 1\n")
    t.true(run(4, 2, ties=b"").endswith("\nbound 0 volume 0 share 0 0\n"))
    _, flat = calls.translate(ORDER, TIES, TIES)
    parents, loads = net_of(6, ties_of(flat))
    t.same(calls.cutting(parents, loads, 3)[1], {0}, "the only cut with B = 3")
    t.same(run(4, 2, marks=file_of(*ORDER)[:-1]), "refused 6\n")
    t.same(run(4, 2, marks=file_of(0, 0)), "refused 3\n")
    t.same(run(0, 2, ties=file_of(7, 7, 7)), "refused 8\n", "8 before 4")
    t.same(run(4, 2, ties=file_of(1, 1, 1, 7, 7, 1)), "refused 5\n", "the first faulty tie")
    t.same(run(4, 2, ties=file_of(7, 7, 1)), "refused 4\n", "4 before 5")


@test(at_least=20_000)
def laws(t):
    """What the documents claim besides: order of ties, joined parts, ends one above the other, block loads, volume and
    bound, the even share; that a reach is the number of higher neighbours in the game; and that parents only fall, so
    that of several calls the lowest answer is where the forest moved in all."""
    for seed in range(2000):
        rng = random.Random(seed)
        n = rng.randrange(1, 14)
        ties = nets.ties(rng, n, rng.choice(nets.SHAPES))
        parents, loads = net_of(n, ties)
        t.same(net_of(n, nets.another_order(rng, ties)), (parents, loads), "another order", seed)
        half = rng.randrange(len(ties) + 1)
        one, other = net_of(n, ties[:half]), net_of(n, ties[half:])
        t.same(calls.join(*one, *other), (0, parents, loads, calls.moved(one[0], parents)), "joined parts", seed)
        t.true(all(now <= before for before, now in zip(one[0], parents)), "parents only fall", seed)
        third = rng.randrange(half + 1)
        first = net_of(n, ties[:third])
        several = calls.add(*first, nets.flat(ties[third:half])), calls.add(*one, nets.flat(ties[half:]))
        t.same(min(answer for *_, answer in several), calls.moved(first[0], parents), "several calls", seed)
        t.same(parents_of(n, links(parents)), parents, "a forest's own links", seed)
        t.same(reaches(parents, ties), higher_neighbours(n, ties), "reach", seed)
        limit, k = max(loads) + rng.randrange(1, 4), rng.randrange(1, 5)
        _, tops, block, block_loads = calls.division(parents, loads, limit, k)
        t.same(sum(block_loads), sum(loads), "block loads", seed)
        t.true(k * max(block_loads) <= sum(loads) + (k - 1) * limit, "even blocks", seed)
        counts = calls.block_counts_of(n, ties, calls.tie_blocks_of(ties, block))
        t.true(calls.volume_of(counts) <= calls.bound_of(parents, ties, tops), "volume and bound", seed)
        quotient, remainder = calls.share_of(loads, k)
        t.true(quotient * k + remainder == sum(loads) and remainder < k, "even share", seed)


def higher_neighbours(n, ties):
    neighbours = [{b for a, b, _ in ties if a == x} | {a for a, b, _ in ties if b == x} for x in range(n)]
    counts = []
    for x in range(n):
        higher = {y for y in neighbours[x] if y > x}
        counts.append(len(higher))
        for y in higher:
            neighbours[y] |= higher
    return counts


@test(at_least=14)
def runs_by_hand(t):
    """Document 02, Paper 1: an index and its queries; each refusal, and the first of several."""
    starts, runs = [0, 2, 5, 6, 6], [1, 1, 0, 2, 0, 1]
    t.same(neighbours.index([0, 1, 6, 1, 2, 1], [1, 0, 3], [9] * 5, [9] * 6), (0, starts, runs))
    parts = [(0, 0, 2), (0, 2, 3), (0, 5, 1), (0, 6, 0), (4, 0, 0)]
    t.same([neighbours.query(starts, runs, rank) for rank in range(5)], parts)
    t.same(neighbours.index([], [], [9], [9]), (1, [9], [9]), "1 before 2")
    t.same(neighbours.index([0], [], [], [9]), (2, [], [9]), "no starts")
    t.same(neighbours.index([0], [1, 1], [9] * 3, [9] * 2)[0], 2, "two lists that are not whole ties")
    t.same(neighbours.index([1, 1, 1], [], [9] * 3, [9] * 3)[0], 2, "2 before 5")
    t.same(neighbours.index([0, 1, 1, 1, 1, 0], [2, 2, 1], [9] * 3, [9] * 6)[0], 5, "the first faulty tie")
    t.same(neighbours.index([0, 1, 1], [2, 2, 1, 1, 1, 1], [9] * 3, [9] * 6)[0], 4, "4 before 5")
    t.same(neighbours.index([0, 1, 7], [2, 2, 1], [9] * 3, [9] * 4)[0], 32, "the old list first")
    t.same(neighbours.query([], [7], 0), (2, 0, 0))
    t.same(neighbours.query([3], [7], 0), (1, 0, 0), "1 before 30")
    t.same(neighbours.query([0, 2, 1], [7], 2), (30, 0, 0), "30 before 4")
    t.same(neighbours.query([0, 1], [7, 7], 0), (30, 0, 0), "up to the number of neighbours")
    t.same(neighbours.query([1, 1], [7], 0), (30, 0, 0), "from 0")


@test(at_least=12)
def moved_by_hand(t):
    """Document 02, Paper 2: the lowest rank whose parent is now another; a load alone that rises moves nothing."""
    p5 = net_of(3, [(0, 2, 1)])
    t.same(calls.moved([1, 2, NONE], [1, 2, NONE]), NONE, "all as before")
    t.same(calls.moved([2, NONE, NONE], [1, 2, NONE]), 0, "the lowest of two")
    t.same(calls.moved([2, NONE, NONE], [2, 2, NONE]), 1)
    t.same(calls.add(*p5, [0, 1, 1]), (0, [1, 2, NONE], [2, 0, 0], 0), "P6")
    t.same(calls.join(*p5, *net_of(3, [(0, 1, 1)])), (0, [1, 2, NONE], [2, 0, 0], 0), "P7")
    t.same(calls.add(*p5, [2, 1, 1]), (0, [2, 2, NONE], [1, 1, 0], 1))
    t.same(calls.add(*p5, [2, 0, 6]), (0, [2, NONE, NONE], [7, 0, 0], NONE), "a load alone")
    t.same(calls.add(*p5, []), (0, *p5, NONE), "no ties")
    t.same(calls.join(*p5, *p5), (0, [2, NONE, NONE], [2, 0, 0], NONE), "the same net")
    t.same(calls.join(*net_of(3, []), *p5), (0, *p5, 0), "of the first net")
    t.same(calls.add(*p5, [0, 1, 1, 0, 0, 1]), (5, *p5, None), "refused")
    t.same(calls.join(*p5, *net_of(2, [])), (21, *p5, None), "refused")


@test(at_least=9)
def taken_by_hand(t):
    """Document 02, Paper 3: the ties of a rank in list order, up to and with the first that completes the k, or all if
    none does."""
    ties = [(0, 3, 1), (3, 4, 6), (1, 3, 2), (3, 0, 1), (2, 3, 5), (4, 3, 3)]
    blocks = [0, 1, 0, 2, 2]
    tie_blocks = calls.tie_blocks_of(ties, blocks)
    t.same(tie_blocks, [0, 2, 1, 0, 0, 2])
    t.same(calls.ties_taken_of(5, ties, tie_blocks, 3), [2, 1, 1, 3, 2], "a tie that leads down completes the three")
    t.same(calls.ties_taken_of(5, ties, tie_blocks, 4), [2, 1, 1, 6, 2], "none completes the four")
    t.same(calls.ties_taken_of(5, ties, tie_blocks, 1), [1] * 5)
    t.same(calls.ties_taken_of(5, ties[::-1], tie_blocks[::-1], 3), [2, 1, 1, 4, 2], "another order")
    later = [ties[place] for place in (0, 2, 3, 4, 1, 5)]
    taken = calls.ties_taken_of(5, later, calls.tie_blocks_of(later, blocks), 3)
    t.same(taken[3], 5, "a tie that leads up completes the three")
    t.same(calls.ties_taken_of(2, [], [], 1), [0, 0], "no ties")
    _, flat = calls.translate(ORDER, TIES, TIES)
    parents, loads = net_of(6, ties_of(flat))
    for limit, k, taken in ((4, 2, [3, 2, 3, 1, 2, 1]), (3, 2, [3, 2, 2, 1, 2, 1]), (4, 1, [1] * 6)):
        lent = [[9] * length for length in (6, 6, 6, k, 6, 6, 6, 6, 6, 6)]
        t.same(calls.report(parents, loads, limit, k, flat, *lent)[8], taken, "the whole case", limit, k)
        lent[7] = [9] * 5
        t.same(calls.report(parents, loads, limit, k, flat, *lent), (2, *lent, *[None] * 4), "of another length")


@test(at_least=11)
def share_by_hand(t):
    """Document 02, Paper 4: the total divided by k, with the whole quotient and the remainder. The total is that of the
    loads."""
    for loads, k, share in (
        ([0], 1, (0, 0)), ([0, 0], 1000, (0, 0)), ([6], 1, (6, 0)), ([3, 2, 1, 0], 2, (3, 0)), ([3, 2, 1], 4, (1, 2)),
        ([5], 6, (0, 5)), ([6], 6, (1, 0)), ([3, 4], 6, (1, 1)), ([5, 6], 6, (1, 5)), ([7, 5], 6, (2, 0)),
        ([48_000_000, 48_000_000], 999, (96_096, 96)),
    ):
        t.same(calls.share_of(loads, k), share, loads, k)


@test(at_least=26)
def between_by_hand(t):
    """Document 02, Paper 5: the marks above both at the front of the table, lowest first; each refusal, and the first
    of several."""
    parents, loads = [2, 3, 4, 4, 5, NONE, NONE], [8, 4, 2, 0, 0, 0, 0]
    ties, lent = [0, 2, 6, 0, 4, 1, 1, 3, 3, 1, 4, 1, 2, 5, 2, 2, 0, 1], [[9] * 7 for _ in range(3)]

    def asked(one, other, flat=ties, loads=loads, parents=parents, lent=lent):
        return between.separate(parents, loads, one, other, flat, *lent)

    for one, other in ((0, 1), (2, 3), (3, 0), (2, 1)):
        t.same(asked(one, other), (0, [4, 5, 9, 9, 9, 9, 9], parents, loads, 2, 4), one, other)
    for one, other in ((0, 6), (6, 5)):
        t.same(asked(one, other), (0, [9] * 7, parents, loads, 0, NONE), "no chain", one, other)
    for one, other in ((0, 0), (6, 6), (0, 2), (2, 0), (5, 1)):
        t.same(asked(one, other), (31, lent[0], parents, loads, None, None), one, other)
    unchanged = *lent, None, None
    fewer = parents_of(7, [(0, 4), (1, 3), (1, 4), (2, 5), (2, 0)]), [2, 4, 2, 0, 0, 0, 0]
    t.same(asked(0, 0, ties[3:]), (23, lent[0], *fewer, None, None), "23 before 31")
    t.same(asked(0, 7, [3, 3, 1]), (4, *unchanged), "before any tie is looked at")
    t.same(asked(7, 0, [3, 2, 7]), (4, *unchanged), "either rank")
    t.same(asked(0, 0, [3, 3, 1, 7, 7, 1]), (5, *unchanged), "the first faulty tie")
    t.same(asked(0, 0, [3, 7, 1, 3, 3, 1]), (4, *unchanged), "the first faulty tie")
    t.same(asked(0, 0, [3, 2, 0, 3, 7, 1]), (32, *unchanged), "the first faulty tie")
    t.same(asked(7, 7, [3, 3, 1], [96_000_000, 1, 0, 0, 0, 0, 0]), (30, *unchanged), "30 before 4")
    t.same(asked(7, 7, [3, 3, 1], parents=[0] * 7), (30, *unchanged), "a damaged net")
    for part in ([3], [3, 3], [3, 3, 1, 3]):
        t.same(asked(7, 7, part, parents=[0] * 7), (2, *unchanged), "not whole ties")
    for place in range(3):
        short = lent[:place] + [[9] * 6] + lent[place + 1:]
        t.same(asked(7, 7, parents=[0] * 7, lent=short), (2, *short, None, None), "of another length", place)
    t.same(asked(0, 0, [3], parents=[]), (1, *unchanged), "1 before 2")


@test(at_least=37)
def rows_by_hand(t):
    """Document 02, Paper 6: loads are sums of rows; 32 is found at the first faulty tie, after 5; a total is one of
    96,000,000 rows; the book keeps each tie with its rows; a tie file has records of 12 bytes."""
    ties, apart = [(0, 2, 6), (1, 2, 3), (2, 0, 1)], [NONE] * 3
    t.same(net_of(3, ties), ([2, 2, NONE], [7, 3, 0]))
    t.same(reaches([2, 2, NONE], ties), [1, 1, 0], "not in rows")
    t.same(calls.translate([2, 0, 1], [0, 1, 6, 2, 0, 3], [9] * 6), (0, [1, 2, 6, 0, 1, 3]), "rows stay")
    for number, flat in (
        (0, [0, 1, 1, 1, 2, 6]), (32, [0, 1, 0]), (32, [0, 1, 7]), (32, [1, 0, ABSENT]), (5, [1, 1, 0]), (4, [3, 3, 0]),
        (32, [0, 1, 7, 3, 0, 1]), (32, [0, 1, 0, 1, 1, 1]), (5, [1, 1, 1, 0, 1, 0]), (4, [0, 3, 1, 0, 1, 0]),
    ):
        t.same(calls.fault(3, flat), number, flat)
        t.same(calls.add(apart, [0] * 3, flat)[0], number, flat)
    t.same([length for length in range(9) if not calls.not_whole([0] * length)], [0, 3, 6])
    for load, number in ((95_999_994, 0), (95_999_995, 20)):
        t.same(calls.add(apart, [0, load, 0], [0, 1, 6])[0], number, load)
        t.same(calls.join(apart, [0, load, 0], apart, [6, 0, 0])[0], number, load)
        t.same(calls.read(apart, [0] * 3, calls.link_file(apart, [6, load, 0]))[0], number, load)
    book = Book()
    book.start(1, True)
    book.add(1, [0, 2, 6, 1, 2, 3], True)
    book.add(1, [2, 0, 1], True)
    t.same(book.nets[1], ties)
    for length, number in ((48_000, 5), (48_001, 6), (48_011, 6), (48_012, 2), (48_024, 2), (48_025, 2)):
        t.same(blocks.refusal(file_of(*ORDER), bytes(length), file_of(4, 2)), number, length)

"""The history of replay.c, carried out by the oracle alone: the same draws in the same order, and the same lines. The
tables of a struct stand one behind the other, in the order in which the oracle is given them."""

import itertools

from oracle import between, calls, neighbours
from oracle.forest import tie_count

NETS, FILES, ROOM, EDGES, BLOCKS = 5, 3, 100, 20, 4
ANY = 0xFFFFFFFF
MASK = 2**64 - 1


def digest(table):
    """FNV-1a over the entries."""
    folded = 14695981039346656037
    for entry in table:
        folded = (folded ^ entry) * 1099511628211 & MASK
    return f" {folded >> 32:08x}"


def end_to_end(tables):
    return list(itertools.chain(*tables))


def work_length(n, m):
    """The room for calls on a net of n vertices with lists of m edges."""
    return 2 * n + max(n + m, 2 * n)


def worked(work, needed):
    """The room that a call has worked in: zeros in front."""
    return [0] * needed + work[needed:]


class Model:
    def __init__(self, seed, n):
        self.state = seed
        self.nets = [self.any_net(n) for _ in range(NETS)]
        self.files = [self.any_file(n) for _ in range(FILES)]
        self.latest = [[] for _ in range(NETS)]
        self.indexes = [self.lent(1, 0) for _ in range(NETS)]
        self.answers = []

    def draw(self, limit):
        self.state = (self.state * 6364136223846793005 + 1442695040888963407) & MASK
        return (self.state >> 32) % limit

    def rarely(self):
        return self.draw(20) == 0

    def entries(self, length):
        return [self.draw(ANY) for _ in range(length)]

    def lent(self, *lengths):
        """Tables of a struct."""
        return [self.entries(length) for length in lengths]

    def work(self, n, m):
        """Rarely cut short."""
        room = self.entries(work_length(n, m))
        return room[:self.draw(len(room) + 1)] if self.rarely() else room

    def almost(self, n):
        return n + self.rarely()

    def any_net(self, n):
        n = self.draw(ROOM) if self.rarely() else n
        parents, loads = self.lent(n, n)
        kind = self.draw(3)
        for rank in range(n if kind else 0):
            above = rank + 1 + self.draw(n)
            parents[rank] = above if above < n else ANY
            loads[rank] = self.draw(4)
        if kind == 2 and loads:
            loads[0] += calls.MAX_TOTAL - sum(loads) - self.draw(60)
        return parents, loads

    def any_file(self, n):
        length = self.draw(8 * ROOM) if self.rarely() else 8 * n
        return [0 if self.draw(3) == 0 else 255 for _ in range(length)]

    def edge(self, n):
        a, b = (self.draw(n + (self.draw(200) == 0)) for _ in range(2))
        if a == b and self.draw(50) != 0:
            a = (a + 1) % n
        rows = 7 * self.draw(2) if self.draw(200) == 0 else 1 + self.draw(calls.MAX_ROWS)
        return a, b, rows

    def edges(self, n):
        flat = end_to_end([self.edge(n) for _ in range(self.draw(EDGES))])
        return flat + [0] * (1 + self.draw(2)) if self.rarely() else flat

    def vertices(self, net):
        return max(1, len(self.nets[net][0]))

    def grown(self, net, more, outcome, work):
        """A call that grows a net by so many edges or vertices: a room that is too short is 2, if nothing before 2
        applies. The cell that it is lent holds 7 before."""
        number, *after, moved = outcome
        needed = 3 * len(self.nets[net][0]) + more
        if number != 1 and len(work) < needed:
            number = 2
        if number == 0:
            self.nets[net], work = after, worked(work, needed)
        self.figures = f" {7 if number else moved}"
        return number, [work]

    def start(self, net):
        number, *self.nets[net] = calls.start(*self.nets[net])
        return f"start {net}", number, []

    def add(self, net):
        flat = self.latest[net] = self.edges(self.vertices(net))
        work = self.work(len(self.nets[net][0]), tie_count(flat))
        return f"add {net}", *self.grown(net, tie_count(flat), calls.add(*self.nets[net], flat), work)

    def join(self, net, other):
        work = self.work(len(self.nets[net][0]), 0)
        outcome = calls.join(*self.nets[net], *self.nets[other])
        return f"join {net} {other}", *self.grown(net, len(self.nets[other][0]), outcome, work)

    def save(self, net, file):
        number, self.files[file] = calls.save(*self.nets[net], self.files[file])
        return f"save {net} {file}", number, []

    def read(self, net, file):
        number, *self.nets[net] = calls.read(*self.nets[net], self.files[file])
        return f"read {net} {file}", number, []

    def relabel(self, net):
        n = self.vertices(net)
        turn = self.draw(n)
        flat = self.edges(n)
        work, out = self.work(len(self.nets[net][0]), tie_count(flat)), self.entries(len(flat))
        order = [(i + turn) % n for i in range(n)]
        if self.rarely():
            place = self.draw(n)
            order[place] = self.draw(n)
        number, written = calls.translate(order, flat, out)
        if len(work) < n and number != 1:
            return "relabel", 2, [out, work]
        if number == 0:
            work[:n] = [order.index(mark) for mark in range(n)]
        return "relabel", number, [written, work]

    def divide(self, net):
        n = self.almost(len(self.nets[net][0]))
        limit, blocks = self.draw(40), self.draw(BLOCKS + 1)
        number, *lent = calls.divide(*self.nets[net], limit, blocks, *self.lent(n, n, n, blocks))
        return f"divide {net}", number, [end_to_end(lent)]

    def report(self, net):
        """On the list that was last lent to an addition: the net's own, if it was the first."""
        flat, n = self.latest[net], self.almost(len(self.nets[net][0]))
        limit, blocks = 1 + self.draw(70), 1 + self.draw(BLOCKS)
        lent = self.lent(n, n, n, blocks, tie_count(flat), n, n, n, n, n)
        outcome = calls.report(*self.nets[net], limit, blocks, flat, *lent)
        return f"report {net}", *self.compared(net, outcome, lent)

    def separate(self, net):
        """Two ranks, on the list that was last lent to an addition."""
        flat, n = self.latest[net], self.almost(len(self.nets[net][0]))
        one, other = self.draw(self.vertices(net) + 1), self.draw(self.vertices(net) + 1)
        lent = self.lent(n, n, n)
        outcome = between.separate(*self.nets[net], one, other, flat, *lent)
        return f"separate {net}", *self.compared(net, outcome, lent)

    def compared(self, net, outcome, lent):
        """A call given the net's own edges: it has worked after 23 and 31 too. Each cell holds 7 before."""
        n, m = len(self.nets[net][0]), tie_count(self.latest[net])
        work, needed = self.work(n, m), 3 * n + m
        number, after, cells = outcome[0], list(outcome[1:len(lent) + 1]), outcome[len(lent) + 1:]
        if number != 1 and len(work) < needed:
            number, after = 2, lent
        if number in (0, 23, 31):
            work = worked(work, needed)
        self.figures = "".join(f" {7 if number else cell}" for cell in cells)
        return number, [end_to_end(after), work]

    def index(self, net):
        """Of the list that was last lent to an addition, and some more."""
        flat, added = self.latest[net], self.edges(self.vertices(net))
        lent = self.lent(self.almost(self.vertices(net)) + 1, 2 * (tie_count(flat) + tie_count(added)))
        number, *self.indexes[net] = neighbours.index(flat, added, *lent)
        return f"index {net}", number, [end_to_end(self.indexes[net])]

    def query(self, net):
        rank = self.draw(self.vertices(net) + 1)
        number, first, count = neighbours.query(*self.indexes[net], rank)
        self.figures = f" {first} {count}"
        return f"query {net}", number, []

    def step(self):
        """Makes the next call; answers its line."""
        self.figures = ""
        call, net = self.draw(27), self.draw(NETS)
        other, file = (net + 1 + self.draw(NETS - 1)) % NETS, self.draw(FILES)
        if call == 0:
            name, number, lent = self.start(net)
        elif call < 8:
            name, number, lent = self.add(net)
        elif call < 11:
            name, number, lent = self.join(net, other)
        elif call < 14:
            name, number, lent = self.save(net, file)
        elif call < 17:
            name, number, lent = self.read(net, file)
        elif call < 18:
            name, number, lent = self.relabel(net)
        elif call < 20:
            name, number, lent = self.divide(net)
        elif call < 22:
            name, number, lent = self.report(net)
        elif call < 23:
            name, number, lent = self.index(net)
        elif call < 25:
            name, number, lent = self.separate(net)
        else:
            name, number, lent = self.query(net)
        self.answers.append((name.split()[0], number))
        world = [end_to_end(net) for net in self.nets] + self.files
        return f"{name} {number}" + "".join(map(digest, lent)) + self.figures + " :" + "".join(map(digest, world))

"""Random lists of calls over several nets and files, accepted and refused, with the book of ties kept beside."""

import collections

from oracle import calls
from oracle.book import Book
from oracle.forest import ABSENT, net_of, tie_count
from support import inputs, nets
from support.library import CALLS

NETS, FILES = range(4), range(2)

# what is drawn from: adding and joining come twice as often as the others
DRAWN = ("start", "add", "add", "join", "join", "save", "read", "relabel", "divide", "report", "index", "separate")


class History:
    """A world of nets and files that holds anything at first, the calls made on it, and the book that is kept
    beside."""

    def __init__(self, t, rng, most=8):
        self.t, self.rng, self.book = t, rng, Book()
        n = rng.randrange(1, most + 1)
        self.nets = {net: self.any_net(n if rng.random() < 0.8 else rng.randrange(most + 2)) for net in NETS}
        self.files = {file: self.any_file(n) for file in FILES}
        self.answers = []
        for net in NETS[:self.rng.randrange(len(NETS))]:
            self.start(net)

    def any_net(self, n):
        kind = self.rng.randrange(4)
        if kind == 0:
            return [nets.garbage(self.rng, n), nets.garbage(self.rng, n)]
        if kind == 1:
            return [[ABSENT] * n, [0] * max(0, n + self.rng.randrange(-1, 2))]
        parents, weights = nets.sound_net(self.rng, n)
        if kind == 2 and n:
            weights[0] = calls.MAX_TOTAL - sum(weights[1:]) - self.rng.randrange(40)
        return [parents, weights]

    def any_file(self, n):
        if self.rng.random() < 0.6:
            return list(self.rng.randbytes(8 * n if self.rng.random() < 0.7 else self.rng.randrange(60)))
        parents, weights = nets.sound_net(self.rng, n)
        weights[-1] = calls.MAX_TOTAL + self.rng.choice((0, 1)) - sum(weights[:-1])
        return calls.link_file(parents, weights)

    def run(self, name, given):
        """Makes a call and notes its number; answers the number, and what it wrote."""
        number, after = CALLS[name].run(self.t, given)
        self.answers.append((name, number))
        return number, after

    def call(self, name, net, **others):
        """Makes a call on a net, with a work table too long now and then; answers whether it was accepted, and what it
        wrote."""
        parents, weights = self.nets[net]
        given = {"parents": parents, "weights": weights} | others | inputs.cells(self.rng, name)
        given = inputs.with_work(self.rng, name, given)
        for table in CALLS[name].named("work"):
            given[table] += [0] * (self.rng.random() < 0.02)
        number, after = self.run(name, given)
        self.nets[net] = [after["parents"], after["weights"]]
        return number == 0, after

    def edges(self, net):
        n = len(self.nets[net][0])
        flat = nets.flat(nets.ties(self.rng, n, self.rng.choice(nets.SHAPES))) if n > 1 else []
        if self.rng.random() < 0.1:
            flat = flat + self.rng.choice(([0], [0, 1], [n, 0, 1], [0, 0, 1], [ABSENT, 1, 1], [0, 1, 0], [0, 1, 7]))
        return flat

    def own_edges(self, net):
        """A net's own list if it has one."""
        ties = self.book.nets.get(net)
        return self.edges(net) if ties is None else nets.flat(ties)

    def written(self, name, net):
        """The tables that a call writes, as long as a net."""
        return {table: nets.garbage(self.rng, len(self.nets[net][0])) for table in CALLS[name].named("written")}

    def two_ranks(self, net):
        """Of a net; now and then one of them is n."""
        return self.rng.choices(range(max(1, len(self.nets[net][0]) + (self.rng.random() < 0.1))), k=2)

    def step(self):
        """Makes the next call."""
        name = self.rng.choice(DRAWN)
        net, other = self.rng.sample(NETS, 2)
        file = self.rng.choice(FILES)
        if name == "join":
            self.join(net, other)
        elif name in ("save", "read"):
            getattr(self, name)(net, file)
        elif name in ("divide", "report"):
            self.divide(name, net, self.rng.randrange(30), self.rng.randrange(4))
        elif name == "separate":
            self.separate(net, *self.two_ranks(net))
        elif name == "relabel":
            self.run(name, inputs.accepted(self.rng, name, 4))
        else:
            getattr(self, name)(net)

    def start(self, net):
        accepted, _ = self.call("start", net)
        self.book.start(net, accepted)

    def add(self, net):
        flat = self.edges(net)
        accepted, _ = self.call("add", net, edges=flat)
        self.book.add(net, flat, accepted)

    def join(self, net, other):
        parents, weights = self.nets[other]
        accepted, _ = self.call("join", net, other_parents=parents, other_weights=weights)
        self.book.join(net, other, accepted)

    def save(self, net, file):
        accepted, after = self.call("save", net, bytes=self.files[file])
        self.files[file] = after["bytes"]
        self.book.save(net, file, accepted)

    def read(self, net, file):
        accepted, _ = self.call("read", net, bytes=self.files[file])
        self.book.read(net, file, accepted)

    def divide(self, name, net, limit, k):
        """Divides a net, or reports on it with its own list if it has one; answers what `call` does."""
        flat = self.own_edges(net)
        others = {"limit": limit, "blocks": k, "block_loads": nets.garbage(self.rng, k)}
        others |= {"edges": flat, "edge_blocks": nets.garbage(self.rng, tie_count(flat))}
        return self.call(name, net, **(self.written(name, net) | others))

    def separate(self, net, one, other):
        """Asks what lies between two ranks of a net; answers what `call` does."""
        lent = self.written("separate", net) | {"one": one, "other": other, "edges": self.own_edges(net)}
        return self.call("separate", net, **lent)

    def index(self, net):
        """Indexes a net's own list if it has one, which may have come in parts, and asks for a rank."""
        n, ties = len(self.nets[net][0]), self.book.nets.get(net)
        if ties is not None:
            place = self.rng.randrange(len(ties) + 1)
            lists = nets.flat(ties[:place]), nets.flat(ties[place:])
        else:
            lists = self.edges(net), self.edges(net)
        _, index = self.run("index", inputs.indexing(self.rng, n, *lists))
        self.run("query", inputs.querying(self.rng, index["starts"], index["neighbours"], self.rng.randrange(n + 2)))

    def claim(self):
        """What the book says of every net and file with a list."""
        for net, ties in self.book.nets.items():
            if ties is not None:
                self.claim_net(self.nets[net], ties)
        for file, ties in self.book.files.items():
            if ties is not None:
                n = len(self.files[file]) // 8
                self.t.same(self.files[file], calls.link_file(*net_of(n, ties)))

    def claim_net(self, net, ties):
        """It is the net of its list, in any order in which each tie keeps its rows, and what is made of it fits the
        list."""
        n, rng = len(net[0]), self.rng
        for its in (ties, nets.another_order(rng, ties)):
            self.t.same(tuple(net), net_of(n, its), its)
        k, limit = rng.randrange(1, 4), rng.randrange(1, 30)
        if max(net[1]) <= limit:
            _, tops, block, _ = calls.division(*net, limit, k)
            volume = calls.volume_of(calls.block_counts_of(n, ties, calls.tie_blocks_of(ties, block)))
            self.t.true(volume <= calls.bound_of(net[0], ties, tops), net, ties, limit, k)
        tables = {"parents": net[0], "weights": net[1]}
        number, _ = CALLS["report"].run(self.t, inputs.reporting(rng, tables, ties, limit, k))
        self.t.true(number in (0, 22), number, net, ties)
        given = inputs.separating(rng, n, ties, *rng.choices(range(n), k=2)) | tables
        number, _ = CALLS["separate"].run(self.t, given)
        self.t.true(number in (0, 31), number, net, ties)


class Asked(History):
    """A history in which each net with a list is asked for something after every call; what is met is counted."""

    def __init__(self, t, rng, most=8):
        super().__init__(t, rng, most)
        self.met = collections.Counter()

    def step(self):
        super().step()
        for net, ties in self.book.nets.items():
            if ties is not None:
                self.ask(net, ties)


def met_in(histories):
    """What is met in histories of two dozen calls each."""
    met = collections.Counter()
    for history in histories:
        for _ in range(24):
            history.step()
        met += history.met
    return met

"""Small nets of many shapes, and tables that did not come from ties. All randomness is from the generator that is
handed in."""

from oracle.calls import MAX_ROWS
from oracle.forest import ABSENT


def path(rng, n):
    return [(x, x + 1) for x in range(n - 1)]


def tall(rng, n):
    """Rank 0 tied to all: one chain of parents."""
    return [(0, x) for x in range(1, n)]


def star(rng, n):
    """All tied to the last."""
    return [(x, n - 1) for x in range(n - 1)]


def complete(rng, n):
    return [(a, b) for a in range(n) for b in range(a)]


def cycle(rng, n):
    return path(rng, n) + ([(n - 1, 0)] if n > 1 else [])


def grid(rng, n):
    width = rng.randrange(1, 8)
    return [(x, x + 1) for x in range(n - 1) if (x + 1) % width] + [(x, x + width) for x in range(n - width)]


def tree(rng, n):
    return [(x, rng.randrange(x)) for x in range(1, n)]


def power_law(rng, n):
    """Each mark is tied to ends of earlier ties."""
    ends, ties = [0], []
    for x in range(1, n):
        for _ in range(2):
            y = rng.choice(ends)
            ties.append((x, y))
            ends += [y]
        ends += [x]
    return ties


def sparse(rng, n):
    return [rng.sample(range(n), 2) for _ in range(rng.randrange(n))] if n > 1 else []


def dense(rng, n):
    return [rng.sample(range(n), 2) for _ in range(3 * n)] if n > 1 else []


def islands(rng, n):
    """Ties within runs of five marks, the marks then dealt out anew."""
    return [(x, y) for x in range(n) for y in range(x) if x // 5 == y // 5 and rng.random() < 0.6]


def none(rng, n):
    return []


SHAPES = [path, tall, star, complete, cycle, grid, tree, power_law, sparse, dense, islands, none]


def with_rows(rng, pairs):
    """Ties between pairs of marks, with any rows that a tie may have."""
    return [(a, b, rng.randint(1, MAX_ROWS)) for a, b in pairs]


def one_row(pairs):
    """Ties between pairs of marks, each of one row."""
    return [(a, b, 1) for a, b in pairs]


def turned(tie):
    """The same tie with its ends exchanged."""
    a, b, rows = tie
    return b, a, rows


def either_way(rng, ties):
    """The same ties, the ends of each in either order."""
    return [tie if rng.random() < 0.5 else turned(tie) for tie in ties]


def another_order(rng, ties):
    """The same ties in another order, the ends of each in either order."""
    return either_way(rng, rng.sample(ties, len(ties)))


def ties(rng, n, shape):
    """A list of ties of a shape among n marks: in a random order of the marks or the shape's own, the ties shuffled or
    not, some repeated, the ends of each in either order. A tie that is repeated may have other rows."""
    found = [tuple(pair) for pair in shape(rng, n)]
    if rng.random() < 0.5:
        order = rng.sample(range(n), n)
        found = [(order[a], order[b]) for a, b in found]
    if found and rng.random() < 0.3:
        found += rng.choices(found, k=rng.randrange(1, 4))
    if rng.random() < 0.5:
        rng.shuffle(found)
    return either_way(rng, with_rows(rng, found))


def flat(ties):
    return [number for tie in ties for number in tie]


def sound_net(rng, n):
    """A sound table of parents with loads, as no ties need have made it."""
    parents = [rng.choice([ABSENT] + list(range(x + 1, n))) for x in range(n)]
    return parents, [rng.choice((0, 0, 1, 2, 1000)) for _ in range(n)]


def garbage(rng, n):
    return [rng.getrandbits(32) for _ in range(n)]


def zeros(rng, n):
    return [0] * n

"""The commands grow and join: the link files and the line of the oracle, and the refusals of two link files."""

import random

from oracle import calls
from support import nets
from support.files import file_of, link_file, moved_line
from support.folder import a_folder
from support.harness import test
from support.refused import untouched


@test(at_least=400)
def grown_and_joined(t):
    """Two nets grown from files and joined are those of the oracle, and the joined one is that of all ties; printed is
    where the first of them moved."""
    met = set()
    with a_folder() as folder:
        for seed in range(70):
            rng = random.Random(seed)
            n = rng.randrange(1, 20)
            order = rng.sample(range(n), n)
            lists = [nets.flat(nets.ties(rng, n, rng.choice(nets.SHAPES))) for _ in range(2)]
            folder.write(marks_ord=file_of(*order))
            for name, edges in zip(("a.link", "b.link"), lists):
                folder.write(ties_rec=file_of(*edges))
                t.same(folder.run("grow", "marks.ord", "ties.rec", name), (0, "", ""), seed)
                t.same((folder.path / name).read_bytes(), link_file(order, edges), seed, name)
            out, joined = rng.choice(("a.link", "b.link", "out.link")), link_file(order, lists[0] + lists[1])
            line = moved_line(link_file(order, lists[0]), joined)
            t.same(folder.run("join", "a.link", "b.link", out), (0, line, ""), seed)
            t.same((folder.path / out).read_bytes(), joined, seed)
            met.add(line)
    t.true({"none moved\n", "moved 0\n", "moved 1\n"} <= met, met)


def join_refusal(one, other):
    """Document 01's order: 1, 6, 21, 7, 20."""
    counts = len(one) // 8, len(other) // 8
    if 0 in counts:
        return 1
    if len(one) % 8 or len(other) % 8:
        return 6
    if counts[0] != counts[1]:
        return 21
    if any(calls.breaks_rule_of_7(calls.words(link)[0::2]) for link in (one, other)):
        return 7
    return 20 if sum(calls.words(one)[1::2] + calls.words(other)[1::2]) > calls.MAX_TOTAL else 0


def broken_link(rng, n):
    """A link file, now and then with a number changed or cut off."""
    numbers = [number for record in zip(*nets.sound_net(rng, n)) for number in record]
    if rng.random() < 0.4:
        others = (0, 1, calls.MAX_TOTAL, calls.MAX_TOTAL + 1, 0xFFFFFFFF)
        numbers[rng.randrange(len(numbers))] = rng.choice(others)
    link = file_of(*numbers)
    return link[:rng.randrange(len(link))] if rng.random() < 0.15 else link


@test(at_least=600)
def broken_links(t):
    """Link files with several faults at once."""
    seen = set()
    with a_folder() as folder:
        for seed in range(250):
            rng = random.Random(seed)
            links = [broken_link(rng, n) for n in rng.choice(((3, 3), (3, 3), (3, 4)))]
            folder.write(a_link=links[0], b_link=links[1], out=rng.choice((b"old", None)))
            number = join_refusal(*links)
            seen.add(number)
            if number:
                untouched(t, folder, ("join", "a.link", "b.link", "out"), number, seed)
            else:
                _, *net, _ = calls.join(*(calls.words(link)[half::2] for link in links for half in range(2)))
                joined = bytes(calls.link_file(*net))
                t.same(folder.run("join", "a.link", "b.link", "out"), (0, moved_line(links[0], joined), ""), seed)
                t.same((folder.path / "out").read_bytes(), joined, seed)
    t.same(seen, {0, 1, 6, 7, 20, 21})

"""The command add: the link file and the line of the oracle, and its refusals in document 01's order."""

import itertools
import random

from oracle import blocks, calls
from oracle.forest import ties_of
from support import nets
from support.broken import broken
from support.files import ORDER, TIES, WHOLE, file_of, link_file, moved_line
from support.folder import a_folder, full_disk
from support.harness import test
from support.refused import FAULTS, untouched

FILES = "marks.ord", "net.link", "ties.rec"
COMMAND = ("add", *FILES, "out.link")


def refusal(marks, link, ties):
    """Of a run over the bytes of three files."""
    n, numbers = len(marks) // 4, calls.words(link)
    if calls.bad_count(n):
        return 1
    if len(marks) % 4 or len(link) != 8 * n or len(ties) % blocks.TIE:
        return 6
    if calls.bad_order(calls.words(marks)):
        return 3
    if calls.fault(n, calls.words(ties)):
        return calls.fault(n, calls.words(ties))
    if calls.breaks_rule_of_7(numbers[0::2]):
        return 7
    return 20 if sum(numbers[1::2]) + calls.rows_of(ties_of(calls.words(ties))) > calls.MAX_TOTAL else 0


def added(marks, link, ties):
    """The link file of a net with ties added, all as bytes."""
    order, numbers, flat = (calls.words(data) for data in (marks, link, ties))
    _, ranks = calls.translate(order, flat, flat)
    _, *net, _ = calls.add(numbers[0::2], numbers[1::2], ranks)
    return bytes(calls.link_file(*net))


def accepted(t, folder, files, out, *context):
    """The command is carried out on files, and what it writes and prints is the oracle's; answers the line."""
    wanted = added(*files)
    folder.write(**dict(zip((name.replace(".", "_") for name in FILES), files)))
    line = moved_line(files[1], wanted)
    t.same(folder.run(*COMMAND[:-1], out), (0, line, ""), *context)
    t.same((folder.path / out).read_bytes(), wanted, *context)
    return line


@test(at_least=700)
def many_nets(t):
    """Ties in two or more lists, added to the net of the first: the last link file is that of all ties, whichever file
    it replaces. And ties added to nets that no ties made."""
    met = set()
    with a_folder() as folder:
        for seed in range(150):
            rng = random.Random(seed)
            n = rng.randrange(1, 30)
            order, ties = rng.sample(range(n), n), nets.ties(rng, n, rng.choice(nets.SHAPES))
            place, marks = rng.randrange(len(ties) + 1), file_of(*order)
            link = link_file(order, nets.flat(ties[:place]))
            while place < len(ties):
                some = ties[place:place + rng.randrange(1, len(ties) - place + 1)]
                out = rng.choice(("net.link", "out.link", "ties.rec"))
                met.add(accepted(t, folder, (marks, link, file_of(*nets.flat(some))), out, seed))
                link, place = (folder.path / out).read_bytes(), place + len(some)
            t.same(link, link_file(order, nets.flat(ties)), seed)
            met.add(accepted(t, folder, (marks, link, b""), "out.link", seed))
            sound = bytes(calls.link_file(*nets.sound_net(rng, n)))
            met.add(accepted(t, folder, (marks, sound, file_of(*nets.flat(ties))), "out.link", seed))
    t.true({"none moved\n", "moved 0\n", "moved 1\n", "moved 2\n"} <= met, met)


@test(at_least=120)
def refusals(t):
    """Those of the order and the ties, each with a link file of as many records and behind it; those of the link file;
    and the first of several, with no output there and with an old one."""
    net = link_file(ORDER, TIES)
    full_net = file_of(1, calls.MAX_TOTAL - 1) + file_of(0xFFFFFFFF, 0) * 5
    faults = [(number, fault | {"net_link": file_of(0, 0) * records}) for number, fault in FAULTS
              for records in [len(fault.get("marks_ord", WHOLE["marks_ord"])) // 4]]
    faults += [(6, {"net_link": link}) for link in (b"", net[:-1], net[:-8], net + b"\0", net + net[:8])]
    faults += [(6, {"net_link": net[:-8], "marks_ord": file_of(0, 0, 1, 2, 3, 4), "ties_rec": file_of(0, 0, 1)}),
               (7, {"net_link": file_of(0, 0) + net[8:]}),
               (7, {"net_link": file_of(0, calls.MAX_TOTAL + 1) + net[8:]}),
               (20, {"net_link": file_of(1, calls.MAX_TOTAL + 1) + full_net[8:], "ties_rec": b""}),
               (20, {"net_link": full_net}),
               (20, {"net_link": full_net, "ties_rec": file_of(0, 1, 2)}),
               (5, {"net_link": full_net, "ties_rec": file_of(0, 1, 1, 0, 1, 1, 2, 2, 1)}),
               (32, {"net_link": full_net, "ties_rec": file_of(0, 1, 1, 0, 1, 1, 0, 1, 7)}),
               (1, {"net_link": b"", "marks_ord": b""})]
    with a_folder() as folder:
        for number, fault in faults:
            for out in (None, b"old"):
                folder.write(**WHOLE | {"net_link": net} | fault, out_link=out)
                untouched(t, folder, COMMAND, number, str(fault)[:200])
        folder.write(**WHOLE, net_link=full_net, out_link=None)
        untouched(t, folder, (*COMMAND[:-1], "net.link"), 20, "the file that would be replaced")
        files = WHOLE["marks_ord"], full_net, file_of(0, 1, 1)
        t.same(accepted(t, folder, files, "net.link"), "moved 1\n", "just full")


@test(at_least=900)
def broken_files(t):
    """A byte now and then changed or left out in one or two files: refused as document 01 says, or done."""
    met = set()
    with a_folder() as folder:
        for seed in range(400):
            rng = random.Random(seed)
            n = rng.randrange(1, 6)
            parents, loads = nets.sound_net(rng, n)
            loads[0] = calls.MAX_TOTAL - sum(loads[1:]) - rng.randrange(28) if seed % 4 == 0 else loads[0]
            faulty = rng.choice((file_of(0, 0, 1), file_of(0, 1, 0))) * (seed % 10 == 0)
            files = [file_of(*rng.sample(range(n), n)), bytes(calls.link_file(parents, loads)),
                     file_of(*nets.flat(nets.ties(rng, n, rng.choice(nets.SHAPES)))) + faulty]
            for _ in range(rng.randrange(1, 3)):
                files = broken(rng, files, values=5)
            number = refusal(*files)
            met.add(number)
            if number:
                folder.write(marks_ord=files[0], net_link=files[1], ties_rec=files[2])
                untouched(t, folder, COMMAND, number, seed)
            else:
                accepted(t, folder, files, "out.link", seed)
    t.same(met, {0, 1, 3, 4, 5, 6, 7, 20, 32})


@test(at_least=20)
def unusable(t):
    """A file that is not there, an output that is no file, and a disk that is full: 2, a line that says so, and no file
    touched."""
    with a_folder() as folder:
        folder.write(**WHOLE, net_link=link_file(ORDER, []), out_link=b"old")
        (folder.path / "taken").mkdir()
        cases = [(COMMAND[:place] + ("gone",) + COMMAND[place + 1:], "gone: ") for place in range(1, 4)]
        cases += [(COMMAND[:-1] + (name,), name + ": ") for name in ("taken", "gone/out")]
        for words, text in cases:
            before = folder.state()
            status, out, err = folder.run(*words)
            t.true((status, out) == (2, "") and text in err and err.count("\n") == 1, err, *words)
            t.same(folder.state(), before, *words)
        for out, name in itertools.product(("net.link", "out.link", "new.link"), ("fsync", "replace")):
            before = folder.state()
            with full_disk(name):
                ran = folder.run(*COMMAND[:-1], out)
            t.same(ran, (2, "", "niqastul: [Errno 28] No space left on device\n"), out, name)
            t.same(folder.state(), before, out, name)

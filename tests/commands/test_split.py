"""The commands split and together: the files of the blocks against the oracle, laid together again, and what is told of
files that were changed."""

import collections
import hashlib
import itertools
import json
import os
import random
from array import array

from oracle import blocks, calls
from oracle.forest import ties_of
from support import nets
from support.files import THREE, file_of, link_file
from support.folder import a_folder
from support.harness import test
from support.splits import Case

MOST = calls.MAX_MARKS
TOGETHER = ("together", "marks.ord", "DIR", "net.link")


def split(t, folder, case, *context):
    """Writes the files of a net and splits it, in place of the split before."""
    folder.write(**case.files(), net_link=link_file(case.order, nets.flat(case.ties)))
    t.same(folder.run("split", *THREE, "DIR"), (0, "", ""), *context)


def lines_of(path):
    """The numbers of each line."""
    return [[int(word) for word in line.split()] for line in path.read_text().splitlines()]


@test(at_least=3_000)
def split_files(t):
    """Each tie is in exactly one block's file, that of its block, with its rows; border lists and figures are the
    oracle's; together they are the net."""
    with a_folder() as folder:
        inside = folder.path / "DIR"
        for seed in range(300):
            case = Case(seed)
            split(t, folder, case, seed)
            names = {f"block-{block:03}.{kind}" for block in range(case.k) for kind in ("rec", "border")}
            t.same({file.name for file in inside.iterdir()}, names | {"summary.txt", "summary.json"}, seed)
            dealt = []
            for block in range(case.k):
                data = (inside / f"block-{block:03}.rec").read_bytes()
                t.same(data, file_of(*nets.flat(case.of_block(block))), seed, block)
                dealt += ties_of(calls.words(data))
                border = lines_of(inside / f"block-{block:03}.border")
                t.same([(mark, others) for mark, *others in border], list(case.border(block).items()), seed, block)
            t.same(collections.Counter(dealt), collections.Counter(case.ties), seed)
            summaries(t, inside, case, seed)
            whole = f"the blocks laid together are {folder.path / 'net.link'}, byte for byte\n"
            t.same(folder.run(*TOGETHER), (0, whole, ""), seed)


def digest_of(ties):
    """That of a block's ties, as docs/COMMANDS.md defines it."""
    numbers = sorted(min(one, other) * 2**35 + max(one, other) * 8 + rows for one, other, rows in ties)
    return hashlib.sha256(b"".join(number.to_bytes(8, "little") for number in numbers)).hexdigest()


def summaries(t, inside, case, seed):
    """The summary as JSON and as text, against the oracle."""
    figures = {"marks": case.n, "ties": len(case.ties), "limit": case.limit, "bound": case.bound, "volume": case.volume}
    summary = json.loads((inside / "summary.json").read_text())
    lines = summary.pop("blocks")
    t.same([its.pop("digest") for its in lines], [digest_of(case.of_block(block)) for block in range(case.k)], seed)
    t.same((summary, lines), (figures | {"share": dict(zip(("quotient", "remainder"), case.share))}, case.rows()), seed)
    words = [line.split() for line in (inside / "summary.txt").read_text().splitlines()]
    (*first, last, quotient, remainder), names, *lines = words
    t.same(dict(zip(first[0::2], map(int, first[1::2]))), figures, seed)
    t.same((last, int(quotient), int(remainder)), ("share", *case.share), seed)
    t.same([dict(zip(names, map(int, line))) for line in lines], case.rows(), seed)


def changed(rng, case, ties):
    """A tie of the list is another: one end of it is."""
    place = rng.randrange(len(ties))
    one, other, rows = ties[place]
    end = rng.choice([mark for mark in range(case.n) if mark not in (one, other)])
    return ties[:place] + [(one, end, rows)] + ties[place + 1:]


def exchanged(rng, ties):
    """Two ties that join other marks have each other's rows; None if there are no two such."""
    pairs = [(one, other) for one, other in itertools.combinations(range(len(ties)), 2)
             if ties[one][2] != ties[other][2] and set(ties[one][:2]) != set(ties[other][:2])]
    if not pairs:
        return None
    one, other = rng.choice(pairs)
    its = list(ties)
    its[one], its[other] = (*ties[one][:2], ties[other][2]), (*ties[other][:2], ties[one][2])
    return its


def told(t, folder, files, wanted, *context):
    """Other ties in blocks' files: told, with what is wanted in the text; then the files are put back."""
    paths = {folder.path / "DIR" / f"block-{block:03}.rec": file_of(*nets.flat(ties)) for block, ties in files.items()}
    before = {path: path.read_bytes() for path in paths}
    for path, data in paths.items():
        path.write_bytes(data)
    status, out, _ = folder.run(*TOGETHER)
    t.true(status == 1 and wanted in out, wanted, out, *context)
    for path, data in before.items():
        path.write_bytes(data)
    return out


@test(at_least=900)
def changed_files(t):
    """A tie taken out, doubled, changed or moved is told, and so are other rows of a tie, rows exchanged between two,
    and a link file of which one bit is another; ties in another order, or their ends, are not."""
    quiet = quiet_rows = 0
    with a_folder() as folder:
        for seed in range(200):
            rng, case = random.Random(seed), Case(seed)
            if not case.ties or case.n < 3:
                continue
            split(t, folder, case, seed)
            block = rng.choice(case.tie_blocks)
            ties = case.of_block(block)
            place, whole = rng.randrange(len(ties)), calls.rows_of(ties)
            *ends, rows = ties[place]
            fewer, load = ties[:place] + ties[place + 1:], f"its load in the summary is {whole}\n"
            told(t, folder, {block: fewer}, f"has {whole - rows} rows, {load}", "taken out", seed)
            told(t, folder, {block: ties + [ties[place]]}, f"has {whole + rows} rows, {load}", "doubled", seed)
            other_rows = rows % calls.MAX_ROWS + 1
            its = ties[:place] + [(*ends, other_rows)] + ties[place + 1:]
            told(t, folder, {block: its}, f"has {whole - rows + other_rows} rows, {load}", "other rows", seed)
            other = f"block-{block:03}.rec has other ties than the summary was made of"
            quiet += "NOT" not in told(t, folder, {block: changed(rng, case, ties)}, other, "changed", seed)
            if its := exchanged(rng, ties):
                quiet_rows += "NOT" not in told(t, folder, {block: its}, other, "rows exchanged", seed)
            if case.k > 1:
                other = (block + rng.randrange(1, case.k)) % case.k
                out = told(t, folder, {block: fewer, other: case.of_block(other) + [ties[place]]}, load, "moved", seed)
                t.true("net.link, byte for byte, but not as they were split" in out, out, seed)
            link = bytearray(link_file(case.order, nets.flat(case.ties)))
            link[rng.randrange(len(link))] ^= 1 << rng.randrange(8)
            folder.write(net_link=link)
            told(t, folder, {}, "the blocks laid together are NOT ", "a bit of the link file", seed)
            folder.write(net_link=link_file(case.order, nets.flat(case.ties)))
            turned = [nets.turned(tie) for tie in rng.sample(ties, len(ties))]
            (folder.path / "DIR" / f"block-{block:03}.rec").write_bytes(file_of(*nets.flat(turned)))
            t.same(folder.run(*TOGETHER)[0], 0, "another order", seed)
    t.true(quiet > 0 and quiet_rows > 0, "no change left the net as it was, which only the digest tells")


@test(at_least=60)
def broken_splits(t):
    """Files that are not whole records or name what is not there, that are missing or too many; another net, another
    summary."""
    case = next(case for case in map(Case, range(100)) if case.k > 1 and len(case.ties) > case.n)
    records, vertices = "and a record has 12 (block-000.rec)\n", "an edge or a query names a vertex"
    for name, data, status, text in (
        ("DIR/block-000.rec", b"abc", 1, f": 3 bytes, {records}"),
        ("DIR/block-000.rec", file_of(0, 1), 1, f": 8 bytes, {records}"),
        ("DIR/block-000.rec", file_of(0, 1, 1, 0), 1, f": 16 bytes, {records}"),
        ("DIR/block-000.rec", file_of(0, case.n, 1), 1, f"refused 4: {vertices} out of range (block-000.rec)\n"),
        ("DIR/block-000.rec", file_of(1, 1, 1), 1, "refused 5: both ends of an edge are one vertex (block-000.rec)\n"),
        ("DIR/block-000.rec", file_of(0, 1, 0), 1, "refused 32: the rows of an edge are not 1 to 6 (block-000.rec)\n"),
        ("DIR/block-000.rec", file_of(0, 1, 7), 1, "refused 32: the rows of an edge are not 1 to 6 (block-000.rec)\n"),
        ("DIR/block-000.rec", None, 2, "block-000.rec: No such file or directory\n"),
        ("DIR/block-900.rec", b"", 1, "block-900.rec is not in the summary\n"),
        ("DIR/summary.json", None, 2, "summary.json: No such file or directory\n"),
        ("DIR/summary.json", b"[]", 2, "summary.json: not the summary of a split\n"),
        ("DIR/summary.json", b'{"blocks": []}', 2, "summary.json: not the summary of a split\n"),
        ("DIR/summary.json", b'{"blocks": [{"load": 3}]}', 2, "summary.json: not the summary of a split\n"),
        ("net.link", None, 2, "net.link: No such file or directory\n"),
        ("net.link", b"abc", 1, "refused 6: "),
        ("net.link", link_file(case.order, []), 1, "net.link\n"),
        ("marks.ord", file_of(*case.order[::-1]), 1, "the blocks laid together are NOT "),
        ("marks.ord", b"", 1, "refused 1: "),
        ("marks.ord", bytes(4 * case.n + 1), 1, "refused 6: "),
        ("marks.ord", bytes(4 * case.n + 4), 1, "refused 6: "),
        ("marks.ord", file_of(*[0] * case.n), 1, "refused 3: "),
    ):
        with a_folder() as folder:
            split(t, folder, case)
            t.same(folder.run(*TOGETHER)[0], 0, "before")
            folder.write(**{name: data})
            ended, out, err = folder.run(*TOGETHER)
            t.true(ended == status and text in out + err, name, text, out, err)


def names_in(path):
    return sorted(file.name for file in path.iterdir())


@test(at_least=10)
def split_again(t):
    """A split takes the place of an earlier one, whole, and of nothing else."""
    with a_folder() as folder:
        case = next(case for case in map(Case, range(100)) if case.k > 3)
        split(t, folder, case)
        folder.write(want_rec=file_of(case.limit, 2))
        t.same(folder.run("split", *THREE, "DIR")[0], 0)
        names = [f"block-{block}.{kind}" for block in ("000", "001") for kind in ("border", "rec")]
        t.same(names_in(folder.path / "DIR"), [*names, "summary.json", "summary.txt"], "nothing of the old split stays")
        t.same(folder.run(*TOGETHER)[0], 0)
        (folder.path / "empty").mkdir()
        (folder.path / "empty").chmod(0o750)
        t.same(folder.run("split", *THREE, "empty")[0], 0, "an empty folder")
        t.same((folder.path / "empty").stat().st_mode & 0o777, 0o750, "with the rights that it had")
        (folder.path / "DIR" / "notes.txt").write_text("mine")
        before = folder.state()
        t.same(folder.run("split", *THREE, "DIR")[0], 2, "a folder with another file")
        t.same(folder.state(), before)
        t.same(names_in(folder.path), sorted(("DIR", "empty", *THREE, "net.link")), "nothing is left beside")
        here = os.getcwd()
        try:
            os.chdir(folder.path / "empty")
            t.same(folder.run("split", *THREE, "empty")[0], 2, "the folder that it runs in")
        finally:
            os.chdir(here)


@test(at_least=20)
def most_marks(t):
    """A path of 1,000,000 marks, numbered by steps of 7, with a limit of 1,000 ties of 3 rows: its groups are 1,000
    ranks long and go round the blocks, and the border is where a group begins."""
    long, k, rows = 1_000, 8, 3
    order = array("I", (7 * rank % MOST for rank in range(MOST)))
    ties = array("I", [rows]) * (3 * (MOST - 1))
    ties[0::3], ties[1::3] = order[1:], order[:-1]
    with a_folder(large=True) as folder:
        folder.write(marks_ord=order.tobytes(), ties_rec=ties.tobytes(), want_rec=file_of(rows * long, k))
        t.same(folder.run("grow", *THREE[:2], "net.link")[0], 0)
        records = array("I", [rows]) * (2 * MOST)
        records[0::2], records[-1] = array("I", range(1, MOST)) + array("I", [0xFFFFFFFF]), 0
        t.true((folder.path / "net.link").read_bytes() == records.tobytes(), "the link file of a path")
        t.same(folder.run("split", *THREE, "DIR")[:2], (0, ""))
        for block in range(k):
            begins = range(long * block, MOST, long * k)
            wanted = b"".join(ties[3 * begin:3 * (begin + long)].tobytes() for begin in begins)
            t.true((folder.path / "DIR" / f"block-{block:03}.rec").read_bytes() == wanted, "ties", block)
            border = {order[begin]: (block - 1) % k for begin in begins if begin}
            border |= {order[begin + long]: (block + 1) % k for begin in begins if begin + long < MOST}
            lines = "".join(f"{mark} {other}\n" for mark, other in sorted(border.items()))
            t.true((folder.path / "DIR" / f"block-{block:03}.border").read_text() == lines, "border", block)
        summary = json.loads((folder.path / "DIR" / "summary.json").read_text())
        cuts = MOST // long - 1
        t.same([summary[name] for name in ("marks", "ties", "bound", "volume")], [MOST, MOST - 1, cuts, cuts])
        t.same(summary["share"], dict(zip(("quotient", "remainder"), divmod(rows * (MOST - 1), k))))
        t.same(folder.run(*TOGETHER)[0], 0)
        t.same(folder.run("picture", *THREE, "out.svg")[0], 0)
        t.true(f"of {MOST:,} marks" in (folder.path / "out.svg").read_text(), "the picture says that it is thinned")
        with open(folder.path / "DIR" / "block-003.rec", "r+b") as file:
            file.truncate(blocks.TIE * (MOST // k - 1))
        t.true(folder.run(*TOGETHER)[0] == 1, "a tie taken out")

"""The pictures: the yard drawn, split and laid together, what a picture shows of a net, and the map of the crates.
Those in docs/ are up to date."""

import random
import re
import subprocess
import sys
from xml.etree import ElementTree

from oracle import calls
from support import ROOT, nets
from support.files import THREE, file_of
from support.folder import a_folder
from support.harness import test
from support.splits import Case

sys.path.insert(0, str(ROOT / "docs"))

import crates

SVG = "{http://www.w3.org/2000/svg}"


def words_of(text):
    """What is written in a picture, which has to be sound XML."""
    return [element.text for element in ElementTree.fromstring(text).iter(SVG + "text")]


def ringed(text):
    """How many rings are drawn over the net, less the one in the legend."""
    return sum(len(group) for group in ElementTree.fromstring(text).iter(SVG + "g") if group.get("stroke")) - 1


# what is written in a picture of the yard
LEGEND = {"168 marks, 326 ties", "limit 90, 4 blocks", "bound 15", "volume 14", "share 81, remainder 2", "block 3",
          "border mark"}


@test(at_least=12)
def yard(t):
    """The same yard each time; split and laid together; its pictures are those in docs/."""
    with a_folder() as folder:
        subprocess.run([sys.executable, ROOT / "examples" / "yard.py", folder.path], check=True)
        t.same(folder.run("grow", *THREE[:2], "net.link"), (0, "", ""))
        t.same(folder.run("split", *THREE, "blocks"), (0, "", ""))
        t.same(folder.run("together", "marks.ord", "blocks", "net.link")[0], 0)
        summary = (folder.path / "blocks" / "summary.txt").read_text().split("\n")
        t.same(summary[0], "marks 168  ties 326  limit 90  bound 15  volume 14  share 81 2")
        t.same(folder.run("picture", *THREE, "places.txt", "yard.svg"), (0, "", ""))
        t.same(folder.run("picture", *THREE, "yard-forest.svg"), (0, "", ""))
        for name in ("yard.svg", "yard-forest.svg"):
            drawn = (folder.path / name).read_text()
            kept = (ROOT / "docs" / name).read_text()
            t.true(drawn == kept, f"docs/{name} is not what the commands draw of examples/yard.py")
            t.true(LEGEND <= set(words_of(drawn)), name)
            t.same(ringed(drawn), 13, name)


@test(at_least=400)
def shown(t):
    """Of small nets: sound XML, the figures, a ring for each border mark, a path's piece for each tie; the same picture
    each time."""
    with a_folder() as folder:
        for seed in range(60):
            case, rng = Case(seed), random.Random(seed)
            places = [f"{rng.uniform(-5, 5):.3f} {rng.choice((0, rng.random()))}\n" for _ in range(case.n)]
            folder.write(**case.files(), places_txt="".join(places).encode())
            border = {mark for block in range(case.k) for mark in case.border(block)}
            for words in ((*THREE, "places.txt", "out.svg"), (*THREE, "out.svg")):
                t.same(folder.run("picture", *words), (0, "", ""), seed)
                drawn = (folder.path / "out.svg").read_text()
                figures = {f"bound {case.bound}", f"volume {case.volume}", "share %d, remainder %d" % case.share}
                t.true(figures | set(map(str, case.loads)) <= set(words_of(drawn)), seed)
                t.same(ringed(drawn), len(border), seed)
                pieces = sum(path.get("d").count("M") for path in ElementTree.fromstring(drawn).iter(SVG + "path"))
                if "places.txt" in words:
                    t.same(pieces - case.k, len(case.ties), seed)
            t.same(folder.run("picture", *THREE, "again.svg")[0], 0, seed)
            t.true((folder.path / "again.svg").read_text() == drawn, seed)


@test(at_least=6)
def thinned(t):
    """Of 10,000 marks and 1,000 blocks a part is drawn, and the picture says so."""
    n = 10_000
    rng = random.Random(1)
    with a_folder() as folder:
        places = "".join(f"{mark % 100} {mark // 100}\n" for mark in range(n)).encode()
        ties = nets.with_rows(rng, nets.power_law(rng, n))
        folder.write(marks_ord=file_of(*rng.sample(range(n), n)), ties_rec=file_of(*nets.flat(ties)),
                     want_rec=file_of(calls.MAX_LIMIT, 1_000), places_txt=places)
        for names, note in ((["places.txt"], r"\d+,\d{3} of 19,998 ties"), ([], r"\d,\d{3} of 10,000 marks")):
            t.same(folder.run("picture", *THREE, *names, "out.svg"), (0, "", ""))
            shown = words_of((folder.path / "out.svg").read_text())
            t.true("thinned; drawn are only" in shown and any(re.fullmatch(note, line) for line in shown), *shown)
            t.true("and 972 more; looks repeat after 56" in shown, *shown)


@test(at_least=7)
def map_of_crates(t):
    """docs/crates.svg is drawn from crates.txt as it is; and how a list is read, ordered and drawn."""
    listed = (ROOT / "crates.txt").read_text()
    kept = (ROOT / "docs" / "crates.svg").read_text()
    t.true(kept == crates.drawn(listed), "docs/crates.svg is out of date: python3 docs/crates.py")
    order, needs, about = crates.listed(listed)
    t.same(set(order), {folder.name for folder in (ROOT / "crates").iterdir()}, "a crate for each folder")
    shown = " ".join(words_of(crates.drawn(listed)))
    t.same([name for name in order if f"{name} {about[name]}" not in shown], [], "a row for each crate, with its line")
    small = "# head\n\n# top\nc: b a libc\n# middle\nb: a\n# low\na:\n"
    order, needs, about = crates.listed(small)
    t.same((order, about), (["a", "b", "c"], {"a": "low", "b": "middle", "c": "top"}))
    t.same(crates.reduced(order, needs), {"a": set(), "b": {"a"}, "c": {"b"}})
    for faulty, told in {
        "a:\n": "says in a line what it holds",
        "# one\na: b\n# other\nb: a\n": "a cycle among ['a', 'b']",
    }.items():
        try:
            crates.drawn(faulty)
            t.true(False, faulty)
        except ValueError as error:
            t.true(told in str(error), str(error))

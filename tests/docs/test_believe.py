"""docs/BELIEVE.md lists every definition that a contract of the public interface or a named law reaches."""

import difflib
import re
import shutil
import sys
import tempfile
from pathlib import Path

from support import ROOT
from support.harness import test

sys.path.insert(0, str(ROOT / "docs"))

import believe

PAGE, PROOFS = ROOT / "docs" / "BELIEVE.md", ROOT / "docs" / "PROOFS.md"
WRITE = "python3 docs/believe.py writes the page"

# a definition in a file that the page does not list, and the places from which it is made to be reached
NEW = "crates/start/specs/New.antt"
DEFINED = "use Rattle.std.specs.Prelude.{ℕ}\n\nabbrev pub brandNew : ℕ\nbrandNew = 1\n"
FROM_CONTRACT = [
    ("crates/start/src/lib.rt", r"\A", "ghost use Rattle.start.specs.New.{brandNew};\n"),
    ("crates/start/src/lib.rt", r"(?<=pub fn start)\([^{]*?(?=\s+ensures)", r"\g<0> ensures { brandNew ≡ 1 }"),
]
FROM_DEFINITION = [
    ("crates/start/specs/Start.antt", r"\A", "use Rattle.start.specs.New.{brandNew as fresh}\n"),
    ("crates/start/specs/Start.antt", r"(?m)^(start_outcome \w+ =) ", r"\1 let one : ℕ = fresh in "),
]
FROM_LAW = [
    ("crates/share/proofs/Even.antt", r"(?m)^use Rattle\.", "use Rattle.start.specs.New.{brandNew}\nuse Rattle."),
    ("crates/share/proofs/Even.antt", r"(?m)^pub share-once : ", "pub share-once : brandNew ≡ 1 → "),
]


def changed(root, edits):
    """A copy in a folder of what the page is made of, with the first place of each pattern in its file replaced."""
    paths = {ROOT / "crates.txt", *(ROOT / "crates" / file for file in believe.laws().values())}
    for path in paths.union(ROOT.glob("crates/*/specs/**/*.antt"), ROOT.glob("crates/*/src/**/*.rt")):
        copy = root / path.relative_to(ROOT)
        copy.parent.mkdir(parents=True, exist_ok=True)
        shutil.copy(path, copy)
    (root / NEW).write_text(DEFINED, encoding="utf-8")
    for file, pattern, new in edits:
        text, count = re.subn(pattern, new, (root / file).read_text(encoding="utf-8"), count=1)
        if not count:
            raise LookupError(f"{file} has no place for {new!r}")
        (root / file).write_text(text, encoding="utf-8")
    return root


def complaint(edits):
    """What the generator says of changed crates, of which it writes no page."""
    with tempfile.TemporaryDirectory() as folder:
        try:
            believe.page(changed(Path(folder), edits))
        except believe.Broken as error:
            return str(error)
    return "nothing"


def law_rows(text):
    """The rows of tables whose first column is a law's name and whose last is a file, each with the law."""
    return re.findall(r"^\| `([^`]+)` (\|.* `[^`]+\.antt` \|)$", text, re.MULTILINE)


@test(at_least=3)
def page_is_what_the_generator_writes(t):
    text, written = PAGE.read_text(encoding="utf-8"), believe.page(ROOT)
    t.same(believe.unlisted(ROOT, text), [], "reached by a contract or a law, but not on the page", WRITE)
    t.same(list(difflib.unified_diff(text.splitlines(), written.splitlines(), lineterm="", n=0)), [], WRITE)
    t.true(text == written, "the page differs by more than its lines", WRITE)


@test(at_least=9)
def new_file_is_named(t):
    text = believe.page(ROOT)
    for edits in (FROM_CONTRACT, FROM_DEFINITION, FROM_LAW):
        with tempfile.TemporaryDirectory() as folder:
            root = changed(Path(folder), edits)
            t.same(believe.unlisted(root, text), ["start/specs/New.antt: brandNew"], edits)
            written = believe.page(root)
            t.true(written != text, edits)
            t.true("| `start/specs/New.antt` | `brandNew` | 1 | 2 |" in written, edits)


@test(at_least=1)
def file_that_nothing_reaches_is_not_listed(t):
    with tempfile.TemporaryDirectory() as folder:
        t.same(believe.page(changed(Path(folder), [])), believe.page(ROOT))


@test(at_least=5)
def broken_promises_are_told(t):
    law, contract = "crates/share/proofs/Even.antt", "crates/start/src/lib.rt"
    t.same(complaint([(law, "(?m)^pub share-once ", "pub share-twice "), (law, "(?m)^share-once ", "share-twice ")]),
           "law share-once: there is none in share/proofs/Even.antt")
    t.same(complaint([(law, "(?m)^pub share-once : ", "own : Type 0\nown = ℕ\n\npub share-once : own → ")]),
           "law share-once: `own` is defined in share/proofs/Even.antt; what a promise speaks of belongs to specs/")
    t.same(complaint([(contract, r"pub fn start\b", "pub fn begin")]),
           "contract start::start: there is no such function in start/src")
    t.same(complaint([(contract, r"(?s)(?<=pub fn start)(.*?) ensures \{[^{}]*\}", r"\1")]),
           "contract start::start: the function has none")
    t.same(complaint(FROM_CONTRACT[1:]), "start::start: nothing says what `brandNew` is")


@test(at_least=6)
def bound_names_are_not_followed(t):
    def free(text, bound=()):
        return [believe.owner(word) for word in believe.walked(believe.tokens_of(text), bound)[0]]

    head = "use files::{MARKS, Kind};\nfn f(table: &[u32]) -> bool\n"
    (name, bound, parts), = believe.contracts(head + "    requires low { 0 < x }\n    ensures { y }\n{\n}\n")
    t.same(free("(x : A) {y z : B x} → (λ w. c w y) ≡ w.field"), ["A", "B", "c", "≡", "w"])
    t.same(free("let x : A = f x in x ─ 16_000"), ["A", "f", "x", "─"])
    t.same(free("record { left = right; right = (y : A) × left } \"no name\""), ["right", "A", "×", "left"])
    t.same(free("now «edges».old ≡ MARKS", bound), ["now", "≡"])
    t.same(free("result ≡ (g table.now).field.of", bound), ["≡", "g"])
    t.same((name, [part.strip() for part in parts]), ("f", ["0 < x", "y"]))


@test(at_least=30)
def proofs_page_has_the_same_laws(t):
    rows = law_rows(PROOFS.read_text(encoding="utf-8"))
    t.same(sorted(law for law, _ in rows), sorted(believe.laws()), "docs/PROOFS.md and GROUPS of docs/believe.py")
    for law, row in rows:
        t.true(f"`crates/{believe.laws()[law]}`" in row, f"docs/PROOFS.md has {law} in another file", row)

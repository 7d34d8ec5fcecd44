"""How far rt is, as the gate, gate/progress.py and `make` show it: a line for each crate, edit and run, whose places go
up to the whole and no further; and all that rt says where it fails."""

import re
import shutil
import sys

from support.harness import test
from support.repository import a_repository

FRESH = """rt: chose --jobs 2 for low
fn low::f: proved
crate low: modules loaded=0 checked=3
logic=proved functions=1
rt: chose --jobs 2 for middle
crate middle: modules loaded=0 checked=3
logic=proved functions=1
rt: chose --jobs 2 for blocks
fn blocks::main: proved
crate blocks: modules loaded=0 checked=3
logic=proved functions=1
refused 1 0
"""
UNCHANGED = "refused 1 0\n"

ARCHIVE = """rt: chose --jobs 2 for middle
fn middle::f: proved
crate middle: modules loaded=0 checked=3
logic=proved functions=1
rt: chose --jobs 2 for exports_c
fn exports_c::niqastul_start: proved
crate exports_c: modules loaded=0 checked=3
logic=proved functions=1
"""
NO_ARCHIVE = """rt: chose --jobs 2 for low
crate low: modules loaded=0 checked=3
logic=proved functions=1
rt: chose --jobs 2 for middle
proofs/f/Answers.antt:7:1: error: not so
logic=not-proved functions=1
"""
NO_EXPORTS = """rt: chose --jobs 2 for low
crate low: modules loaded=0 checked=3
logic=proved functions=1
rt: chose --jobs 2 for exports_c
proofs/f/Answers.antt:7:1: error: not so
"""

GATE = """== low
rt: low proved
== middle
rt: middle proved
== exports_c
rt: exports_c proved
== blocks
rt: blocks proved
rt: must-fail low/one: refused, as it must be
rt: must-fail low/other: NOT REFUSED: the crate is still proved with this edit
rt: blocks: the program ended with status 1, and not 0; it said: no
rt: blocks: what the program wrote, out/stdout, is not what its file stdout has: they differ first at byte 1, line 1
rt: FAILED: low/other blocks (run)
"""
KEPT = """rt: low is kept: an earlier run on this machine proved the same files over the same libraries
== middle
rt: middle proved
== middle: its tests
crates/middle/src/lib.rt:9:1: error: not so
rt: middle: its tests are NOT PROVED
rt: exports_c is kept: an earlier run on this machine proved the same files over the same libraries
rt: blocks is kept: an earlier run on this machine proved the same files over the same libraries
rt: low: 2 of its 2 must-fail edits were tried by an earlier run on this machine
rt: must-fail low/one: refused, as it must be
rt: must-fail low/other: refused, as it must be
rt: blocks ran, and wrote what its file stdout has
rt: blocks ran (built by Rattle's own compiler), and wrote what its file stdout has
"""
NOT_PROVED = "== low\nrt: low NOT PROVED\n" + "".join(
    f"rt: {name} NOT PROVED: its library low failed\n" for name in ("middle", "exports_c", "blocks"))

# the gate without its other steps
CI = "import sys; sys.path.insert(0, 'gate'); import gate; gate.prove()"


def shown(repository, command, said, status=0):
    """What is shown of a command of rt that says so."""
    shows = ["-c", CI] if command == "ci" else ["gate/progress.py", "rt", *command.split()]
    status, lines = repository.run([sys.executable, "-B", *shows], said, status)
    return status, [re.sub(r"\(\d+ s\)", "(.. s)", line) for line in lines]


def places(lines):
    """The places that are told, each in the whole."""
    return [tuple(map(int, place.groups())) for line in lines if (place := re.match(r"\[(\d+)/(\d+)\] ", line))]


@test(at_least=12)
def whole(t):
    """The places rise to the last one, whatever is left out: a run or edits of what is unchanged or not proved."""
    with a_repository() as repository:
        for command, said, wanted in (
            ("run blocks", FRESH, [1, 2, 3, 4]),
            ("run blocks", UNCHANGED, [1, 2, 4]),
            ("lib exports_c", ARCHIVE, [1, 2, 3]),
            ("ci", GATE, [1, 2, 3, 4, 5, 6, 7]),
            ("ci", KEPT, [1, 2, 3, 4, 5, 6, 7]),
            ("ci", NOT_PROVED, [3, 4, 5, 7]),
        ):
            status, lines = shown(repository, command, said)
            t.same(status, 0, command)
            t.same(places(lines), [(place, wanted[-1]) for place in wanted], command, *lines)


@test(at_least=2)
def lines(t):
    with a_repository() as repository:
        t.same(shown(repository, "run blocks", FRESH)[1], [
            "3 crates to prove: low middle blocks",
            "    begun: low",
            "[1/4] low proved (.. s)",
            "    begun: middle",
            "[2/4] middle proved (.. s)",
            "    begun: blocks",
            "[3/4] blocks proved (.. s)",
            "[4/4] blocks ran, and crates/blocks/out/blocks is made",
        ])
        t.same(shown(repository, "lib exports_c", ARCHIVE)[1], [
            "3 crates to prove: low middle exports_c",
            "    begun: middle",
            "[1/3] low: nothing to prove",
            "[2/3] middle proved (.. s)",
            "    begun: exports_c",
            "[3/3] exports_c proved, and crates/exports_c/out/libexports_c.a is made",
        ])


@test(at_least=6)
def failed(t):
    """Where rt fails, so does this; what rt says of the crate is shown at once, and at the end all that it said."""
    with a_repository() as repository:
        for said in (NO_ARCHIVE, NO_EXPORTS):
            status, lines = shown(repository, "lib exports_c", said, status=1)
            error = next(line for line in said.splitlines() if "error" in line)
            t.same(status, 1, *lines)
            t.same(lines.count(error), 2, *lines)
            t.same("\n".join(lines).rstrip().endswith(said.rstrip()), True, *lines)


def without_python(repository):
    """A folder of programs with all that make needs but python3."""
    tools = repository.path / "tools"
    tools.mkdir()
    for tool in ("make", "sh", "find", "mkdir", "cp", "cc", "ld", "ar", "ln", "cat", "touch"):
        (tools / tool).symlink_to(shutil.which(tool))
    return str(tools)


@test(at_least=7)
def made(t):
    """`make` shows the same while it proves, and what is made already is not proved again. Without python3 it shows
    what rt says."""
    with a_repository() as repository:
        library = repository.path / "target" / "lib" / "libniqastul.so"
        status, lines = repository.run("make", NO_ARCHIVE, status=1)
        t.true(status != 0 and not library.exists(), *lines)
        t.true(NO_ARCHIVE in "\n".join(lines) + "\n", *lines)
        status, lines = repository.run("make", ARCHIVE)
        t.true(status == 0 and library.exists(), *lines)
        t.same(places(lines), [(1, 3), (2, 3), (3, 3)], *lines)
        status, lines = repository.run("make", "rt was run again", status=1)
        t.same((status, places(lines)), (0, []), *lines)
        shutil.rmtree(repository.path / "target")
        shutil.rmtree(repository.path / "crates" / "exports_c" / "out")
        status, lines = repository.run("make", ARCHIVE, path=without_python(repository))
        t.true(status == 0 and library.exists(), *lines)
        t.true(ARCHIVE in "\n".join(lines), *lines)

"""tests/run: the tests are found, chosen by patterns and counted; none is passed over, and none passes by doing
nothing."""

import contextlib
import pathlib
import subprocess
import sys
import tempfile

from support import ROOT
from support.harness import test

FIRST = """from support.harness import test

@test(at_least=2)
def enough(t):
    t.same(1, 1)
    t.true(2)
"""
SECOND = FIRST + """
@test(at_least=2)
def too_few(t):
    t.same(1, 1)

@test(at_least=1)
def wrong(t):
    t.same(1, 2, "one and two")

@test(at_least=1, missing="no such thing")
def skipped(t):
    t.same(1, 2)
"""
NAMES = ["one.test_first.enough", "two.test_second.enough", "two.test_second.too_few", "two.test_second.wrong",
         "two.test_second.skipped"]


class Folder:
    """Two test modules in folders of their own, and what finds and runs them."""

    def __init__(self, path):
        self.path = pathlib.Path(path)
        for name in ("run.py", "support/__init__.py", "support/harness.py"):
            self.write(name, (ROOT / "tests" / name).read_text())
        self.write("one/test_first.py", FIRST)
        self.write("two/test_second.py", SECOND)

    def write(self, name, text):
        path = self.path / name
        path.parent.mkdir(parents=True, exist_ok=True)
        path.write_text(text)

    def run(self, *words):
        """The status, what is printed, as lines, and what is said of errors."""
        ran = subprocess.run([sys.executable, "-B", "run.py", *words], cwd=self.path, capture_output=True, text=True)
        return ran.returncode, ran.stdout.splitlines(), ran.stderr


@contextlib.contextmanager
def a_folder():
    with tempfile.TemporaryDirectory() as path:
        yield Folder(path)


@test(at_least=5)
def chosen(t):
    """A pattern is a part of a name; several are more tests, each once and in the one order."""
    with a_folder() as folder:
        for patterns, wanted in (
            ([], NAMES),
            (["enough"], NAMES[:2]),
            (["two."], NAMES[1:]),
            (["first*enough", "w?ong", "enough"], [NAMES[0], NAMES[1], NAMES[3]]),
            (["two.test_second.wrong", "one"], [NAMES[0], NAMES[3]]),
        ):
            t.same(folder.run("--list", *patterns), (0, wanted, ""), *patterns)


@test(at_least=6)
def counted(t):
    """The last line and the status; a test with too few checks fails."""
    with a_folder() as folder:
        status, lines, err = folder.run()
        t.same((status, lines[-1]), (1, "2 passed, 2 failed"))
        t.same([line.split()[1] for line in lines[:-1]], ["ok", "ok", "FAILED", "FAILED", "skip"])
        t.true("only 1 checks, at least 2 are to be made" in err and "got 1, want 2; one and two" in err, err)
        status, lines, err = folder.run("enough")
        t.same((status, lines[-1], err), (0, "2 passed, 0 failed", ""))
        status, lines, err = folder.run("first", "nothing")
        t.same((status, lines), (2, []))
        t.true("nothing" in err and "one.test_first\n" in err and "two.test_second\n" in err, err)


@test(at_least=4)
def forgotten(t):
    """A test module that would not be run, or that has no test, is an error."""
    for name, text in {
        "test_top.py": FIRST,
        "one/more/test_deep.py": FIRST,
        "one/third.py": FIRST,
        "two/test_none.py": "",
    }.items():
        with a_folder() as folder:
            folder.write(name, text)
            status, lines, err = folder.run()
            t.true((status, lines) == (2, []) and pathlib.Path(name).stem in err, name, err)

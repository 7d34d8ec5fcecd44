"""The command line as a program: help and its exit status, usage, what is printed where; and the commands that the
documents show."""

import os
import re
import subprocess
import sys

from support import ROOT
from support.files import ORDER, THREE, TIES, WHOLE, file_of, link_file
from support.folder import PYTHON, a_folder
from support.harness import test


def ran(*words, **environment):
    """The exit status and what is printed on the two outputs."""
    command = [sys.executable, "-m", "niqastul", *words]
    its = subprocess.run(command, cwd=PYTHON, capture_output=True, text=True, env=os.environ | environment)
    return its.returncode, its.stdout, its.stderr


# commands, and what their help has to name
HELP = {
    "picture": ("[places.txt]", "ringed"),
    "split": ("bound, volume, share",),
    "between": ("marks.ord ties.rec MARK MARK", "`none`", "31"),
    "add": ("than in net.link:", "`none moved`"),
    "join": ("than in a.link:", "`none moved`"),
}
COMMANDS = ("grow", "add", "join", "split", "together", "picture", "neighbours", "busy", "between")
FORMATS = ("exit status", "ties.rec", "the rows that the tie gives the adjustment, 1 to 6", "1 to 96,000,000")


@test(at_least=6)
def helpful(t):
    """Help needs no library."""
    status, out, _ = ran("-h", NIQASTUL_LIBRARY="/nowhere")
    t.true(status == 0 and all(word in out for word in COMMANDS + FORMATS), out)
    for command, words in HELP.items():
        status, out, _ = ran(command, "-h")
        t.true(status == 0 and all(word in out for word in words), command, out)


# each has too few words or too many, or one that is no number or no option
MISUSED = ["", "shrink", "grow a b", "add a b c", "grow a b c d", "grow --fast a b c", "neighbours a b",
           "neighbours a b 0 c", "neighbours a b -1", "neighbours a b 1.0", "busy a b", "busy a b c d", "between a b 0",
           "between a b 0 1 2", "between a b 0 -1"]


@test(at_least=15)
def misused(t):
    for words in MISUSED:
        status, out, err = ran(*words.split())
        t.true(status == 2 and out == "" and "usage: python3 -m niqastul" in err, words)


@test(at_least=16)
def carried_out(t):
    """Each command on the whole case: what goes to which output."""
    with a_folder() as folder:
        folder.write(**WHOLE)
        names = [str(folder.path / name) for name in (*THREE, "DIR", "net.link", "out.svg")]
        link = names[4]
        t.same(ran("grow", *names[:2], link), (0, "", ""))
        t.same(ran("split", *names[:4]), (0, "", ""))
        whole = f"the blocks laid together are {link}, byte for byte\n"
        t.same(ran("together", names[0], names[3], link), (0, whole, ""))
        t.same(ran("picture", *names[:3], names[5]), (0, "", ""))
        t.same(ran("neighbours", *names[:2], "3", "2"), (0, "3 1 4 1\n2 0\n", ""))
        t.same(ran("busy", *names[:3]), (0, "4 2 2\n", ""))
        t.same(ran("between", *names[:2], "3", "0"), (0, "4 5\n", ""))
        related = "refused 31: the two ranks are equal, or one stands above the other\n"
        t.same(ran("between", *names[:2], "3", "5"), (1, "", related))
        t.same(ran("add", names[0], link, names[1], link), (0, "none moved\n", ""))
        t.same(ran("join", link, link, link), (0, "none moved\n", ""))
        repeats = "refused 3: an entry of the order is out of range or repeats\n"
        t.same(ran("grow", names[1], names[1], link), (1, "", repeats))
        records = "refused 6: not whole records, or not as many as the net has vertices: "
        two_to_a_tie = file_of(1, 3, 0, 4, 2, 5)
        for ties, text in ((file_of(*TIES)[:-4], records + "68 bytes, and a record has 12\n"),
                           (two_to_a_tie[:-8], records + "16 bytes, and a record has 12\n"),
                           (two_to_a_tie, "refused 32: the rows of an edge are not 1 to 6\n")):
            folder.write(other=ties)
            t.same(ran("grow", names[0], str(folder.path / "other"), link), (1, "", text))
        status, _, err = ran("grow", *names[:2], link, NIQASTUL_LIBRARY="/nowhere")
        t.true(status == 2 and "NIQASTUL_LIBRARY" in err and err.count("\n") == 1, err)
        t.same((folder.path / "net.link").read_bytes(), link_file(ORDER, TIES * 4))


# a command that a document shows, and the lines below it
SHOWN = re.compile(r"^    (python3 -m niqastul|cat|cmp) ([^#\n]+).*\n((?:    (?!python3 |cat |cmp ).*\n)*)", re.M)


def output(t, folder, tool, words):
    """What a command prints in a folder."""
    if tool == "cat":
        return (folder.path / words[0]).read_text()
    if tool == "cmp":
        one, other = ((folder.path / name).read_bytes() for name in words)
        return "" if one == other else f"{words} differ"
    status, out, err = folder.run(*words)
    t.same((status, err), (0, ""), *words)
    return out.replace(f"{folder.path}/", "")


@test(at_least=18)
def shown_in_documents(t):
    """The walks through the yard, in README and in docs/: what stands below each command is what it prints."""
    for path in [ROOT / "README.md", *sorted((ROOT / "docs").glob("*.md"))]:
        with a_folder() as folder:
            subprocess.run([sys.executable, ROOT / "examples" / "yard.py", folder.path], check=True)
            _, _, walk = path.read_text().partition("    python3 examples/yard.py")
            for tool, words, printed in SHOWN.findall(walk):
                text = re.sub(r"^    ", "", printed, flags=re.M)
                t.same(output(t, folder, tool, words.split()), text, path.name, tool, words)

"""The functions of the header over structs: each gives exactly what its call gives, and what does not belong in a place
does not compile there."""

import itertools
import re
import subprocess

from support import ROOT, header
from support.compiled import HEADERS, LANGUAGES, WARNINGS, printed
from support.harness import test

STRUCTS = {name: words for name, words in header.INLINE.items() if any(word.startswith("struct") for word in words)}

# the answers that structs.c has to meet; what a struct cannot be lent is not among them, such as weights of another
# length than the parents, and neither are lists of 16,000,001 edges
MET = {
    "relabel": {0, 1, 2, 3, 4, 5, 32},
    "start": {0, 1},
    "add": {0, 1, 2, 30, 4, 5, 32, 20},
    "join": {0, 1, 2, 21, 30, 20},
    "save": {0, 1, 2, 30},
    "read": {0, 1, 6, 7, 20},
    "divide": {0, 1, 2, 8, 30, 22},
    "report": {0, 1, 2, 8, 30, 4, 5, 32, 22, 23},
    "separate": {0, 1, 2, 30, 4, 5, 32, 23, 31},
    "index": {0, 1, 2, 4, 5, 32},
    "query": {0, 1, 30, 4},
}


def met(lines):
    """The answers of each call."""
    return {name: {int(line.split()[1]) for line in lines if line.split()[0] == name} for name in header.DECLARED}


@test(at_least=20)
def same_as_the_call(t):
    """Answers, cells and all memory, on small nets; and no function over structs is left out."""
    source = (ROOT / "tests" / "hosts" / "structs.c").read_text()
    for name in STRUCTS:
        t.true(f"niqastul_{name}(" in source or name == "work_cut", name)
    for language in LANGUAGES:
        lines = printed(language, source).splitlines()
        t.same({line.split(maxsplit=2)[2] for line in lines}, {"same"}, language)
        t.same(met(lines), MET, language)


# the pairs of parameters that can be exchanged, since they are of one kind
ALIKE = {
    ("net_join", "net", "other"),
    ("net_separate", "one", "other"),
    ("index_size", "old_edges", "added"),
    ("index_in", "old_edges", "added"),
    ("index_build", "old_edges", "added"),
    ("work_cut", "vertices", "lower_length"),
}


def named(words):
    return [re.search(r"\w+$", word)[0] for word in words]


def struct_names(words):
    """Of the parameters that are structs, by value."""
    return set(named(word for word in words if re.match(r"struct \w+ \w", word)))


def exchanges(names):
    """The names of parameters, two of them exchanged, and these two."""
    for one, other in itertools.combinations(names, 2):
        yield [{one: other, other: one}.get(name, name) for name in names], (one, other)


def wrong_lines(language, warnings, lines):
    """The numbers of the lines, from 0, that have an error."""
    command = [*language.split(), "-fsyntax-only", "-fmax-errors=0", *warnings, HEADERS, "-"]
    source = "\n".join(['#include "niqastul.h"', *lines, ""])
    shown = subprocess.run(command, input=source, text=True, capture_output=True).stderr
    return {int(number) - 2 for number in re.findall(r"^<stdin>:(\d+):\d+: error", shown, flags=re.M)}


@test(at_least=800)
def exchanged(t):
    """Each function is called with its own parameters, and with any two of them exchanged, a line for each. A struct in
    the place of anything else is an error in itself; numbers and pointers give at least a warning."""
    lines, pairs = [], []
    for name, words in STRUCTS.items():
        own, parameters = named(words), ", ".join(words)
        for names, pair in [(own, ()), *exchanges(own)]:
            head, body = f"void f{len(lines)}({parameters})", f"(void)niqastul_{name}({', '.join(names)});"
            lines.append(f"{head}; {head} {{ {body} }}")
            pairs.append((name, *pair))
    for language in LANGUAGES:
        strict = wrong_lines(language, ["-pedantic", *WARNINGS], lines)
        errors = wrong_lines(language, ["-w"], lines)
        for number, (name, *pair) in enumerate(pairs):
            differ = bool(pair) and (name, *pair) not in ALIKE
            t.same(number in strict, differ, language, lines[number])
            if differ and struct_names(STRUCTS[name]).intersection(pair):
                t.true(number in errors, language, lines[number])

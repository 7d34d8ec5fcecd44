"""The calls as include/niqastul.h declares them, and its inline functions, which are no part of the library. What the
tests know of the tables of a call, their order and their entries, they know from here; of what a table is for, the
header's own words say which are work."""

import re
from typing import NamedTuple

from support import ROOT

TEXT = (ROOT / "include" / "niqastul.h").read_text()

# the types of entries, and what `array` has for them
CODES = {"uint8_t": "B", "uint32_t": "I", "uint64_t": "Q"}

WORDS = re.compile(r"(const )?(\w+) (\*?)(\w+)")


class Parameter(NamedTuple):
    """A table that is `read` or `written`, or that is lent as `work`: a pointer with a length behind it. A `cell`: a
    pointer alone. Or a `number`."""

    kind: str
    code: str


def functions(text, pattern):
    """The parameters of each function that a pattern finds, as they are written, in order."""
    code = re.sub(r"/\*.*?\*/", "", text, flags=re.S)
    found = re.findall(pattern, code, flags=re.S | re.M)
    return {name: [" ".join(word.split()) for word in words.split(",")] for name, words in found}


def declared(text):
    """Those that end with a semicolon: the calls."""
    return functions(text, r"^uint32_t niqastul_(\w+)\(([^()]*)\);")


def inline(text):
    """Those that have a body."""
    return functions(text, r"^static inline [^()]*?niqastul_(\w+)\(([^()]*)\)\s*\{")


def work_tables(text):
    """The tables of each call that the comment above it calls work: `ends [n], jump [n]      work; left as zeros`."""
    comments = re.findall(r"/\*((?:(?!\*/).)*)\*/\s*uint32_t niqastul_(\w+)\(", text, flags=re.S)
    lines = {name: re.findall(r"^(.*\])\s+work;", comment, flags=re.M) for comment, name in comments}
    return {name: re.findall(r"(\w+)\s+\[", " ".join(its)) for name, its in lines.items()}


def kind_of(const, pointer, has_length, is_work):
    if not pointer:
        return "number"
    if not has_length:
        return "cell"
    return "read" if const else "work" if is_work else "written"


def parameters(words, work):
    """By name; the length of a table, which stands behind it, is no parameter of its own."""
    found = {}
    for word, behind in zip(words, words[1:] + [""]):
        const, entry, pointer, name = WORDS.fullmatch(word).groups()
        if entry != "size_t":
            kind = kind_of(const, pointer, behind == f"size_t {name}_length", name in work)
            found[name] = Parameter(kind, CODES[entry])
    return found


DECLARED = declared(TEXT)
INLINE = inline(TEXT)
WORK = work_tables(TEXT)
CALLS = {name: parameters(words, WORK[name]) for name, words in DECLARED.items()}

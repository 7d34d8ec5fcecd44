"""Brings this repository's own definitions and lemmas to the spelling of today's Rattle, once, after port.py: words in
snake case. A dash stays only in the name of a lemma, where it joins two names. Run it at the top of a checkout that
port.py has turned. It prints what it renamed.

Names of functions in src/, exported names, strings, inputs and outputs keep their spelling: they are in snake case
already, so nothing here finds them.
"""

import re
import sys
from pathlib import Path

NAME = r"[^\s(){}.;,@\"«»:]+"
TOKEN = re.compile(r"[^\s(){}.;,@\"«»:`]+")
DECLARED = re.compile(
    r"^( *)(?:(unfoldable|abbrev)\s+)?(?:pub )?(?:(record|data) )?(" + NAME + r")(?: [({].*?[)}])* :(?: |$)"
)

# A definition that would get the name of a parameter that stands beside it in clauses; a field of that name keeps it.
DEFINITIONS = {"edgeBlocks": "edge_blocks_of", "blockCount": "block_count_of", "edgesTaken": "edges_taken_of"}
# Lemmas from whose names port.py had taken the dash, and which would meet a definition now.
LEMMAS = {"bound_by": "bound-by", "carried_under": "carried-under", "too_many": "too-many"}
# Where each of these three stands as a lemma.
LEMMA_FILES = re.compile(
    r"crates/(cost/proofs/Summed|report_write/proofs/Written|cut/proofs/Carried|groups/proofs/|divide/proofs/"
    r"|index/proofs/Refused|index/proofs/index_refusal/)"
)


def snake(word):
    return re.sub(r"(?<=[a-z0-9])([A-Z])(?=[a-z0-9]|$)", lambda m: "_" + m[1].lower(), word)


def antt_files():
    return sorted(f for f in Path("crates").rglob("*.antt") if "out" not in f.parts[:3])


def declared_kinds():
    """What each name is declared as, in all files but the proofs of functions."""
    kinds = {}
    for file in antt_files():
        if file.name in ("Proof.antt", "Lib.antt"):
            continue
        record = None
        for line in file.read_text().splitlines():
            indent = len(line) - len(line.lstrip())
            if record is not None and line.strip() and indent <= record:
                record = None
            match = DECLARED.match(line)
            if not match or line.lstrip().startswith("--"):
                continue
            kind = match[3] or match[2] or ("field" if record is not None else "lemma")
            kinds.setdefault(match[4], set()).add(kind)
            if match[3]:
                record = indent
    return kinds


def with_underscores(kinds):
    """The names with a dash that no lemma has."""
    return {name for name, its in kinds.items() if "-" in name and not name[0].isupper() and "lemma" not in its}


def respell(token, dashes):
    bare = token.rstrip("'")
    primes = token[len(bare):]
    if not re.match(r"[a-z]", bare) or "/" in bare:
        return token
    name = "-".join(part if part[:1].isupper() else snake(part) for part in bare.split("-"))
    return (name.replace("-", "_") if bare in dashes else name) + primes


def is_field(line, start, end):
    """Whether the word at this place is a field or a bound name: behind a dot, before an equals sign, declared in a
    record, or among the names of a binder."""
    behind = line[end:].lstrip()
    declares = re.match(r" +pub $", line[:start]) and behind.startswith(":")
    binds = re.search(r"[({][\w ]*$", line[:start]) and re.match(r"[\w ]* : ", line[end:])
    return line[:start].endswith(".") or behind.startswith("= ") or bool(declares) or bool(binds)


def knows(name, text):
    """Whether a file declares or imports a definition."""
    return bool(re.search(rf"(?m)^(unfoldable |abbrev )?(pub )?{name} :|^(ghost )?use .*[{{ ]{name}[,}} ]", text))


def respelled(line, dashes, lemmas, generated, known):
    out, at = [], 0
    for match in TOKEN.finditer(line):
        token = match[0]
        new = token
        bare = token.rstrip("'")
        if bare in DEFINITIONS:
            field = bare not in known or is_field(line, match.start(), match.end())
            new = snake(token) if field else DEFINITIONS[bare] + token[len(bare):]
        elif lemmas and token in LEMMAS:
            new = LEMMAS[token]
        elif not (generated and "-" in token):
            new = respell(token, dashes)
        out += [line[at:match.start()], new]
        at = match.end()
    return "".join(out) + line[at:]


def is_code(line, file):
    """Whether a line names no definition: an import of the code, or the file that an edit is of."""
    return line.startswith("use ") and file.suffix == ".rt" or line.startswith("file:")


def main():
    dashes = with_underscores(declared_kinds())
    changed = {}
    code = sorted(Path("crates").glob("*/src/**/*.rt"))
    edits = sorted(Path("crates").glob("*/must-fail/*.edit"))
    for file in antt_files() + code + edits:
        text = file.read_text()
        old = text.splitlines(keepends=True)
        known = {name for name in DEFINITIONS if file.suffix == ".edit" or knows(name, text)}
        lemmas = bool(LEMMA_FILES.match(str(file)))
        generated = file.name == "Proof.antt"
        new = [line if is_code(line, file) else respelled(line, dashes, lemmas, generated, known) for line in old]
        if new != old:
            file.write_text("".join(new))
            for a, b in zip(old, new):
                for x, y in zip(TOKEN.findall(a), TOKEN.findall(b)):
                    if x != y:
                        changed.setdefault(x, set()).add(y)
    for name in sorted(changed):
        print(name, "→", ", ".join(sorted(changed[name])))


if __name__ == "__main__":
    sys.exit(main())

"""Counts the places in crates/*/src that docs/DESIGN-PASS.md speaks of, by its points.

    python3 tools/forms.py [--list POINT] [CHECKOUT]

A point is one of those below. A place is a line, a function or a type that the pattern finds; tests and comments are left out.
"""

import re
import sys
from pathlib import Path

ARGUMENTS = [a for a in sys.argv[1:] if not a.startswith("--")]
LISTED = sys.argv[sys.argv.index("--list") + 1] if "--list" in sys.argv else None
ROOT = Path(next((a for a in ARGUMENTS if a != LISTED), Path(__file__).resolve().parents[1]))

# Tables that travel together: a function that takes two or more of a group takes them side by side.
GROUPS = {
    "net": "parents weights",
    "work": "ends jump lower",
    "division": "carried top block block_loads",
    "figures": "edge_blocks reach block_count edges_taken",
    "compared": "compared_parents compared_weights",
    "other net": "other_parents other_weights",
    "index": "starts neighbours",
    "run": "marks ties want",
}

# A pattern for each kind of place: it is searched in each line of code, comments cut off.
LINES = {
    "1 a refusal as a number": r"\breturn (?:[1-8]|2[0-3]|3[0-2]);|Refused\(|\b(?:code|number|fault|found|list|limits|one)\b(?:\.code)? != 0|code: \d+",
    "1 absent as 'none' beside a value": r"Net::ABSENT",
    "1 a flag packed into a number": r"\bUNMET\b",
    "3 a loop by while or loop": r"^\s*(?:'\w+: )?(?:while|loop)\b",
    "3 an index counted by hand": r"^\s*\w+ [-+]= 1;",
    "4 a conversion by a function of its own": r"\b(?:wide|narrow|amount|widen|lowest_byte)\(",
    "4 the smaller or larger by a function of its own": r"\b(?:smaller|larger|lighter)\(",
    "4 a table filled or copied by a function of its own": r"\btable::(?:fill|copy)\(|\bpub fn (?:fill|copy)\(",
    "4 text written by hand": r"\bput_(?:byte|number|text|field|entry|figure|parent|line|lines|share|totals|refused|answer)\(",
    "6 a place in a buffer beside it": r"\bat: usize\b",
    "7 a step chosen by a flag": r"\b\w+: bool,|\b\w+: bool[,)]",
}
ENUM = re.compile(r"enum (\w+)(?:<[^>]*>)? \{([^}]*)\}")
STRUCT = re.compile(r"struct (\w+)(?:<[^>]*>)? \{([^}]*)\}")
FUNCTION = re.compile(r"\bfn (\w+)(?:<[^(]*>)?\(([^)]*)\)")


def sources():
    """Each source file's path, relative to the checkout, with its lines of code."""
    for path in sorted((ROOT / "crates").glob("*/src/**/*.rt")):
        lines = [line.split("//")[0] for line in path.read_text(encoding="utf-8").splitlines()]
        yield path.relative_to(ROOT), lines


def places():
    """Each place: its point, and where it stands."""
    for path, lines in sources():
        for number, line in enumerate(lines, 1):
            if line.lstrip().startswith(("ghost ", "requires ", "ensures ", "use ")):
                continue
            for point, pattern in LINES.items():
                if re.search(pattern, line):
                    yield point, f"{path}:{number}: {line.strip()}"
        text = "\n".join(lines)
        for name, body in ENUM.findall(text):
            if re.search(r"\b(?:Nothing|Accepted)\b", body):
                yield "1 an enum of the shape of Option or Result", f"{path}: {name}"
        for name, body in STRUCT.findall(text):
            if re.search(r"\b(?:code|number): u32", body):
                yield "1 a struct of a refusal's number and values", f"{path}: {name}"
        for name, parameters in FUNCTION.findall(text):
            names = re.findall(r"(\w+):", parameters)
            for group, members in GROUPS.items():
                if len(set(names) & set(members.split())) > 1:
                    yield f"5 the tables of a {group} side by side", f"{path}: {name}"


def main():
    found = {}
    for point, place in places():
        found.setdefault(point, []).append(place)
    for point in sorted(found):
        print(f"{len(found[point]):5}  {point}")
        if LISTED and point.startswith(LISTED):
            print("".join(f"         {place}\n" for place in found[point]), end="")


main()

"""The pages are short enough to be read: README at a glance, and no line that a screen does not hold."""

import re

from support.harness import test
from support import ROOT

PAGES = ["docs/CALLS.md", "docs/COMMANDS.md", "docs/PROOFS.md", "docs/BELIEVE.md", "CONTRIBUTING.md"]


def too_long(page, most):
    """The numbers of the lines that are longer, those of tables aside."""
    lines = (ROOT / page).read_text(encoding="utf-8").splitlines()
    return [number for number, line in enumerate(lines, 1) if len(line) > most and not line.startswith("|")]


@test(at_least=7)
def lengths(t):
    t.true(len((ROOT / "README.md").read_text(encoding="utf-8").splitlines()) <= 150, "README has more than 150 lines")
    t.same(too_long("README.md", 100), [], "README.md, 100 characters")
    for page in PAGES:
        t.same(too_long(page, 120), [], page, "120 characters")


@test(at_least=20)
def links(t):
    """What a page links to in the repository is there."""
    for page in ["README.md", *PAGES, "docs/HISTORY.md", "docs/GLOSSARY.md"]:
        folder = (ROOT / page).parent
        for target in re.findall(r"\]\(([^)#:]+)(?:#[^)]*)?\)", (ROOT / page).read_text(encoding="utf-8")):
            t.true((folder / target).exists(), page, target)

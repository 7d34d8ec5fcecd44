"""Writes docs/BELIEVE.md, the list of what must be believed: python3 docs/believe.py

Each name in each contract of the public interface, and in the statement of each named law, is followed through specs/,
from definition to definition, and what is met is listed in an order in which it can be read. Nothing is left out
silently: a word that nothing says the meaning of is an error, and so is a law that is not found, or a contract or law
that speaks of a definition in proofs/."""

import re
import sys
import textwrap
from pathlib import Path
from typing import NamedTuple

ROOT = Path(__file__).resolve().parent.parent
WIDTH = 120


class Group(NamedTuple):
    """A section of the page: what is read for its contracts and its laws, less what stands in sections before it."""
    title: str
    about: str
    contracts: str = ""    # CRATE::FUNCTION, or CRATE::* for every function of the crate's root file
    laws: dict = {}        # each law, and the file in which it stands
    crates: str = ""       # crates of which all that any section needs is read here, so that their files are read whole


GROUPS = [
    Group("The game", "Edges, graphs, the elimination game, trees and weights, which all the rest speaks of.",
          crates="game",
          laws={"edge-ends": "game/proofs/Ancestors.antt", "net-order": "game/proofs/Order.antt",
                "join-law": "game/proofs/Forest.antt", "sound-forest": "game/proofs/Forest.antt"}),
    Group("Refusals", "The limits, how the first reason that applies decides a call, and what damages a net.",
          crates="refusal net"),
    Group("Start, add, join", "What each is refused for and what it leaves, and where a forest moved.",
          contracts="start::start add::add join::join",
          laws={"grown-net": "forest/proofs/Laws.antt", "joined-net": "forest/proofs/Laws.antt",
                "add-followed": "forest/proofs/Followed.antt", "join-followed": "forest/proofs/Followed.antt",
                "followed-on": "moved/proofs/Followed.antt"}),
    Group("Files", "Bytes as numbers, link files, saving and reading.",
          contracts="save::save read::read",
          laws={"save-read": "linkfile/proofs/RoundTrip.antt", "read-save": "linkfile/proofs/RoundTrip.antt"}),
    Group("Relabel", "Orders, and edges translated by one.", contracts="relabel::relabel"),
    Group("Index", "The neighbours of each vertex, kept beside a list of edges, and queries for them.",
          contracts="index::index query::query",
          laws={"index-queries": "query/proofs/Queries.antt", "two_runs": "query/proofs/Runs.antt",
                "index-afresh": "query/proofs/Afresh.antt"}),
    Group("Divide", "Cutting a forest into groups, packing them into blocks, and what is claimed of the result.",
          contracts="divide::divide", laws={"divide-division": "divide/proofs/Division.antt"}),
    Group("Report", "What a division costs, which edges a count takes, the even share, and blocks laid together again.",
          contracts="report::report",
          laws={"reach-higher": "reach/proofs/Higher.antt", "edge-block-group": "cost/proofs/Divided.antt",
                "volume-bound": "cost/proofs/VolumeBound.antt", "volume-any": "cost/proofs/VolumeBound.antt",
                "report-bounded": "report/proofs/Bounded.antt", "report-order": "report/proofs/AnyOrder.antt",
                "report-taken": "report/proofs/Taken.antt", "taken-once": "block_count/proofs/Taken.antt",
                "report-share": "report/proofs/Shared.antt", "share-once": "share/proofs/Even.antt",
                "report-together": "report/proofs/Together.antt"}),
    Group("Separate", "The vertices above both of two, and that every walk from one to the other passes one of them.",
          contracts="separate::separate",
          laws={"separate-separates": "separate/proofs/Separation.antt", "passes": "separate/specs/Separates.antt",
                "no_walk": "separate/specs/Separates.antt", "none_apart": "separate/specs/Separates.antt",
                "apart_none": "separate/specs/Separates.antt"}),
    Group("C's cells", "A call's answer as C takes it: the number, and values in cells.",
          contracts="exports::* exports_c::*"),
    Group("The program's text", "What the files of a run say, what it is refused for, and every line that it prints.",
          contracts="run::run blocks::*", laws={"run-front": "run/proofs/Front.antt"}),
    Group("Histories", "Worlds of nets and files, the book of edges, and what holds after every list of calls.",
          laws={"history": "history/proofs/Theorem.antt", "viewer": "history/proofs/Viewer.antt",
                "accepted-never-30": "history/proofs/Sound.antt"}),
]

HEAD = """# What must be believed

`python3 docs/believe.py` writes this page, and a test checks that it is up to date.

Each call is proved to keep its contract, and each law is proved. No proof can show that contracts and laws say what
was meant. So they have to be read: the contracts of the functions named below, in `src/` of their crates, and the
statements of the laws, which [PROOFS.md](PROOFS.md) lists with their files. This page lists the definitions of their
words, and of the words of these definitions, and so on: each once, in the first section that needs it, and each file
after those that it uses. Nothing else has to be read to know what is promised: no body of a function, no proof, and no
other definition.

There are **{total}**, not counting comments, imports, and the lines `infix` and `unfolding`, which define nothing. A
record counts with its fields, and data with its constructors. Files are named from `crates/` on.

Assumed besides:"""

ASSUMED = [
    "the toolchain: its checker, and the compiler's back end;",
    "its library, whose names (the last section) mean what the library says;",
    """for the program `blocks`, the files and the output of the toolchain's std, and the C library's functions below
    them, as the toolchain states both; and what `main` does itself: it reads the three files whole, up to their fronts,
    and prints the text once;""",
    """at the boundary, a host that lends tables as long as it says, and disjoint: one that is written overlaps no
    other.""",
]

LIBRARY = """The toolchain brings these names. They are not followed, and mean what its library says. `get_or xs i d`
is the entry of `xs` at place `i`, or `d` behind its end. Of a table that a contract speaks of, `xs.now` is what it
holds, and `xs.old` and `xs.new` are what one that is written holds before and after the call; `result` is the
answer. Of a slice that lies in a struct, `ghost_name` says which slice it is: where it is the same before and after a
call, the struct holds the same slice."""

# Files of computed examples: the checker computes them, so that they show what the definitions give.
EXAMPLES = {"Paper", "Example", "Examples", "Case"}

# The crates of the toolchain that contracts speak of; their names are the library's, as those of mathlib are.
TOOLCHAIN = {"std"}

# What antt has without a `use`: its grammar, and the names of its own.
GRAMMAR = set(": = → λ let in record where do ← _".split())
OWN = set("Type Unit tt ⊥ ×".split())

# What the places of an operator's operands are in its name, as in ◌+◌.
OPERAND = "◌"


class Broken(Exception):
    """The tree is not as the page needs it; says all that is wrong with it."""


class Name(NamedTuple):
    """What a word means: a definition in `specs` or `proofs`, a type of the `code`, or a name of the `library`."""
    side: str
    place: str
    word: str

    @property
    def crate(self):
        return self.place.partition("/")[0]


class Piece(NamedTuple):
    """A part of a declaration. What a `head` or a `field` binds is bound in the pieces after it."""
    kind: str
    word: str
    tokens: list


class Declaration:
    """A declaration of an antt file, in the telescope of the modules around it, with the numbers of its lines."""

    def __init__(self, word, telescope, lines):
        self.word, self.telescope, self.lines, self.pieces = word, telescope, set(lines), []

    def named(self, kind):
        return [piece.word for piece in self.pieces if piece.kind == kind]


# --- antt: tokens, bound names, declarations ---

WORD = r"[^\s(){};,.«»\"]+"
TOKEN = re.compile(rf"""
    "(?:[^"\\]|\\.)*" | «[^»]*»(?:\.{WORD})*  # texts, and the code's own names: no antt is in them
    | (?<![^\s()])(?:\.{WORD})+             # the field of what stands in brackets, which its type tells
    | (?P<token>{WORD}(?:\.{WORD})* | [(){{}};,.])""", re.VERBOSE)
COMMENT = re.compile(r"(^|\s)--(\s.*)?$")
HIDDEN = re.compile(r"(pub )?(use|mod) |infix[lr]? |unfolding ")
TYPE = re.compile(r"(?:pub )?(record|data) (\S+)(.*)", re.DOTALL)
SIGNED = re.compile(r"(?:unfoldable |abbrev )?(?:pub )?(\S+)(?: \{[^}]*\})? :(?=\s)(.*)", re.DOTALL)


def tokens_of(text):
    """The tokens of a piece of antt, numbers left out."""
    found = (match["token"] for match in TOKEN.finditer(text))
    return [token for token in found if token and not token[0].isdigit()]


def group_names(tokens, at):
    """The names that a bracket binds which opens before place `at`: of `(a b : T)` a and b, else none."""
    end = at
    while end < len(tokens) and tokens[end] not in GRAMMAR and tokens[end] not in "(){};,.":
        end += 1
    return tokens[at:end] if tokens[end:end + 1] == [":"] else []


def is_label(tokens, at):
    """Whether the name at a place is that of a field which is given its value there: `record { name = .. }`."""
    return at > 0 and tokens[at - 1] in "{;" and tokens[at + 1:at + 2] == ["="]


def owner(token):
    """Of `x.f` x, whose field or member f is."""
    return token.partition(".")[0]


def walked(tokens, bound=()):
    """The names that are free in a piece of antt, and those that are bound at its end. A group `(x : T)` and a λ bind
    up to the end of the bracket around them, a `let` from its `in` on. Where x is bound, so is `x.f`."""
    free, scopes, groups, lambdas, lets, letting = [], [set(bound)], [], [], [], False
    at = 0
    while at < len(tokens):
        token = tokens[at]
        if token in "({":
            groups.append(group_names(tokens, at + 1))
            scopes.append(set(scopes[-1]))
            at += len(groups[-1])
        elif token in ")}":
            scopes.pop()
            scopes[-1].update(groups.pop())
        elif token == "λ":
            lambdas.append(len(scopes))
        elif token == "." and lambdas[-1:] == [len(scopes)]:
            lambdas.pop()
        elif token == "let":
            lets.append([])
            letting = True
        elif token == "in":
            scopes[-1].update(lets.pop())
        elif token in GRAMMAR or token in ";,.":
            letting = letting and token not in (":", "=")
        elif letting:
            lets[-1].append(token)
        elif lambdas[-1:] == [len(scopes)]:
            scopes[-1].add(token)
        elif owner(token) not in scopes[-1] and not is_label(tokens, at):
            free.append(token)
        at += 1
    if lambdas or lets or groups:
        raise Broken(f"a bracket, λ or let is left open: {' '.join(tokens)}")
    return free, scopes[0]


def clause_sides(tokens):
    """The patterns of a clause `name patterns = term`, and the term."""
    depth = 0
    for at, token in enumerate(tokens):
        depth += (token in "({") - (token in ")}")
        if token == "=" and not depth:
            return tokens[1:at], tokens[at + 1:]
    raise Broken(f"a clause without a term: {' '.join(tokens[:9])}")


def said_lines(text, comment=COMMENT):
    """The lines of a file that say something, each with its number, without their comments."""
    lines = ((number, comment.sub("", line).rstrip()) for number, line in enumerate(text.splitlines(), 1))
    return [(number, line) for number, line in lines if line]


def indentation(line):
    return len(line) - len(line.lstrip())


def blocks(lines):
    """The lines in stretches that begin as far to the left as the first; a bracket that closes there begins none."""
    found = []
    for number, line in lines:
        if indentation(line) == indentation(lines[0][1]) and line.lstrip()[0] not in ")}":
            found.append([])
        found[-1].append((number, line))
    return found


def joined(block):
    return "\n".join(line for _, line in block).strip()


def numbers(block):
    return {number for number, _ in block}


def head_and_body(block):
    """The lines of a record, data or module up to its `where`, and those behind it."""
    for at, (_, line) in enumerate(block, 1):
        if line.endswith(" where"):
            return block[:at], block[at:]
    return block, []


def signed(block):
    """The name and the type of what a block declares by `name : type`; nothing if it declares nothing so."""
    found = SIGNED.match(joined(block) + " ")
    return found and (found[1], tokens_of(found[2]))


def type_declaration(block, telescope, above):
    """A record with its fields, or data with its constructors."""
    head, body = head_and_body(block)
    kind, word, rest = TYPE.match(joined(head)).groups()
    found = Declaration(word, telescope, above | numbers(block))
    found.pieces.append(Piece("head", word, tokens_of(rest)))
    for member in blocks(body):
        if not signed(member):
            raise Broken(f"not understood as a part of {word}: {joined(member)}")
        found.pieces.append(Piece("field" if kind == "record" else "constructor", *signed(member)))
    return found


def declarations(lines, telescope=(), above=frozenset()):
    """The declarations of a file, or of a module within it whose telescope and lines are given."""
    found = []
    for block in blocks(lines):
        text = joined(block)
        if HIDDEN.match(text):
            continue
        if text.startswith("module _ "):
            head, body = head_and_body(block)
            inner = [*telescope, *tokens_of(joined(head).removeprefix("module _"))]
            found += declarations(body, inner, above | numbers(head))
        elif TYPE.match(text):
            found.append(type_declaration(block, telescope, above))
        elif signed(block):
            word, tokens = signed(block)
            found.append(Declaration(word, telescope, above | numbers(block)))
            found[-1].pieces.append(Piece("signature", word, tokens))
        elif found and text.split()[0] == found[-1].word:
            found[-1].pieces.append(Piece("clause", found[-1].word, tokens_of(text)))
            found[-1].lines |= numbers(block)
        else:
            raise Broken(f"not understood as a declaration: {text}")
    return found


# --- code: contracts and types ---

CODE_COMMENT = re.compile(r"\s*//.*")


def closing(text, at):
    """The place of the bracket that closes the one at a place."""
    depth = 0
    for place in range(at, len(text)):
        depth += (text[place] in "({") - (text[place] in ")}")
        if not depth:
            return place
    raise Broken(f"no bracket closes this one: {text[at:at + 60]}")


CLAUSE = re.compile(r"(requires|ensures)\*?( \w+)?\s*$")
CONSTANT = re.compile(r"\b[A-Z][A-Z0-9_]*\b")


def constants(text):
    """The constants of a file of code, its own and those that it uses from others."""
    named = re.findall(r"^(?:pub )?const (\w+)|^use ([^;]+);", text, re.MULTILINE)
    return {word for names in named for name in names for word in CONSTANT.findall(name)}


def contracts(text):
    """Each function of a file of code: its name, what its contract takes from the code (the parameters, the result, and
    constants), and the texts of its `requires` and `ensures`."""
    text = CODE_COMMENT.sub("", text)
    for found in re.finditer(r"\bfn (\w+)", text):
        start = text.index("(", found.end())
        end = closing(text, start)
        bound = {"self", "result", *re.findall(r"(\w+)\s*:", text[start:end]), *constants(text)}
        parts = []
        while (brace := text.find("{", end)) > 0 and CLAUSE.search(text, end, brace):
            end = closing(text, brace)
            parts.append(text[brace + 1:end])
        yield found[1], bound, parts


def code_types(text):
    """Each struct and enum of a file of code: its name, the numbers of its lines, and its text."""
    lines = said_lines(text, CODE_COMMENT)
    text = "\n".join(line for _, line in lines)
    for found in re.finditer(r"^ *(?:pub )?(?:struct|enum) (\w+).*\{$", text, re.MULTILINE):
        end = closing(text, found.end() - 1)
        first, last = (text.count("\n", 0, place) for place in (found.start(), end))
        yield found[1], numbers(lines[first:last + 1]), text[found.end():end]


# --- the tree: what names mean, and where they lead ---

PROJECT = re.compile(r"Rattle\.(\w+)\.(specs|proofs)\.(.+)")
USE = re.compile(r"^(?:pub |ghost )?use ([^\s{]+?)(?:\.\{([^}]*)\}| as (\S+))", re.MULTILINE)


def origin(module, word):
    """What a `use` of a word from a module means. A variant of a type of the code means the type."""
    found = PROJECT.fullmatch(module)
    if not found or found[1] in TOOLCHAIN:
        return Name("library", module, word)
    crate, side, path = found[1], found[2], found[3].split(".")
    if path[0] != "declared":
        return Name(side, f"{crate}/{side}/{'/'.join(path)}.antt", word)
    path = [part for part in path[1:] if part != "TheVariants"]
    return Name("code", f"{crate}/src/{'/'.join(path[:-1]) or 'lib'}.rt", path[-1])


class Source:
    """A file: what it uses from others, what it declares, and which words its operators are written with."""

    def __init__(self, file, text):
        self.file, self.text, self.declared, self.types = file, text, {}, {}
        if file.endswith(".antt"):
            self.declared = {its.word: its for its in declarations(said_lines(text))}
        else:
            self.types = {word: (lines, body) for word, lines, body in code_types(text)}
        self.built = {word: its.word for its in self.declared.values() for word in its.named("constructor")}
        self.uses, self.aliases = {}, {}
        for module, words, alias in USE.findall(text):
            if alias:
                self.aliases[alias] = module
            for word in filter(None, map(str.strip, words.split(","))):
                word, _, other = word.partition(" as ")
                self.uses[other or word] = origin(module, word)
        visible = [*self.uses, *self.declared, *self.built]
        self.operators = {part: word for word in visible if OPERAND in word for part in word.split(OPERAND) if part}

    def own(self, word):
        """The declaration that a word of this file's own means: the one of that name, or the data that it builds."""
        return word if word in self.declared else self.built.get(word)


class Tree:
    """The crates of a folder. What is wrong with them is kept in `problems`."""

    def __init__(self, root):
        self.root, self.crates, self.sources, self.problems = Path(root), Path(root) / "crates", {}, []

    def source(self, file):
        """The file by its path in crates/, read once; None if there is none."""
        if file not in self.sources:
            path = self.crates / file
            try:
                self.sources[file] = Source(file, path.read_text(encoding="utf-8")) if path.is_file() else None
            except Broken as error:
                raise Broken(f"{file}: {error}") from None
        return self.sources[file]

    def wrong(self, problem):
        if problem not in self.problems:
            self.problems.append(problem)

    def found(self, name, where):
        """A name as it is defined, a constructor as its data; None, and a problem, if it cannot be listed."""
        if name.side == "library":
            return name
        source = self.source(name.place)
        word = source and (name.word if name.word in source.types else source.own(name.word))
        if not word:
            return self.wrong(f"{where}: there is no `{name.word}` in {name.place}")
        if name.side != "proofs":
            return name._replace(word=word)
        return self.wrong(f"{where}: `{word}` is defined in {name.place}; what a promise speaks of belongs to specs/")

    def meant(self, source, token, where):
        """What a word means that is free in a file."""
        word = source.operators.get(token, token)
        alias, _, rest = token.partition(".")
        if source.own(word):
            return self.found(Name(source.file.split("/")[1], source.file, word), where)
        if word in source.uses:
            return self.found(source.uses[word], where)
        if alias in source.aliases:
            return self.found(origin(source.aliases[alias], rest), where)
        if rest:
            return self.meant(source, alias, where)
        if token in OWN:
            return Name("library", "", token)
        return self.wrong(f"{where}: nothing says what `{token}` is")

    def all_meant(self, source, tokens, where):
        return {name for token in tokens if (name := self.meant(source, token, where))}

    def builds(self, source, token):
        """Whether a word builds data, so that it binds nothing in a pattern. In doubt a library's word does."""
        word = source.operators.get(token, token)
        if word in source.declared or word not in source.uses:
            return word in source.built or token in OWN
        name = source.uses[word]
        return name.side in ("library", "code") or name.word in getattr(self.source(name.place), "built", ())

    def clause(self, source, tokens, bound):
        """The free names of a clause; in its patterns what builds nothing is bound."""
        patterns, term = clause_sides(tokens)
        words = walked(patterns)[0]
        built = [word for word in words if self.builds(source, word)]
        return built + walked(term, bound | set(words) - set(built))[0]

    def uses(self, name):
        """What a definition speaks of."""
        if name.side == "library":
            return set()
        source = self.source(name.place)
        if name.side == "code":
            return self.type_uses(source, name)
        declaration = source.declared[name.word]
        free, bound = walked(declaration.telescope)
        for kind, word, tokens in declaration.pieces:
            if kind == "clause":
                free += self.clause(source, tokens, bound)
                continue
            more, after = walked(tokens, bound)
            free += more
            # parameters and fields of a record are bound in the fields behind them; a signature binds in itself alone
            bound = {"head": after, "field": bound | {word}}.get(kind, bound)
        return self.all_meant(source, free, f"{name.place}: {name.word}") - {name}

    def type_uses(self, source, name):
        """The types of the code that a type of the code is made of."""
        used = re.findall(r"^use (\w+)::(\w+);", source.text, re.MULTILINE)
        types = {word: Name("code", f"{crate}/src/lib.rt", word) for crate, word in used}
        types |= {word: Name("code", source.file, word) for word in source.types}
        words = set(re.findall(r"\b[A-Z]\w*", source.types[name.word][1])) & set(types) - {name.word}
        return {its for word in words if (its := self.found(types[word], f"{name.place}: {name.word}"))}

    def statement(self, law, file):
        """What the statement of a law speaks of: its type, and the telescopes of the modules around it. A law that is a
        field of a record in specs/ is read with the record."""
        source = self.source(file)
        for its in source.declared.values() if source else ():
            if law in its.named("field") and "/specs/" in file:
                return {Name("specs", file, its.word)}
            if law == its.word:
                free, bound = walked(its.telescope)
                return self.all_meant(source, free + walked(its.pieces[0].tokens, bound)[0], f"law {law}")
        self.wrong(f"law {law}: there is none in {file}")
        return set()

    def contract(self, call):
        """What the contract of a function speaks of, or of all functions of a crate's root file."""
        crate, _, function = call.partition("::")
        source = self.source(f"{crate}/src/lib.rt") or self.source(f"{crate}/src/main.rt")
        found = [its for its in contracts(source.text) if function in ("*", its[0])] if source else []
        if not found:
            self.wrong(f"contract {call}: there is no such function in {crate}/src")
        elif not any(parts for _, _, parts in found):
            self.wrong(f"contract {call}: the function has none")
        return {name for word, bound, parts in found for part in parts
                for name in self.all_meant(source, walked(tokens_of(part), bound)[0], f"{crate}::{word}")}

    def roots(self, group):
        """What the contracts and laws of a section speak of."""
        names = set().union(*map(self.contract, group.contracts.split()))
        return names.union(*(self.statement(law, file) for law, file in group.laws.items()))

    def followed(self, names):
        """The names, and all that they lead to."""
        met, left = set(), set(names)
        while left:
            met |= left
            left = set().union(*map(self.uses, left)) - met
        return met


# --- the page ---

class Row(NamedTuple):
    """A file of a section: the definitions that are read in it, in its order, and on how many lines they stand."""
    file: str
    words: list
    lines: int

    def shown(self):
        kind = "types of the code: " if self.file.endswith(".rt") else ""
        return f"| `{self.file}` | {kind}{cell(self.words)} | {len(self.words)} | {self.lines} |"


class Section(NamedTuple):
    group: Group
    rows: list
    examples: list


def quoted(words):
    return ", ".join(f"`{word}`" for word in words)


def cell(words):
    """The words for a cell of a table, in which a bar would end the cell."""
    return quoted(words).replace("|", "\\|")


def filled(text, first="", others=""):
    """The text in lines of the page's width, which break at spaces alone: `edge-ends` is one word."""
    return textwrap.fill(" ".join(text.split()), WIDTH, initial_indent=first, subsequent_indent=others,
                         break_long_words=False, break_on_hyphens=False)


def file_order(tree):
    """The place of each file: by crates.txt, down which data flows, and in a crate by specs/Lib.antt, code first."""
    text = (tree.root / "crates.txt").read_text(encoding="utf-8")
    found = []
    for crate in re.findall(r"^(\w+)[^:#\n]*:", text, re.MULTILINE):
        found += sorted(path.relative_to(tree.crates).as_posix() for path in (tree.crates / crate / "src").glob("*.rt"))
        lib = tree.source(f"{crate}/specs/Lib.antt")
        modules = re.findall(r"^pub mod (\w+)", lib.text, re.MULTILINE) if lib else []
        found += [f"{crate}/specs/{module}.antt" for module in modules]
    return {file: place for place, file in enumerate(found)}


def reading_order(tree, names, order):
    """The files of the names, each behind those that it speaks of; of several that may come next, the first of them."""
    left = sorted({name.place for name in names}, key=lambda file: order.get(file, len(order)))
    needs = {file: set() for file in left}
    for name in names:
        needs[name.place] |= {its.place for its in tree.uses(name) & names}
    done = []
    while left:
        done.append(next(file for file in left if needs[file] <= {file, *done}))
        left.remove(done[-1])
    return done


def row(tree, file, words):
    source = tree.source(file)
    lines = {word: its.lines for word, its in source.declared.items()}
    lines |= {word: its for word, (its, _) in source.types.items()}
    words = [word for word in lines if word in words]
    return Row(file, words, len(set().union(*(lines[word] for word in words))))


def examples(tree, crates):
    files = [f"{crate}/specs/{word}.antt" for crate in sorted(crates) for word in sorted(EXAMPLES)]
    return [file for file in files if (tree.crates / file).is_file()]


def sections(root):
    """The sections, each with what it needs and none before it does; and the names of the library that they use."""
    tree = Tree(root)
    roots = [tree.roots(group) for group in GROUPS]
    everything = tree.followed(set().union(*roots))
    if tree.problems:
        raise Broken("\n".join(tree.problems))
    found, before, crates, order = [], set(), set(), file_order(tree)
    for group, names in zip(GROUPS, roots):
        whole = {name for name in everything if name.crate in group.crates.split()}
        needed = {name for name in tree.followed(names | whole) - before if name.side != "library"}
        new = {name.crate for name in needed} - crates
        files = reading_order(tree, needed, order)
        rows = [row(tree, file, {name.word for name in needed if name.place == file}) for file in files]
        found.append(Section(group, rows, examples(tree, new)))
        before |= needed
        crates |= new
    return found, {name for name in everything if name.side == "library"}


def amount(rows):
    """How many definitions some rows have, and on how many lines."""
    kinds = (".antt", "definition", "definitions"), (".rt", "type of the code", "types of the code")
    parts = []
    for ending, one, several in kinds:
        its = [row for row in rows if row.file.endswith(ending)]
        words, lines = sum(len(row.words) for row in its), sum(row.lines for row in its)
        if words:
            parts.append(f"{words:,} {one if words == 1 else several} on {lines:,} lines")
    return " and ".join(parts)


def read_for(group):
    """Which contracts and laws a section is read for, as a sentence; nothing if it only prepares others."""
    calls, parts = group.contracts.split(), []
    if calls:
        parts.append(f"the contract{'s' * (len(calls) > 1)} of {quoted(calls)}")
    if group.laws:
        parts.append(f"the law{'s' * (len(group.laws) > 1)} {quoted(group.laws)}")
    return f" Read for {' and '.join(parts)}." if parts else ""


def section_lines(number, section):
    yield f"## {number}. {section.group.title}\n"
    yield filled(section.group.about + read_for(section.group)) + "\n"
    yield f"{amount(section.rows)}:\n"
    yield "| file | definitions | number | lines |\n|---|---|---|---|"
    yield from (row.shown() for row in section.rows)
    if section.examples:
        yield "\n" + filled(f"Computed examples, which need no belief: {quoted(section.examples)}.")
    yield ""


def library_lines(number, names):
    """The names of the library by module, and last what antt has of its own."""
    yield f"## {number}. Names of the library\n"
    yield filled(LIBRARY) + "\n"
    yield "| module | names |\n|---|---|"
    for module in sorted({name.place for name in names}, key=lambda module: (not module, module)):
        words = sorted(name.word for name in names if name.place == module)
        yield f"| {f'`{module}`' if module else 'antt itself'} | {cell(words)} |"


def page(root):
    """The text of docs/BELIEVE.md for the crates of a folder."""
    found, library = sections(root)
    total = amount([row for section in found for row in section.rows])
    paragraphs = [filled(paragraph) for paragraph in HEAD.format(total=total).split("\n\n")]
    lines = ["\n\n".join(paragraphs) + "\n", *(filled(point, "- ", "  ") for point in ASSUMED), ""]
    for number, section in enumerate(found, 1):
        lines += section_lines(number, section)
    return "\n".join([*lines, *library_lines(len(found) + 1, library)]) + "\n"


def unlisted(root, text):
    """What contracts and laws of a folder reach and a page does not list, as `FILE: DEFINITION`."""
    listed = set()
    for line in filter(re.compile(r"\| `").match, text.splitlines()):
        file, *words = re.findall(r"`([^`]+)`", line.replace("\\|", "|"))
        listed.update((file, word) for word in words)
    rows = [row for section in sections(root)[0] for row in section.rows]
    return [f"{row.file}: {word}" for row in rows for word in row.words if (row.file, word) not in listed]


def laws():
    """The named laws, each with the file in which it stands."""
    return {law: file for group in GROUPS for law, file in group.laws.items()}


def main():
    try:
        text = page(ROOT)
    except Broken as error:
        sys.exit(f"docs/BELIEVE.md is left as it was:\n{error}")
    (ROOT / "docs" / "BELIEVE.md").write_text(text, encoding="utf-8")


if __name__ == "__main__":
    main()

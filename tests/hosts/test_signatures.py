"""The calls as the header declares them, as crates/exports_c proves them, as Rust calls them and as the library has
them: the same names, and the same parameters in the same order, one by one."""

import re
import subprocess

from support import ROOT, header
from support.harness import test
from support.library import ORACLES, PATH

RATTLE = ROOT / "crates" / "exports_c" / "src" / "lib.rt"
RUST = ROOT / "bindings" / "rust" / "src" / "tables.rs"

# the types of Rattle and of Rust's declarations as C has them
NUMBERS = {"u8": "uint8_t", "u32": "uint32_t", "u64": "uint64_t", "usize": "size_t"}
POINTERS = {"&": "const ", "&mut ": "", "*const ": "const ", "*mut ": ""}
TYPE = re.compile(r"(&mut |&|\*const |\*mut |)(\[?)(\w+)\]?")


def in_c(name, type_):
    """A parameter of Rattle or of Rust as C declares it; a slice has its length behind it."""
    pointer, slice_, entry = TYPE.fullmatch(type_).groups()
    if not pointer:
        return [f"{NUMBERS[entry]} {name}"]
    return [f"{POINTERS[pointer]}{NUMBERS[entry]} *{name}"] + [f"size_t {name}_length"] * bool(slice_)


def functions(text, start):
    """The parameters of each function that starts so and answers a number, as C declares them."""
    found = re.findall(start + r" fn niqastul_(\w+)\(([^()]*)\) -> u32\b", text)
    lists = {name: re.findall(r"(\w+): ([^,]+?)\s*(?:,|$)", words) for name, words in found}
    return {name: [word for its in words for word in in_c(*its)] for name, words in lists.items()}


def of_rattle(text):
    return functions(text, r'#\[unsafe\(no_mangle\)\]\s+pub extern "C"')


def of_rust(text):
    """Those of the block of foreign functions."""
    return functions(re.search(r'extern "C" \{([^{}]*)\}', text)[1], "pub")


SOURCES = {RATTLE: of_rattle, RUST: of_rust}


@test(at_least=26)
def same_parameters(t):
    """None is left untested, either: each has an oracle."""
    symbols = subprocess.run(["nm", "-D", "--defined-only", PATH], check=True, capture_output=True, text=True).stdout
    t.same(sorted(re.findall(r" T niqastul_(\w+)", symbols)), sorted(header.DECLARED))
    t.same(sorted(ORACLES), sorted(header.DECLARED))
    for path, read in SOURCES.items():
        found = read(path.read_text())
        t.same(sorted(found), sorted(header.DECLARED), path.name)
        for name, words in header.DECLARED.items():
            t.same(found[name], words, path.name, name)


@test(at_least=6)
def work_tables(t):
    """What the header calls work is lent beside tables that are written, and ends as the tests expect."""
    grown = ["ends", "jump", "lower"]
    wanted = {"relabel": ["inverse"], "add": grown, "join": grown, "report": grown, "separate": grown}
    t.same({name: its for name, its in header.WORK.items() if its}, wanted)
    for name, its in wanted.items():
        t.same([table for table, parameter in header.CALLS[name].items() if parameter.kind == "work"], its, name)


def variants(words):
    """Parameters of which two neighbours are exchanged, or one is no longer written, or has other entries."""
    for place, word in enumerate(words):
        before, behind = words[:place], words[place + 1:]
        if behind:
            yield [*before, behind[0], word, *behind[1:]]
        if "mut " in word:
            yield [*before, word.replace("&mut ", "&").replace("*mut ", "*const "), *behind]
        if "u32" in word:
            yield [*before, word.replace("u32", "u64"), *behind]


@test(at_least=440)
def told_apart(t):
    """Any such change of a signature in a source is seen."""
    for path, read in SOURCES.items():
        text = path.read_text()
        for name, words in re.findall(r"fn niqastul_(\w+)\(([^()]*)\) -> u32\b", text):
            for its in variants([word.strip() for word in words.split(",") if word.strip()]):
                changed = text.replace(f"niqastul_{name}({words})", f"niqastul_{name}({', '.join(its)})")
                t.true(read(changed)[name] != header.DECLARED[name], path.name, name, its)

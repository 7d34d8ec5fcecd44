"""The bindings' own tests, and the examples in C, Python and Rust: the same files give the same blocks, those of the
oracle. What pages show in C gives the blocks that they say."""

import os
import pathlib
import random
import re
import subprocess
import sys
import tempfile

from oracle import blocks, calls
from support import ROOT, compiled, nets
from support.files import THREE, file_of
from support.harness import test

ENVIRONMENT = os.environ | {"CARGO_TARGET_DIR": str(ROOT / "target" / "cargo")}
PYTHON, RUST = ROOT / "bindings" / "python", ROOT / "bindings" / "rust"
STRICT = ("-std=c99", "-Wall", "-Wextra", "-Werror")


def printed(*command, **options):
    return subprocess.run(command, check=True, capture_output=True, text=True, **{"env": ENVIRONMENT} | options)


@test(at_least=1)
def python_binding(t):
    shown = printed(sys.executable, "test_niqastul.py", cwd=PYTHON).stderr
    ran = int(re.search(r"Ran (\d+) tests", shown)[1])
    t.true(ran >= 37 and shown.rstrip().endswith("OK"), shown)


@test(at_least=1)
def rust_binding(t):
    shown = printed("cargo", "test", "--offline", "--quiet", cwd=RUST).stdout
    t.true(sum(int(passed) for passed in re.findall(r"(\d+) passed", shown)) >= 34, shown)


def built(folder):
    """The examples, each as the words of its command. That in C is built against an installed library, by pkg-config,
    with the shared one and with the static one."""
    printed("make", "install", f"PREFIX={folder}/usr", cwd=ROOT)
    found = printed("pkg-config", "--cflags", "--libs", "niqastul",
                    env={"PATH": os.environ["PATH"], "PKG_CONFIG_PATH": f"{folder}/usr/lib/pkgconfig"}).stdout.split()
    source, shared, static = ROOT / "examples" / "blocks.c", f"{folder}/shared", f"{folder}/static"
    printed("gcc", *STRICT, source, *found, f"-Wl,-rpath,{folder}/usr/lib", "-o", shared)
    printed("gcc", source, *(word for word in found if word != "-lniqastul"), "-l:libniqastul.a", "-o", static)
    printed("cargo", "build", "--offline", "--quiet", "--example", "blocks", cwd=RUST)
    rust = ROOT / "target" / "cargo" / "debug" / "examples" / "blocks"
    return [shared], [static], [rust], [sys.executable, PYTHON / "blocks.py"]


def some_files(rng):
    """The bytes of three files."""
    n = rng.randrange(1, 40)
    order, edges = rng.sample(range(n), n), nets.ties(rng, n, rng.choice(nets.SHAPES))
    total = calls.rows_of(edges)
    limit = total + 1 - rng.randrange(total // 2 + 1)
    return file_of(*order), file_of(*nets.flat(edges)), file_of(limit, rng.randrange(1, 5))


@test(at_least=60)
def examples(t):
    with tempfile.TemporaryDirectory() as folder:
        programs, paths = built(folder), [pathlib.Path(folder) / name for name in THREE]
        for seed in range(15):
            files = some_files(random.Random(seed))
            for path, content in zip(paths, files):
                path.write_bytes(content)
            wanted = blocks.run(*files)
            for program in programs:
                ran = subprocess.run([*program, *paths], capture_output=True, text=True, env=ENVIRONMENT)
                if wanted.startswith("refused"):
                    told = wanted.split()[1] in ran.stdout + ran.stderr
                    t.true(ran.returncode != 0 and told, program, seed, ran.stderr)
                else:
                    t.same(ran.stdout, wanted, program, seed)


# pages that show the whole case in C, and the table that has its blocks in the end
SHOWN = {"README.md": "block", "docs/CALLS.md": "its.block"}


@test(at_least=2)
def shown_in_c(t):
    for page, block in SHOWN.items():
        parts = re.findall(r"^```c\n(.*?)^```", (ROOT / page).read_text(encoding="utf-8"), flags=re.S | re.M)
        [code] = [part for part in parts if "= {0,2,1, 0,4,1" in part]
        includes = "".join(f"#include <{name}.h>\n" for name in ("niqastul", "stdio", "stdlib"))
        source = f"int main(void) {{ {code} for (int i = 0; i < 6; i++) printf(\"%u \", {block}[i]); }}"
        t.same(compiled.printed("gcc -std=c99 -x c", includes + source), "0 1 0 1 1 1 ", page)

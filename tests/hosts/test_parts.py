"""The example in parts: processes that share out the edges of a graph come to the same link file, however many they
are."""

import itertools
import os
import pathlib
import random
import shutil
import subprocess
import tempfile

from oracle import calls
from support import ROOT, nets
from support.files import file_of, link_file
from support.harness import test

MISSING = None if shutil.which("mpicc") and shutil.which("mpirun") else "no MPI (Debian: libopenmpi-dev openmpi-bin)"
COUNTS = (1, 2, 3, 4)

# no remote processes, no copies between processes that a container forbids, no wait where processes end with a refusal,
# and no processor kept busy by one that waits
SETTINGS = {"plm": "isolated", "btl_vader_single_copy_mechanism": "none", "odls_base_sigkill_timeout": "0",
            "mpi_yield_when_idle": "1"}
ENVIRONMENT = os.environ | {"OMPI_MCA_" + name: value for name, value in SETTINGS.items()}


class Parts:
    """The program, built in a folder of its own."""

    def __init__(self, folder):
        self.folder, self.program = pathlib.Path(folder), f"{folder}/parts"
        words = ["-std=c99", "-Wall", "-Wextra", "-Werror", "-O2", "-I", ROOT / "include", "-o", self.program]
        sources = [ROOT / "examples" / "parts.c", ROOT / "target" / "lib" / "libniqastul.a"]
        subprocess.run(["mpicc", *words, *sources], check=True)

    def run(self, processes, order, edges):
        """What so many processes print, less the text of a number, and write, None if they write no file."""
        names = [self.folder / name for name in ("marks.ord", "ties.rec", "forest.link")]
        for name, content in zip(names, (order, edges)):
            name.write_bytes(content)
        names[2].unlink(missing_ok=True)
        command = ["mpirun", "--allow-run-as-root", "--oversubscribe", "-n", str(processes), self.program, *names]
        ran = subprocess.run(command, env=ENVIRONMENT, stdout=subprocess.PIPE, stderr=subprocess.DEVNULL, text=True)
        return ran.stdout.split("\n")[0].split(":")[0], names[2].read_bytes() if names[2].exists() else None


@test(at_least=24, missing=MISSING)
def same_file(t):
    """More processes than edges too."""
    with tempfile.TemporaryDirectory() as folder:
        parts = Parts(folder)
        for seed, shape in enumerate((nets.none, nets.path, nets.grid, nets.power_law, nets.complete, nets.tree)):
            rng = random.Random(seed)
            n = (1, 3, 60, 200, 20, 300)[seed]
            order, edges = rng.sample(range(n), n), nets.flat(nets.ties(rng, n, shape))
            wanted = link_file(order, edges)
            for processes in COUNTS:
                ran = parts.run(processes, file_of(*order), file_of(*edges))
                t.same(ran, ("", wanted), shape.__name__, processes)


@test(at_least=4, missing=MISSING)
def same_large_file(t):
    """100,000 vertices: the file that one process writes, which is that of one call."""
    rng, n = random.Random(1), 100_000
    order, edges = rng.sample(range(n), n), nets.flat(nets.with_rows(rng, nets.tree(rng, n) + nets.sparse(rng, n)))
    with tempfile.TemporaryDirectory() as folder:
        parts = Parts(folder)
        files = [parts.run(processes, file_of(*order), file_of(*edges)) for processes in COUNTS]
    printed, whole = files[0]
    t.same((printed, len(whole)), ("", 8 * n))
    for processes, file in zip(COUNTS[1:], files[1:]):
        t.true(file == files[0], processes)


@test(at_least=32, missing=MISSING)
def same_refusals(t):
    """Refused with one number, that of the whole list, and no file is written."""
    good = [0, 1, 1, 1, 2, 6, 2, 3, 1]
    faulty = [1, 1, 1], [0, 4, 1], [0, 1, 7]
    cases = [([], good), ([0, 1, 1, 2], good)]
    cases += [([3, 2, 1, 0], good + one + good + other) for one, other in itertools.permutations(faulty, 2)]
    with tempfile.TemporaryDirectory() as folder:
        parts = Parts(folder)
        for order, edges in cases:
            number, _ = calls.translate(order, edges, edges)
            for processes in COUNTS:
                ran = parts.run(processes, file_of(*order), file_of(*edges))
                t.same(ran, (f"refused {number}", None), order, edges, processes)


@test(at_least=2, missing=MISSING)
def same_limit(t):
    """One edge more than a list may have is 20, though each of two processes has half of them, and their rows fit."""
    edges = file_of(0, 1, 1) * (calls.MAX_TIES + 1)
    with tempfile.TemporaryDirectory() as folder:
        parts = Parts(folder)
        for processes in COUNTS[:2]:
            t.same(parts.run(processes, file_of(0, 1), edges), ("refused 20", None), processes)

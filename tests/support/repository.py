"""A small repository with this one's Makefile and gate/, and an `rt` that says what it is told to say."""

import contextlib
import os
import pathlib
import shutil
import subprocess
import tempfile

from support import ROOT

CRATES = """# the lowest
low:
# in between
middle: low
# what is made a library of
exports_c staticlib: middle low
# a program
blocks: middle low
"""

# it says what is in a file, makes what `rt lib` and `rt run` make in the folder of a crate, and ends with a status
RT = """#!/bin/sh
top={0}
case $1 in
version) exec cat $top/toolchain.txt ;;
lib) mkdir -p out && ar rc out/libexports_c.a ;;
run) mkdir -p out && echo program >out/blocks ;;
esac
cat $top/said
exit $(cat $top/status)
"""


class Repository:
    def __init__(self, path):
        self.path = pathlib.Path(path)
        shutil.copytree(ROOT / "gate", self.path / "gate", ignore=shutil.ignore_patterns("__pycache__"))
        shutil.copy(ROOT / "Makefile", self.path)
        self.write("crates.txt", CRATES)
        self.write("toolchain.txt", "some toolchain\n")
        self.write("crates/blocks/src/main.rt", "")
        self.write("crates/exports_c/src/lib.rt", "")
        for edit in ("one", "other"):
            self.write(f"crates/low/must-fail/{edit}.edit", "")
        self.write_program("bin/rt", RT.format(self.path))

    def write(self, name, text):
        path = self.path / name
        path.parent.mkdir(parents=True, exist_ok=True)
        path.write_text(text)

    def write_program(self, name, text):
        self.write(name, text)
        (self.path / name).chmod(0o755)

    def run(self, command, said, status=0, path=os.environ["PATH"]):
        """Runs a command beside an rt that says so; answers its status, and all that it prints, as lines."""
        self.write("said", said)
        self.write("status", str(status))
        environment = os.environ | {"PATH": f"{self.path / 'bin'}:{path}"}
        ran = subprocess.run(command, cwd=self.path, env=environment, stdout=subprocess.PIPE,
                             stderr=subprocess.STDOUT, text=True)
        return ran.returncode, ran.stdout.splitlines()


@contextlib.contextmanager
def a_repository():
    with tempfile.TemporaryDirectory() as path:
        yield Repository(path)

"""The program `blocks`, run in a folder on its three files, and what the oracle says that it prints."""

import contextlib
import pathlib
import subprocess
import tempfile

from oracle import blocks
from support import ROOT
from support.files import THREE

PROGRAM = ROOT / "target" / "bin" / "blocks"


@contextlib.contextmanager
def folder_of(files):
    """A folder with marks.ord, ties.rec and want.rec of these bytes; None for no file."""
    with tempfile.TemporaryDirectory() as folder:
        for name, content in zip(THREE, files, strict=True):
            if content is not None:
                (pathlib.Path(folder) / name).write_bytes(content)
        yield pathlib.Path(folder)


def printed(folder, **options):
    """What is printed in a folder; a status other than 0 is an error."""
    return subprocess.run([PROGRAM], cwd=folder, stdout=subprocess.PIPE, check=True, **options).stdout.decode()


def wanted(files):
    return blocks.run(*(content or b"" for content in files))


def run(t, files, *context, **options):
    """Runs the program on files with these bytes and compares with the oracle; answers what it prints."""
    with folder_of(files) as folder:
        text = printed(folder, **options)
    t.same(text, wanted(files), *context)
    return text

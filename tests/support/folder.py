"""The command line of the Python module, run in this process on the files of a folder."""

import contextlib
import io
import itertools
import os
import pathlib
import sys
import tempfile
from unittest import mock

from support import ROOT

PYTHON = ROOT / "bindings" / "python"
sys.path.insert(0, str(PYTHON))

from niqastul.__main__ import main

MEMORY = "/dev/shm"


@contextlib.contextmanager
def a_folder(large=False):
    """A folder that goes when the test is done; one of many small files is held in memory, where that can be had."""
    with tempfile.TemporaryDirectory(dir=None if large or not os.access(MEMORY, os.W_OK) else MEMORY) as path:
        yield Folder(path)


class Folder:
    """Names are those of files in the folder; a number is handed to a command as it is."""

    def __init__(self, path):
        self.path = pathlib.Path(path)

    def write(self, **files):
        """Files by name, where `_` may stand for the dot; None for no file."""
        for name, data in files.items():
            path = self.path / name.replace("_", ".")
            if data is None:
                path.unlink(missing_ok=True)
            else:
                path.write_bytes(data)

    def run(self, command, *names):
        """The exit status and what is printed on the two outputs."""
        out, err = io.StringIO(), io.StringIO()
        with contextlib.redirect_stdout(out), contextlib.redirect_stderr(err):
            try:
                status = main([command, *(name if name.isdigit() else str(self.path / name) for name in names)])
            except SystemExit as ended:
                status = ended.code
        return status, out.getvalue(), err.getvalue()

    def state(self):
        """Every file and folder, with what it holds."""
        return {str(path): path.read_bytes() if path.is_file() else None for path in self.path.rglob("*")}


def full_disk(name, at=0):
    """The disk is full: a function of the system finds it so when it is called for this time."""
    real, times = getattr(os, name), itertools.count()

    def called(*arguments):
        if next(times) == at:
            raise OSError(28, "No space left on device")
        return real(*arguments)

    return mock.patch(f"os.{name}", called)

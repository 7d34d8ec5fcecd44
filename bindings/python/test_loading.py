"""Which shared library is loaded: that of this package's version, or none. Run by test_niqastul.py."""

import os
import pathlib
import tempfile
import unittest
from unittest import mock

from niqastul import calls, loading

# as long as the name of this version, so that it can stand in its place in a file
ANOTHER = calls.LIBRARY[:-1] + "x"


class Loading(unittest.TestCase):
    def setUp(self):
        folder = tempfile.TemporaryDirectory()
        self.addCleanup(folder.cleanup)
        self.folder, self.ours = pathlib.Path(folder.name), pathlib.Path(calls.library()._name)
        patched = mock.patch.object(loading, "BUILT", self.folder)
        patched.start()
        self.addCleanup(patched.stop)

    def file(self, name, data=None):
        """A file in the folder of built libraries: this version's, or with other bytes."""
        path = self.folder / name
        path.write_bytes(self.ours.read_bytes() if data is None else data)
        return str(path)

    def loaded(self, named="", name=calls.LIBRARY):
        """The file that is loaded, or the error, with a file named in the environment or none."""
        with mock.patch.dict(os.environ, NIQASTUL_LIBRARY=str(named)):
            try:
                return loading.load(name)._name
            except OSError as error:
                self.assertIsNone(error.filename)
                self.assertIn("`make` builds the library, NIQASTUL_LIBRARY names one elsewhere", str(error))
                return str(error)

    def of_another_version(self):
        data = self.ours.read_bytes()
        self.assertIn(calls.LIBRARY.encode(), data)
        return data.replace(calls.LIBRARY.encode(), ANOTHER.encode())

    def test_built(self):
        """By its name, whatever the link without a version leads to."""
        self.file(ANOTHER, self.of_another_version())
        os.symlink(ANOTHER, self.folder / "libniqastul.so")
        ours = self.file(calls.LIBRARY)
        self.assertEqual(self.loaded(), ours)

    def test_named(self):
        """By the name within, whatever the file is called."""
        ours, other = self.file("ours.so"), self.file(calls.LIBRARY, self.of_another_version())
        self.assertEqual(self.loaded(ours), ours)
        self.assertEqual(self.loaded(os.path.relpath(ours)), ours)
        self.assertIn(f"{other} is {ANOTHER}, and not {calls.LIBRARY}", self.loaded(other))

    def test_named_is_no_library(self):
        data = self.ours.read_bytes()
        cut = [data[:size] for size in (0, 5, 40, 64, len(data) // 8)]
        for part in cut + [b"text", data[:64] + bytes(2000), b"\x7fELF\1" + data[5:]]:
            other = self.file("other.so", part)
            self.assertIn(f"{other} is no library that names its version, and not {calls.LIBRARY}", self.loaded(other))
        self.assertIn(str(self.folder), self.loaded(self.folder))
        self.assertIn("/nowhere", self.loaded("/nowhere"))

    def test_missing(self):
        """Those of other versions that are there are told, and not loaded."""
        missing = "libniqastul.so.none"
        self.assertIn(missing + ": ", self.loaded(name=missing))
        other = self.file(ANOTHER, self.of_another_version())
        os.symlink(ANOTHER, self.folder / "libniqastul.so")
        for installed, told in ((None, ""), ("libniqastul.so.old", " and libniqastul.so.old, installed")):
            with mock.patch("ctypes.util.find_library", return_value=installed):
                self.assertIn(f"; found only {other}{told}; ", self.loaded(name=missing))


if __name__ == "__main__":
    unittest.main()

"""The shared library of one version. A library of another version takes other arguments, and nothing would tell: so it
is found by the name that carries its version, and a file that a caller names has to carry that name within."""

import ctypes
import ctypes.util
import os
import pathlib
import struct

BUILT = (pathlib.Path(__file__).resolve().parent / "../../../target/lib").resolve()

# Of an ELF file of 64 bits: a segment's kind, flags, place in the file, address, other address and length in the file;
# the kinds of those that are loaded and of the dynamic section; and in this the entries that say where all names stand,
# and which of them is the file's own.
SEGMENT = struct.Struct("=IIQQQQ")
LOADED, DYNAMIC = 1, 2
NAMES, OWN_NAME = 5, 14


def load(name):
    """The library that NIQASTUL_LIBRARY names, or that was built in this repository, or that is installed."""
    named, built = os.environ.get("NIQASTUL_LIBRARY"), BUILT / name
    try:
        return ctypes.CDLL(checked(named, name) if named else str(built) if built.exists() else name)
    except OSError as error:
        found = "" if named else others(name)
        raise OSError(f"{error}{found}; `make` builds the library, NIQASTUL_LIBRARY names one elsewhere") from error


def checked(path, name):
    """The place of a file that carries a name within; in full, so that what is loaded is what was read."""
    carried = own_name(pathlib.Path(path).read_bytes())
    if carried != name:
        raise OSError(f"{path} is {carried or 'no library that names its version'}, and not {name}")
    return os.path.abspath(path)


def others(name):
    """What there is of other versions, as the end of a sentence."""
    installed = ctypes.util.find_library("niqastul")
    found = [str(path) for path in sorted(BUILT.glob("libniqastul.so.*")) if path.name != name]
    found += [f"{installed}, installed"] if installed not in (None, name) else []
    return f"; found only {' and '.join(found)}" if found else ""


def own_name(data):
    """The name (SONAME) in the bytes of a shared library; None if it carries none, or is no ELF file of 64 bits."""
    try:
        return name_in_elf(data) if data[:5] == b"\x7fELF\2" else None
    except (struct.error, StopIteration, LookupError, ValueError, OverflowError):
        return None


def name_in_elf(data):
    (start,), (size, count) = struct.unpack_from("=Q", data, 32), struct.unpack_from("=HH", data, 54)
    segments = [SEGMENT.unpack_from(data, start + size * place) for place in range(count)]
    dynamic = next(data[place:place + length] for kind, _, place, _, _, length in segments if kind == DYNAMIC)
    entries = dict(struct.iter_unpack("=QQ", dynamic))
    names = next(place + entries[NAMES] - address for kind, _, place, address, _, length in segments
                 if kind == LOADED and address <= entries[NAMES] < address + length)
    start = names + entries[OWN_NAME]
    return data[start:data.index(0, start)].decode()

"""Tables as they are lent. A call goes by an address and a length, so a table is taken for what its buffer says that
it is, and for as long as that is, whatever its object says of itself. Anything else is a TypeError that names the
table."""

import collections
import ctypes
import sys
from array import array

# What a table is to a call: the code of its entries in an array, their size, the formats by which a buffer tells them,
# whether the call writes them, and what can be lent, in words.
Kind = collections.namedtuple("Kind", "code size formats written wanted")

WORDS, BYTES = ("I", 4, ("I", "L")), ("B", 1, ("B", "c"))
WORDS_READ = Kind(*WORDS, False, "a table is an array('I') or a contiguous buffer of unsigned 32-bit numbers")
WORDS_WRITTEN = Kind(*WORDS, True,
                     "a table is an array('I') or a writable, contiguous buffer of unsigned 32-bit numbers")
BYTES_READ = Kind(*BYTES, False, "a saved net is bytes or another contiguous buffer of them")
BYTES_WRITTEN = Kind(*BYTES, True, "a net is saved to a bytearray or another writable, contiguous buffer of bytes")

# what may stand before a format of numbers in the byte order of this machine
NATIVE = "@=<" if sys.byteorder == "little" else "@=>"

# what ctypes finds at the start of any buffer, be it empty
NOTHING = ctypes.c_char * 0

# the numbers to an edge in a list: its ends and its rows
STRIDE = 3


def zeros(length):
    return array("I", [0]) * length


def table(name, entries):
    """An argument as it can be lent: a buffer as it is, and any other row of integers, such as a list, as an array."""
    try:
        memoryview(entries).release()
    except TypeError:
        return array_of(name, entries)
    except (ValueError, BufferError):
        pass  # a buffer that was closed: lending it says so
    return entries


def array_of(name, numbers):
    try:
        return array("I", numbers)
    except TypeError as error:
        raise TypeError(f"{name}: not a row of integers ({error})") from None
    except OverflowError as error:
        raise OverflowError(f"{name}: not 32-bit numbers ({error})") from None


def length(name, entries):
    """The number of entries of a table of words."""
    with export(name, WORDS_READ, entries) as view:
        return len(view)


def edge_count(name, entries):
    """The number of whole edges in a list."""
    return length(name, entries) // STRIDE


def lend(name, kind, entries):
    """A view of a table that a call can be given the address of. Until it is released the buffer stays where it is and
    keeps its length, whatever other threads do. One that is read-only, for which ctypes has no address, or unaligned,
    which the calls are not made for, is copied if the call only reads it."""
    with export(name, kind, entries) as view:
        flaw = "read-only" if view.readonly else "unaligned" if view and address(view) % kind.size else None
        if flaw and kind.written:
            raise unlike(name, kind, entries, flaw)
        return copied(kind, view) if flaw else view[:]


def export(name, kind, entries):
    """A view of a table: of one row of such entries, without gaps, and as long as its memory."""
    try:
        exported = memoryview(entries)
    except (TypeError, ValueError, BufferError):
        raise unlike(name, kind, entries) from None
    with exported as view:
        row = view.c_contiguous and view.shape == (view.nbytes // kind.size,)
        if not row or view.itemsize != kind.size or view.format.lstrip(NATIVE) not in kind.formats:
            gaps = [] if view.c_contiguous else ["not contiguous"]
            raise unlike(name, kind, entries, f"format {view.format!r}", f"shape {view.shape}", *gaps)
        # cast, because Python cannot read views of ctypes arrays, whose formats name a byte order
        return view.cast("B").cast(kind.code)


def unlike(name, kind, entries, *found):
    """The error that says what can be lent, and what was found in its place."""
    details = f" ({', '.join(found)})" if found else ""
    return TypeError(f"{name}: {kind.wanted}, not {type(entries).__name__}{details}")


def address(view):
    return ctypes.addressof(NOTHING.from_buffer(view))


def copied(kind, view):
    """A view of a copy."""
    copy = array(kind.code)
    copy.frombytes(view.cast("B"))
    return memoryview(copy)

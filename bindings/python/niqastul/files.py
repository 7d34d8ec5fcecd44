"""Files: 32-bit numbers in them, and what is written, put in place only when it is whole."""

import contextlib
import os
import shutil
import sys
from array import array

from . import STRIDE, Refused

# the bytes of a record: a mark of an order, a tie, a rank of a link file
MARK, TIE, LINK = 4, 4 * STRIDE, 8


class Unusable(Exception):
    """A file that is there but cannot serve; the text says which and why."""


def content(path):
    with open(path, "rb") as file:
        return file.read()


def whole(data, size):
    """The bytes, refused unless they are whole records of a size, which the refusal then names."""
    if len(data) % size:
        refusal = Refused(6)
        refusal.args = (f"{refusal}: {len(data):,} bytes, and a record has {size}",)
        raise refusal
    return data


def numbers(data):
    """The little-endian 32-bit numbers in bytes."""
    its = array("I", data)
    if sys.byteorder == "big":
        its.byteswap()
    return its


@contextlib.contextmanager
def of_file(name):
    """A refusal within says of which file it speaks."""
    try:
        yield
    except Refused as refusal:
        refusal.args = (f"{refusal} ({name})",)
        raise


def beside(path):
    """Where a file or folder is, links followed, and a name beside it that no other run uses."""
    target = os.path.realpath(path)
    if not os.path.isdir(os.path.dirname(target)):
        raise Unusable(f"{path}: no folder to write it in")
    return target, f"{target}.{os.getpid()}.part"


def replace(path, data):
    """Writes a file beside the one that is named and moves it there: who reads finds the old file or the new one, whole."""
    target, part = beside(path)
    if os.path.exists(target) and not os.path.isfile(target):
        raise Unusable(f"{path}: not a file that can be replaced")
    file = open(part, "xb")
    with undone_on_error(lambda: os.unlink(part)):
        with file:
            file.write(data)
            file.flush()
            os.fsync(file.fileno())
        if os.path.exists(target):
            shutil.copymode(target, part)
        os.replace(part, target)


@contextlib.contextmanager
def replaced_folder(path, replaceable):
    """A new folder to write into, which takes the place of the one that is named when all is written. A folder that is there must be
    empty or `replaceable`, told by the names in it, and goes as a whole: nothing of it is left among the new files."""
    target, part = beside(path)
    there = os.path.lexists(target)
    if there and not os.path.isdir(target):
        raise Unusable(f"{path}: not a folder")
    if there and not replaceable(os.listdir(target)):
        raise Unusable(f"{path}: holds other files; name a new or empty folder")
    if there and os.path.samefile(target, os.curdir):
        raise Unusable(f"{path}: is the folder that this runs in, and cannot be replaced")
    os.mkdir(part)
    with undone_on_error(lambda: shutil.rmtree(part)):
        yield part
        if there:
            shutil.copymode(target, part)
            os.rename(target, part + ".old")
        with undone_on_error(lambda: there and os.rename(part + ".old", target)):
            os.rename(part, target)
    if there:
        shutil.rmtree(part + ".old")


@contextlib.contextmanager
def undone_on_error(undo):
    try:
        yield
    except BaseException:
        undo()
        raise

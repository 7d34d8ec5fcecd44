"""Pipes whose other end is a program's: one that it reads as a file and is fed in parts, and one that it writes to and
that is read slowly. Nothing here is timed: what the program has done is seen at the pipe."""

import contextlib
import fcntl
import os
import pathlib
import select
import signal
import struct
import subprocess
import termios
import threading

from support.waiting import until

PAGE = 4096
FEW = 7


def unread(pipe):
    """How many bytes a pipe holds."""
    return struct.unpack("i", fcntl.ioctl(pipe, termios.FIONREAD, bytes(4)))[0]


def is_left(pipe):
    """Whether a pipe that is written to has no reader any more."""
    poll = select.poll()
    poll.register(pipe, 0)
    return any(event & select.POLLERR for _, event in poll.poll(0))


def feed(path, parts, room):
    """Writes parts to a pipe, which has so much room if that is told. Each part is written once the one before it was
    taken, so that no read gets two of them. A reader that has read enough may leave."""
    with contextlib.suppress(BrokenPipeError), open(path, "wb", buffering=0) as pipe:
        if room:
            fcntl.fcntl(pipe, fcntl.F_SETPIPE_SZ, room)
        for part in parts:
            pipe.write(part)
            until(lambda: unread(pipe) == 0 or is_left(pipe))


@contextlib.contextmanager
def fed(folder, files, room=None):
    """Files of a folder that are pipes while this lasts, each fed with its parts."""
    threads = []
    for name, parts in files.items():
        os.mkfifo(folder / name)
        threads.append(threading.Thread(target=feed, args=(folder / name, parts, room), daemon=True))
        threads[-1].start()
    try:
        yield
    finally:
        for name in files:
            # who waits for a reader that never came is let go
            os.close(os.open(folder / name, os.O_RDONLY | os.O_NONBLOCK))
        for thread in threads:
            thread.join()


def is_waiting(process):
    """Whether a process sleeps, as in a write to a pipe that is full."""
    state = pathlib.Path(f"/proc/{process.pid}/stat").read_text().rpartition(")")[2].split()[0]
    return state == "S"


def stop_and_go(process):
    """Stops a process and lets it go on, as ^Z and fg do: a write that waits for room ends with what it has written."""
    os.kill(process.pid, signal.SIGSTOP)
    os.waitid(os.P_PID, process.pid, os.WSTOPPED | os.WEXITED | os.WNOWAIT)
    os.kill(process.pid, signal.SIGCONT)


def taken(pipe):
    """All that a pipe holds, taken a few bytes at a time."""
    return b"".join(os.read(pipe, FEW) for _ in range(0, unread(pipe), FEW))


def read_slowly(command, folder, interrupted):
    """What a command writes to a pipe of one page, which is read only when the command waits for room or has ended.
    Interrupted, it is stopped each time that it waits, and goes on: but for that a write to a pipe is never short,
    however slowly it is read."""
    end, start = os.pipe()
    fcntl.fcntl(start, fcntl.F_SETPIPE_SZ, PAGE)
    text, ended = [], False
    with subprocess.Popen(command, cwd=folder, stdout=start) as process, open(end, "rb") as pipe:
        os.close(start)
        while not ended:
            until(lambda: process.poll() is not None or is_waiting(process))
            ended = process.poll() is not None
            if interrupted and not ended:
                stop_and_go(process)
            text.append(taken(pipe.fileno()))
    return b"".join(text).decode()

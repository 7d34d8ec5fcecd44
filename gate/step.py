"""Commands, and what they say line by line."""

import os
import re
import signal
import subprocess


def say(line):
    print(line, flush=True)


class Step:
    """A command that runs until it ends or is stopped: `with Step(..) as step`. Its lines are read as they come."""

    def __init__(self, command, folder):
        self.last = ""
        # a session of its own, so that it can be stopped with all that it started
        self.process = subprocess.Popen(command, cwd=folder, stdout=subprocess.PIPE, stderr=subprocess.STDOUT,
                                        text=True, errors="replace", start_new_session=True)

    def __enter__(self):
        return self

    def __exit__(self, *_):
        if self.process.poll() is None:
            os.killpg(self.process.pid, signal.SIGTERM)

    def lines(self):
        """Each line, until the command has ended."""
        for line in self.process.stdout:
            self.last = line.rstrip("\n")
            yield self.last
        self.process.wait()

    def counts(self):
        """What its last line says passed and failed. A step that ends otherwise, or with another status than that line
        has, failed."""
        match = re.fullmatch(r"(\d+) passed, (\d+) failed", self.last)
        passed, failed = (int(match[1]), int(match[2])) if match else (0, 1)
        return passed, failed or int(self.process.returncode != 0)

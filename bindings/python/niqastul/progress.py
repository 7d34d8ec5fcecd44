"""What a long run is at, on standard error."""

import sys
import time


class Progress:
    """A line when a second has gone by since the last, and a fifth of the whole time: a short run says nothing, a long one not too
    much."""

    def __init__(self):
        self.began = self.last = time.monotonic()

    def at(self, step):
        now = time.monotonic()
        if now - self.last >= max(1, (now - self.began) / 5):
            self.last = now
            print(f"niqastul: {step} ..", file=sys.stderr, flush=True)

"""Waiting for what another process does, without a guess at how long that takes."""

import time

TOO_LONG = 60


def until(condition):
    """Waits until the condition holds; where it never does, that is an error."""
    end = time.monotonic() + TOO_LONG
    while not condition():
        if time.monotonic() > end:
            raise TimeoutError(f"waited {TOO_LONG} s in vain")
        time.sleep(0.0005)

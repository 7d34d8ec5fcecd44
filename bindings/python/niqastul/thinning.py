"""What is left out of a picture, and how it says so."""

import random


def thinned(items, most):
    """The items, or about as many as are allowed: one by lot of each stretch of the list, since a fixed step could meet a pattern in
    it. The lots are the same each time."""
    if len(items) <= most:
        return items
    lots, stretch = random.Random(0), len(items) / most
    return [items[place] for place in sorted({int((part + lots.random()) * stretch) for part in range(most)})]


def note(name, drawn, whole):
    """How much of a list is drawn, where it is not all."""
    return [f"{len(drawn):,} of {len(whole):,} {name}"] if len(drawn) < len(whole) else []

"""The legend of a picture: its figures, the look and load of each block, samples of what else is drawn, and what was left out."""

import collections
import functools

from . import svg

ROW = 20
ROWS = 28      # blocks that are listed

# Samples are pairs of what draws one around a point, and what it means.
Legend = collections.namedtuple("Legend", "figures loads samples notes")


def drawn(its, x, y):
    """The legend's elements, from a corner down, and how far they go."""
    parts = []
    for gap, sample, words, figure in rows(its):
        y += ROW + gap
        if sample:
            parts.append(sample(x + 18, y - 5))
        if words:
            parts.append(svg.text(x + (48 if sample else 0), y, words))
        if figure:
            parts.append(svg.text(x + 200, y, figure, text_anchor="end"))
    return parts, y


def rows(its):
    """Of each row the gap above it, then a sample, words and a figure, each there or not."""
    gap = ROW // 2
    for words in its.figures:
        yield 0, None, words, ""
    yield gap, None, "", "load"
    for block, load in enumerate(its.loads[:ROWS]):
        yield 0, functools.partial(block_sample, block), f"block {block}", f"{load:,}"
    if len(its.loads) > ROWS:
        yield 0, None, f"and {len(its.loads) - ROWS:,} more" + f"; looks repeat after {svg.LOOKS}" * (len(its.loads) > svg.LOOKS), ""
    for place, (sample, words) in enumerate(its.samples):
        yield 0 if place else gap, sample, words, ""
    if its.notes:
        yield gap, None, "thinned; drawn are only", ""
    for words in its.notes:
        yield 0, None, words, ""


def block_sample(block, x, y):
    return svg.block_lines(block, [((x - 18, y), (x + 18, y))], 3)


def border_sample(radius):
    return lambda x, y: svg.rings([(x, y)], 2 * radius) + svg.dots([(x, y)], radius, svg.INK), "border mark"

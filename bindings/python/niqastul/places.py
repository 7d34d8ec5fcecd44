"""A divided net drawn at the places of its vertices."""

import math

from . import STRIDE, files, legend, svg
from .thinning import note, thinned

MOST_EDGES = 12_000
MOST_VERTICES = 4_000
MOST_BORDER = 2_000
TALLEST = 900


def read(path, vertices):
    """The places in a text file, two numbers a line, one line for each vertex by its number."""
    points = []
    for place, line in enumerate(files.content(path).splitlines()):
        try:
            x, y = map(float, line.split())
        except ValueError:
            raise files.Unusable(f"{path}: line {place + 1} is not two numbers") from None
        if not math.isfinite(x) or not math.isfinite(y):
            raise files.Unusable(f"{path}: line {place + 1} is no place")
        points.append((x, y))
    if len(points) != vertices:
        raise files.Unusable(f"{path}: {len(points)} places for {vertices} marks")
    return points


def fitted(points):
    """Points on the picture, y up, one scale for both ways; and the height that they take."""
    (left, right), (low, high) = ((min(its), max(its)) for its in zip(*points))
    scale = min(svg.PLOT / ((right - left) or 1), TALLEST / ((high - low) or 1))
    shift = svg.EDGE + (svg.PLOT - scale * (right - left)) / 2
    return [(shift + scale * (x - left), svg.EDGE + scale * (high - y)) for x, y in points], svg.EDGE + scale * (high - low)


def drawn(its, report, points):
    """The height, the elements, and for the legend samples and notes. Where vertices are too many to be told apart, only those of the
    border are drawn."""
    points, height = fitted(points)
    edges = thinned(range(len(report.edge_blocks)), MOST_EDGES)
    border = [its.order[rank] for rank, count in enumerate(report.block_count) if count > 1]
    ringed, dotted = thinned(border, MOST_BORDER), range(len(points)) if len(points) <= MOST_VERTICES else []
    radius = min(3.5, max(0.7, 0.14 * math.sqrt(svg.PLOT * height / len(points))))
    by_block = {}
    for edge in edges:
        ends = its.edges[STRIDE * edge:STRIDE * edge + 2]
        by_block.setdefault(report.edge_blocks[edge], []).append([points[its.order[end]] for end in ends])
    room = math.sqrt(svg.PLOT * height / max(1, len(edges)))
    specks = sum(math.dist(*ends) for lines in by_block.values() for ends in lines) < room / 4 * len(edges)
    elements = edge_lines(by_block, 0.6 * room if specks else 0.7 * radius, specks)
    elements.append(svg.rings([points[vertex] for vertex in ringed], 2 * radius))
    elements.append(svg.dots([points[vertex] for vertex in dotted or ringed], radius, svg.INK))
    notes = note("ties", edges, report.edge_blocks) + note("border marks", ringed, border)
    notes += ["no other marks"] * (len(dotted) < len(points)) + ["ties as specks, without dashes"] * specks
    return height, elements, [legend.border_sample(radius)], notes


def edge_lines(by_block, width, specks):
    """The lines of each block. Specks are lines that are short for the room that each has: wide enough for the colour to be seen, they
    are no place for dashes."""
    if specks:
        return [svg.lines(by_block[block], width, svg.colour(block)) for block in sorted(by_block)]
    return [svg.block_lines(block, by_block[block], width) for block in sorted(by_block)]

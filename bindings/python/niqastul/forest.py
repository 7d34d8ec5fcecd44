"""An elimination forest drawn, roots on top: groups in the look of their block, the links that were cut in grey."""

from array import array

from . import ABSENT, legend, svg
from .thinning import note, thinned

MOST = 4_000
TALLEST = 900
STEP = 16      # from a vertex to its parent and from a leaf to the next, where there is room
CUT = "1 3"


def drawn(parents, report):
    """The height, the elements, and for the legend samples and notes."""
    division = report.division
    kept = chosen(division.top)
    above = nearest(parents, kept)
    points, height, step = laid_out(kept, above)
    radius = min(3.2, max(1.2, 0.22 * step))
    cut, links, dots = [], {}, {}
    for x in kept:
        dots.setdefault(division.block[x], []).append(points[x])
        if above[x] != ABSENT:
            same = division.top[x] == division.top[above[x]]
            (links.setdefault(division.block[x], []) if same else cut).append((points[x], points[above[x]]))
    border = [x for x in kept if report.block_count[x] > 1]
    elements = [svg.lines(cut, max(1, 0.5 * radius), svg.GREY, CUT)]
    elements += [svg.block_lines(block, links[block], max(1.2, 0.7 * radius)) for block in sorted(links)]
    elements.append(svg.rings([points[x] for x in border], 1.7 * radius))
    elements += [svg.dots(dots[block], radius, svg.colour(block)) for block in sorted(dots)]
    samples = [legend.border_sample(radius), (lambda x, y: svg.lines([((x - 18, y), (x + 18, y))], 2, svg.GREY, CUT), "a link that was cut")]
    return height, elements, samples, note("marks", kept, parents)


def chosen(top):
    """The vertices that are drawn, by rising rank: all, or of the tops of groups and of the others about half each."""
    if len(top) <= MOST:
        return range(len(top))
    tops = thinned([x for x, its in enumerate(top) if x == its], MOST // 2)
    others = thinned([x for x, its in enumerate(top) if x != its], MOST - len(tops))
    return sorted(tops + others)


def nearest(parents, kept):
    """For each vertex the lowest above it that is drawn."""
    is_kept, near = bytearray(len(parents)), array("I", parents)
    for x in kept:
        is_kept[x] = 1
    for x in range(len(parents) - 1, -1, -1):
        if parents[x] != ABSENT and not is_kept[parents[x]]:
            near[x] = near[parents[x]]
    return near


def laid_out(kept, above):
    """The point of each vertex, the height of them all and the step from one to the next. Every tree has a strip as wide as it has
    leaves, and its root stands over the middle of it."""
    leaves = dict.fromkeys(kept, 0)
    for x in kept:
        leaves[x] = leaves[x] or 1
        if above[x] != ABSENT:
            leaves[above[x]] += leaves[x]
    width = sum(leaves[x] for x in kept if above[x] == ABSENT)
    room, right, depth = {ABSENT: width}, {}, {ABSENT: -1}
    for x in reversed(kept):
        right[x] = room[x] = room[above[x]]
        room[above[x]] -= leaves[x]
        depth[x] = depth[above[x]] + 1
    across, down = min(STEP, svg.PLOT / width), min(STEP, TALLEST / (max(depth.values()) or 1))
    left = svg.EDGE + (svg.PLOT - across * width) / 2
    points = {x: (left + across * (right[x] - leaves[x] / 2), svg.EDGE + down * depth[x]) for x in kept}
    return points, svg.EDGE + down * max(depth.values()), min(across, down)

"""Draws the map of the crates, docs/crates.svg, from crates.txt: python3 docs/crates.py

A row to each crate, what it stands on above it, with the comment that stands right above it in crates.txt, under the heading of its
group, a line that begins with `##`. A line goes from a crate to those that stand on it, left out where it goes by way of a crate between
them. The crates of the toolchain are not drawn."""

import html
import pathlib
import sys
import textwrap

ROOT = pathlib.Path(__file__).resolve().parent.parent
sys.path.insert(0, str(ROOT / "bindings" / "python"))

from niqastul import svg

ROW, LANE, EDGE, WIDTH = 34, 22, 20, 960
LETTERS = 0.145    # letters of the text to a unit of width


def listed(text):
    """Each crate of crates.txt with what it stands on and its comment, in an order in which data flows down."""
    needs, about, said = {}, {}, []
    for line in text.splitlines():
        if line.startswith("#"):
            said.append(line.strip("# "))
            continue
        name, colon, rest = line.partition(":")
        if colon:
            name = name.split()[0]    # a static library has a word behind its name
            needs[name], about[name] = rest.partition("#")[0].split(), " ".join(said)
        said = []
    needs = {name: {other for other in its if other in needs} for name, its in needs.items()}
    order = []
    while len(order) < len(needs):
        ready = [name for name in needs if name not in order and needs[name] <= set(order)]
        if not ready:
            raise ValueError(f"crates.txt: a cycle among {sorted(set(needs) - set(order))}")
        order.append(ready[0])
    return order, needs, about


def headings(text):
    """The heading above each crate, None before the first."""
    above, heading = {}, None
    for line in text.splitlines():
        if line.startswith("##"):
            heading = line.strip("# ")
        elif not line.startswith("#") and ":" in line:
            above[line.split(":")[0].split()[0]] = heading
    return above


def rows_of(order, heading):
    """The row of each crate, and the row of each heading, which stands before the first crate of its group."""
    row, heads, latest = {}, {}, None
    for name in order:
        if heading[name] != latest:
            latest = heading[name]
            heads[latest] = len(row) + len(heads)
        row[name] = len(row) + len(heads)
    return row, heads


def reduced(order, needs):
    """For each crate what it stands on, less what it reaches by way of another of them."""
    reached, direct = {}, {}
    for name in order:
        beyond = set().union(*(reached[other] for other in needs[name]))
        direct[name], reached[name] = needs[name] - beyond, needs[name] | beyond
    return direct


def laned(order, direct):
    """A lane for each crate, its own down to the last crate that stands on it; a crate goes on in a lane that ends with it, or takes
    the first that is free."""
    row = {name: place for place, name in enumerate(order)}
    last = {name: max([row[other] for other in order if name in direct[other]], default=row[name]) for name in order}
    lanes, lane = [], {}
    for name in order:
        ending = [place for place, its in enumerate(lanes) if its in direct[name] and last[its] == row[name]]
        free = [place for place, its in enumerate(lanes) if last[its] < row[name]]
        lane[name] = (ending + free + [len(lanes)])[0]
        lanes[lane[name]:lane[name] + 1] = [name]
    return lane


def link(start, end, stroke):
    """Down the lane of the upper end, and over to the other in the last row."""
    (x, y), (u, v) = start, end
    path = f"M{x} {y}V{v - ROW}C{x} {v - ROW // 3} {u} {v - 2 * ROW // 3} {u} {v}"
    return svg.element("path", d=path, stroke=stroke, stroke_width=2.5, fill="none")


def drawn(text):
    order, needs, about = listed(text)
    direct = reduced(order, needs)
    lane = laned(order, direct)
    names = EDGE + LANE * (max(lane.values()) + 1)
    words = names + 10 * max(map(len, order))
    row, heads = rows_of(order, headings(text))
    point = {name: (EDGE + LANE * lane[name], EDGE + ROW * (row[name] + 1)) for name in order}
    shown = {name: svg.COLOURS[lane[name] % len(svg.COLOURS)] for name in order}
    height = ROW * (len(order) + len(heads) + 1) + 2 * EDGE
    parts = [svg.element("title", "The crates, each below those that it stands on"), svg.element("rect", width=WIDTH, height=height, fill="white")]
    parts += [svg.element("rect", x=0, y=point[name][1] - ROW // 2, width=WIDTH, height=ROW, fill="#f4f4f4") for name in order[::2]]
    parts += [svg.text(names, EDGE + ROW * (place + 1) + 9, html.escape(head, quote=False), font_style="italic", font_size=13)
              for head, place in heads.items()]
    parts += [link(point[other], point[name], shown[other]) for name in order for other in sorted(direct[name], key=order.index)]
    for name in order:
        parts += [svg.dots([point[name]], 6, shown[name]), svg.text(names, point[name][1] + 5, name, font_weight="bold")]
        parts += said(words, point[name][1], about[name])
    parts += [svg.text(EDGE, EDGE + 4, "edges", font_style="italic"), svg.text(EDGE, height - EDGE, "text", font_style="italic")]
    return svg.document(WIDTH, height, parts)


def said(x, y, comment):
    """A comment in one line or, where it is long, in two."""
    lines = textwrap.wrap(html.escape(comment, quote=False), int(LETTERS * (WIDTH - x)))
    if not 1 <= len(lines) <= 2:
        raise ValueError(f"crates.txt: the comment above a crate says in a line what it holds; this does not: {comment!r}")
    return [svg.text(x, y + 5 + 14 * place - 7 * (len(lines) - 1), line, font_size=13) for place, line in enumerate(lines)]


if __name__ == "__main__":
    (ROOT / "docs" / "crates.svg").write_text(drawn((ROOT / "crates.txt").read_text()))

"""Turns what bench prints into a page of tables and a plot for each call: results.py RESULTS.tsv FOLDER [FILE], where FILE keeps the page"""

import datetime
import math
import pathlib
import platform
import sys

# what the tables begin with, in the file that keeps them too, which they end
HEADING = "## Measured"

# what the goals and the plots stand between in that file
MARKS = ("<!-- goals -->\n", "<!-- /goals -->\n")

# what is measured: its heading, its file, the columns that ratios are taken to, the first of them for the factor of size too
MEASURED = {
    "grow": ("Growing a net from its edge list (start, add)", "grow", ("SuiteSparse", "SuiteSparse + rows")),
    "add 100": ("Adding 100 edges", "add", ("SuiteSparse",)),
    "join": ("Joining two halves", "join", ("SuiteSparse",)),
    "relabel": ("Relabelling", "relabel", ("checked C",)),
    "save": ("Saving", "save", ("plain C",)),
    "read": ("Reading", "read", ("plain C",)),
    "divide 16": ("Dividing into 16 blocks", "divide-16", ("plain C",)),
    "divide 1000": ("Dividing into 1,000 blocks", "divide-1000", ("plain C",)),
    "report 16": ("Reporting on a division into 16 blocks", "report", ("plain C",)),
    "report 2": ("Reporting on a division into 2 blocks", "report-2", ("plain C",)),
    "separate": ("Separating two vertices", "separate", ("checked C",)),
    "index": ("Building an index of neighbours", "index", ("checked C",)),
    "query": ("Querying an index for one rank", "query", ("scan",)),
    "threads": ("Growing a net in two threads", "threads", ("one thread",)),
}


def several_edges(row):
    return row[3] >= 2 * row[2]


def star_or_chain(row):
    return row[1] in ("star", "tall chain")


def survey(row):
    return row[1].startswith(("grid, nested", "grid, row", "scattered"))


# what was set out to be reached on the largest nets: in words, what is measured, beside which columns (the better of them), on which nets, at most
GOALS = (
    ("growing, several edges to a vertex ÷ the better of the peer's routes with rows", "grow", ("SuiteSparse + rows", "cs_compress + rows"),
     several_edges, 1.05),
    ("growing, star and tall chain ÷ the better of the peer's routes", "grow", ("SuiteSparse", "cs_compress"), star_or_chain, 1.25),
    ("growing, other nets of one edge to a vertex ÷ the better of the peer's routes", "grow", ("SuiteSparse", "cs_compress"),
     lambda row: not several_edges(row) and not star_or_chain(row), 1.25),
    ("adding 100 edges to a survey net ÷ one pass over its tables", "add 100", ("one pass",), survey, 2.0),
    ("relabelling ÷ C that makes the same checks", "relabel", ("checked C",), None, 1.2),
    ("dividing into 16 blocks ÷ plain C", "divide 16", ("plain C",), None, 1.2),
    ("dividing into 1,000 blocks ÷ plain C", "divide 1000", ("plain C",), None, 1.2),
    ("reporting on 16 blocks ÷ the peer's tree and column counts", "report 16", ("SuiteSparse",), None, 1.3),
    ("reporting on 2 blocks ÷ the peer's tree and column counts", "report 2", ("SuiteSparse",), None, 1.3),
)


def goals(rows):
    """A row for each goal: its bound, the least and the greatest ratio on the largest nets, and the net of the greatest."""
    most = max(row[2] for row in rows)
    lines = ["| goal | at most | reached | most on |", "|---|--:|--:|---|"]
    for words, what, columns, among, bound in GOALS:
        ratios = sorted((row[4]["niqastul"] / min(row[4][column] for column in columns), row[1])
                        for row in rows if row[0] == what and row[2] * 1.1 > most and (among is None or among(row)))
        if ratios:
            lines.append(f"| {words} | {bound:g} | {ratios[0][0]:.2f} to **{ratios[-1][0]:.2f}** | {ratios[-1][1]} |")
    return "\n".join(lines) + "\n"


def rows_of(path):
    for line in open(path):
        what, family, vertices, edges, *pairs = line.rstrip("\n").split("\t")
        yield what, family, int(vertices), int(edges), dict(zip(pairs[0::2], map(float, pairs[1::2])))


def number(ms):
    return f"{ms:,.0f}" if ms >= 100 else f"{ms:.1f}" if ms >= 10 else f"{ms:.2f}"


def table(rows, against):
    """A row for each family at its largest size, with its ratios and the factor from a tenth of it."""
    names = list(rows[0][4])
    headings = ["net", "vertices", "edges", *names, *(f"÷ {column}" for column in against), "10 × the size"]
    lines = ["| " + " | ".join(headings) + " |", "|---|" + "--:|" * (len(headings) - 1)]
    for family in dict.fromkeys(row[1] for row in rows):
        sizes = sorted((row for row in rows if row[1] == family), key=lambda row: row[2])
        _, _, vertices, edges, times = sizes[-1]
        tenth = [row[4] for row in sizes if abs(row[2] * 10 - vertices) < vertices / 4]
        factor = "".join(f"{times[names[0]] / its[names[0]]:.0f} ({times[against[0]] / its[against[0]]:.0f})" for its in tenth[:1])
        ratios = [f"**{times[names[0]] / times[column]:.2f}**" for column in against]
        cells = [family, f"{vertices:,}", f"{edges:,}", *(number(times[name]) for name in names), *ratios, factor]
        lines.append("| " + " | ".join(cells) + " |")
    return "\n".join(lines) + "\n"


# Plots: one panel for each family, time against size, both logarithmic.

COLOURS = {"niqastul": "#0072B2", "SuiteSparse": "#D55E00", "plain C": "#777777", "checked C": "#CC79A7", "cs_compress": "#E69F00", "one pass": "#009E73",
           "compare all": "#E69F00", "two threads": "#0072B2", "one thread": "#D55E00", "scan": "#D55E00", "growing": "#009E73",
           "SuiteSparse + rows": "#000000", "cs_compress + rows": "#56B4E9"}
WIDTH, HEIGHT, LEFT, BOTTOM, TOP, COLUMNS = 250, 170, 40, 34, 26, 4


def size(vertices):
    return f"{vertices // 1_000_000}M" if vertices >= 1_000_000 else f"{vertices // 1000}k"


def panel(rows, names, spans):
    """The elements of one panel, its corner at 0, 0."""
    (x0, x1), (y0, y1) = spans
    wide, high = WIDTH - LEFT - 14, HEIGHT - BOTTOM - TOP

    def at(vertices, ms):
        return (LEFT + wide * (math.log10(vertices) - x0) / (x1 - x0), TOP + high - high * (math.log10(ms) - y0) / (y1 - y0))

    yield f'<text x="{LEFT}" y="{TOP - 9}" class="title">{rows[0][1]}</text>'
    for power in range(math.ceil(y0), math.floor(y1) + 1):
        x, y = at(10 ** x0, 10 ** power)
        yield f'<line x1="{x:.1f}" y1="{y:.1f}" x2="{x + wide:.1f}" y2="{y:.1f}" class="grid"/>'
        yield f'<text x="{x - 5:.1f}" y="{y + 4:.1f}" class="tick" text-anchor="end">{10.0 ** power:g}</text>'
    for power in range(math.ceil(x0), math.floor(x1) + 1):
        x, y = at(10 ** power, 10 ** y0)
        yield f'<line x1="{x:.1f}" y1="{y:.1f}" x2="{x:.1f}" y2="{y - high:.1f}" class="grid"/>'
        yield f'<text x="{x:.1f}" y="{y + 14:.1f}" class="tick" text-anchor="middle">{size(10 ** power)}</text>'
    for name in reversed(names):
        points = [at(row[2], row[4][name]) for row in rows]
        line = " ".join(f"{x:.1f},{y:.1f}" for x, y in points)
        yield f'<polyline points="{line}" fill="none" stroke="{COLOURS[name]}" stroke-width="{2.5 if name == "niqastul" else 1.5}"/>'
        yield from (f'<circle cx="{x:.1f}" cy="{y:.1f}" r="2.5" fill="{COLOURS[name]}"/>' for x, y in points)


def plot(heading, rows):
    names = list(rows[0][4])
    families = list(dict.fromkeys(row[1] for row in rows))
    times = [ms for row in rows for ms in row[4].values()]
    spans = ((math.log10(min(row[2] for row in rows)), math.log10(max(row[2] for row in rows)) + 0.001),
             (math.log10(min(times)), math.log10(max(times))))
    high = 64 + HEIGHT * math.ceil(len(families) / COLUMNS)
    out = [f'<svg xmlns="http://www.w3.org/2000/svg" viewBox="0 0 {WIDTH * COLUMNS} {high}" font-family="sans-serif">',
           "<style>.title{font-size:11px;font-weight:bold}.tick{font-size:9px;fill:#555}.grid{stroke:#ddd;stroke-width:1}</style>",
           f'<rect width="{WIDTH * COLUMNS}" height="{high}" fill="white"/>',
           f'<text x="14" y="24" font-size="15">{heading}: milliseconds against vertices</text>']
    for place, name in enumerate(names):
        x = 14 + 160 * place
        out.append(f'<line x1="{x}" y1="42" x2="{x + 22}" y2="42" stroke="{COLOURS[name]}" stroke-width="3"/>')
        out.append(f'<text x="{x + 27}" y="46" font-size="12">{name}</text>')
    for place, family in enumerate(families):
        corner = f"translate({WIDTH * (place % COLUMNS)},{60 + HEIGHT * (place // COLUMNS)})"
        out += [f'<g transform="{corner}">', *panel([row for row in rows if row[1] == family], names, spans), "</g>"]
    return "\n".join(out + ["</svg>", ""])


def processor():
    lines = [line for line in open("/proc/cpuinfo") if line.startswith("model name")]
    return lines[0].split(":", 1)[1].strip() if lines else platform.machine()


def measured(rows):
    """What is measured that the rows have: for each its heading, its plot's name, its rows and what they are compared with."""
    for what, (heading, name, against) in MEASURED.items():
        here = [row for row in rows if row[0] == what]
        if here:
            yield heading, name, here, against


def summary(rows, plots):
    """The goals, and the plots in a folder, two in a row, each with a link to itself."""
    links = [f"[![{heading}]({plots}{name}.svg)]({plots}{name}.svg)" for heading, name, _, _ in measured(rows)]
    lines = [f"| {' | '.join(links[i:i + 2])} |" for i in range(0, len(links), 2)]
    return "\n".join(["## Goals\n", goals(rows), "## Plots\n", "| | |", "|---|---|", *lines, ""])


def tables(rows):
    """A table for each call."""
    parts = [f"{HEADING} on {datetime.date.today()}\n", f"Machine: {processor()}, {platform.system()}. Times are in milliseconds.",
             "The last column is the factor from a net a tenth as large, the peer's in brackets.\n"]
    for heading, _, here, against in measured(rows):
        parts += [f"### {heading}\n", table(here, against)]
    return "\n".join(parts)


def renewed(text, rows, plots):
    """The text of the file that keeps measurements, with these in place of those that it has."""
    before, rest = text.split(MARKS[0])
    after = rest.split(MARKS[1])[1].split(HEADING)[0]
    return "".join([before, MARKS[0], "\n", summary(rows, plots), "\n", MARKS[1], after, tables(rows)])


def main(results, folder, kept=None):
    """Writes the page and the plots to a folder. The file that keeps measurements gets the page in place of what it kept last."""
    rows, folder = list(rows_of(results)), pathlib.Path(folder)
    for heading, name, here, _ in measured(rows):
        (folder / f"{name}.svg").write_text(plot(heading, here))
    (folder / "results.md").write_text(summary(rows, "") + "\n" + tables(rows))
    if kept:
        kept = pathlib.Path(kept)
        kept.write_text(renewed(kept.read_text(), rows, "../bench/results/"))


if __name__ == "__main__":
    main(*sys.argv[1:])

"""A divided net as a folder of files: for each block its edges and its border, and a summary.

    block-NNN.rec       the edges of a block in vertex numbers, with their rows, as they stand in the edge file
    block-NNN.border    a line for each vertex with edges in this block and in others: its number, then those others
    summary.txt, summary.json       the figures, for readers and for programs
"""

import hashlib
import json
import os
import re
import struct
import sys
from array import array

from . import STRIDE, files, graph

OURS = re.compile(r"block-\d{3}\.(rec|border)|summary\.(txt|json)")
SUMMARY = "summary.json"


def edge_file(block):
    return f"block-{block:03}.rec"


def border_file(block):
    return f"block-{block:03}.border"


def split(progress, marks, ties, want, folder):
    its, limit, report = graph.read_divided(progress, marks, ties, want)
    with files.replaced_folder(folder, is_split) as part:
        progress.at("dealing the ties to their blocks")
        parts = dealt(its.ties, report)
        borders, vertices = bordered(progress, parts, by_vertex(its.order, report.block_count))
        figures = []
        for block, (edges, border) in enumerate(zip(parts, borders)):
            progress.at(f"writing block {block} of {len(parts)}")
            write(part, edge_file(block), edges)
            write(part, border_file(block), border_text(block, border).encode())
            figures.append({"ties": len(edges) // files.TIE, "marks": vertices[block], "border": len(border),
                            "digest": digest(files.numbers(edges))})
        summary = summed(limit, report, figures)
        write(part, SUMMARY, (json.dumps(summary, indent=1) + "\n").encode())
        write(part, "summary.txt", summary_text(summary).encode())


def is_split(names):
    """Whether a folder may be replaced: it is empty, or holds an earlier split and nothing else."""
    return not names or SUMMARY in names and all(OURS.fullmatch(name) for name in names)


def write(folder, name, data):
    with open(os.path.join(folder, name), "wb") as file:
        file.write(data)


def dealt(ties, report):
    """The edges of each block, in the order of the list; an edge is a record that nobody looks into."""
    parts = [bytearray() for _ in report.division.block_loads]
    extends = [part.extend for part in parts]
    for (edge,), block in zip(struct.iter_unpack(f"{files.TIE}s", ties), report.edge_blocks):
        extends[block](edge)
    return parts


def by_vertex(order, by_rank):
    its = array("I", by_rank)
    for vertex, entry in zip(order, by_rank):
        its[vertex] = entry
    return its


def bordered(progress, parts, block_count):
    """For each block its border vertices with all their blocks, by rising vertex; and the number of its vertices. The list of a vertex
    is one for all blocks, and is whole when the last of them is done."""
    blocks_of, borders, vertices = {}, [], []
    for block, edges in enumerate(parts):
        progress.at(f"listing the border of block {block} of {len(parts)}")
        numbers = files.numbers(edges)
        met = set(numbers[0::STRIDE]).union(numbers[1::STRIDE])
        border = sorted(vertex for vertex in met if block_count[vertex] > 1)
        for vertex in border:
            blocks_of.setdefault(vertex, []).append(block)
        borders.append({vertex: blocks_of[vertex] for vertex in border})
        vertices.append(len(met))
    return borders, vertices


def border_text(block, border):
    lines = (" ".join(map(str, [vertex] + [other for other in blocks if other != block])) for vertex, blocks in border.items())
    return "".join(line + "\n" for line in lines)


def digest(edges):
    """SHA-256 of edges, each as one number: its lower vertex, its higher one, of 32 bits, and its rows, of 3. They are sorted: it is the
    same in whatever order edges and ends stand."""
    numbers = zip(*(edges[place::STRIDE] for place in range(STRIDE)))
    its = array("Q", sorted((a << 32 | b if a < b else b << 32 | a) << 3 | rows for a, b, rows in numbers))
    if sys.byteorder == "big":
        its.byteswap()
    return hashlib.sha256(its).hexdigest()


def summed(limit, report, figures):
    """The figures of a split. `load` is the sum of the rows of the ties, `marks` are those with a tie in the block, `own` those whose
    group is in it, with or without ties."""
    own = [0] * len(figures)
    for block in report.division.block:
        own[block] += 1
    blocks = [{"block": block, "load": report.division.block_loads[block], "own": own[block], **its} for block, its in enumerate(figures)]
    return {"marks": sum(own), "ties": len(report.edge_blocks), "limit": limit, "bound": report.bound, "volume": report.volume,
            "share": {"quotient": report.share.quotient, "remainder": report.share.remainder}, "blocks": blocks}


def summary_text(summary):
    columns = ("block", "load", "ties", "marks", "own", "border")
    figures = [f"{name} {summary[name]}" for name in ("marks", "ties", "limit", "bound", "volume")]
    lines = ["  ".join(figures + ["share {quotient} {remainder}".format_map(summary["share"])])]
    lines += ["".join(f"{entry:>9}" for entry in row) for row in [columns] + [[its[name] for name in columns] for its in summary["blocks"]]]
    return "".join(line + "\n" for line in lines)

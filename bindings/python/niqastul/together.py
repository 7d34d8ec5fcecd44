"""The blocks of a split laid together again: is what they give the net?"""

import json
import os

from . import ABSENT, STRIDE, Net, files, graph, relabel, split


def together(progress, marks, folder, link):
    """Grows each block's file by itself, joins the nets, and prints how they and the summary stand to a link file; answers whether all
    is as it was split."""
    marks, wanted = files.content(marks), files.content(link)
    order = graph.order_of_files(marks, link=wanted)
    summary, found = summary_of(folder), []
    laid = joined(grown(progress, order, folder, summary, found)).save()
    found += [f"{name} is not in the summary" for name in others(folder, len(summary))]
    found += [] if laid == wanted else [difference(order, laid, wanted)]
    print(*found, verdict(link, laid == wanted, found), sep="\n")
    return not found


def summary_of(folder):
    """The load and the digest of each block."""
    path = os.path.join(folder, split.SUMMARY)
    try:
        blocks = [(int(its["load"]), str(its["digest"])) for its in json.loads(files.content(path))["blocks"]]
    except (ValueError, KeyError, TypeError):
        blocks = []
    if not blocks:
        raise files.Unusable(f"{path}: not the summary of a split")
    return blocks


def others(folder, blocks):
    """Edge files that the summary does not name."""
    named = {split.edge_file(block) for block in range(blocks)}
    return sorted(name for name in os.listdir(folder) if name.endswith(".rec") and split.OURS.fullmatch(name) and name not in named)


def grown(progress, order, folder, summary, found):
    """The net of each block's file; what the summary says otherwise of it goes to what is found. Ties changed so that the net stays
    as it was are told by the digest alone."""
    for block, (load, digest) in enumerate(summary):
        progress.at(f"growing block {block} of {len(summary)}")
        name, net = split.edge_file(block), Net(len(order))
        with files.of_file(name):
            edges = files.numbers(files.whole(files.content(os.path.join(folder, name)), files.TIE))
            net.add(relabel(order, edges))
        rows = sum(edges[2::STRIDE])
        if rows != load:
            found.append(f"{name} has {rows} rows, its load in the summary is {load}")
        elif split.digest(edges) != digest:
            found.append(f"{name} has other ties than the summary was made of")
        yield net


def joined(nets):
    """All nets joined, two and two, then those two and two: joining is fast while nets have few edges, and few are held at a time."""
    held = []
    for place, net in enumerate(nets):
        while place % 2:
            held[-1].join(net)
            net, place = held.pop(), place // 2
        held.append(net)
    while len(held) > 1:
        net = held.pop()
        held[-1].join(net)
    return held[0]


def difference(order, laid, wanted):
    """The first rank at which the nets differ."""
    rank = next(rank for rank in range(len(order)) if record(laid, rank) != record(wanted, rank))
    shown = [shown_record(record(data, rank)) for data in (laid, wanted)]
    return f"first at rank {rank}, mark {order[rank]}: {shown[0]} laid together, {shown[1]} in the net"


def record(link, rank):
    return link[files.LINK * rank:files.LINK * (rank + 1)]


def shown_record(record):
    parent, load = files.numbers(record)
    return f"{'no parent' if parent == ABSENT else f'parent {parent}'} and load {load}"


def verdict(link, equal, found):
    if not equal:
        return f"the blocks laid together are NOT {link}"
    return f"the blocks laid together are {link}, byte for byte" + (", but not as they were split" if found else "")

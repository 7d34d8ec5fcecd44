"""Link files grown from edges, added to, and joined."""

from . import Net, Refused, files, graph, relabel


def grow(progress, marks, ties, out):
    files.replace(out, graph.read(progress, marks, ties).net.save())


def add(progress, marks, link, ties, out):
    """1, 6, 3, 4, 5 or 32 of a tie, 7, 20 of the link file, then 20 with the ties."""
    marks, link, ties = (files.content(path) for path in (marks, link, ties))
    order = graph.order_of_files(marks, ties, link=link)
    progress.at("adding the ties")
    edges, net = relabel(order, files.numbers(ties)), Net(len(order))
    net.read(link)
    write_moved(out, net, net.add(edges))


def join(progress, one, other, out):
    """1, 6, 21, 7 and 20 of either file, then 20 of both together."""
    data = [files.content(path) for path in (one, other)]
    nets = [Net(len(its) // files.LINK) for its in data]
    for its in data:
        files.whole(its, files.LINK)
    nets[0].join(nets[1])
    read_both(nets, data)
    progress.at("joining")
    write_moved(out, nets[0], nets[0].join(nets[1]))


def write_moved(out, net, moved):
    """Writes the link file of a net, then prints where its forest moved."""
    files.replace(out, net.save())
    print("none moved" if moved is None else f"moved {moved}")


def read_both(nets, data):
    """7 of either comes before 20 of the other."""
    refused = []
    for net, its in zip(nets, data):
        try:
            net.read(its)
        except Refused as refusal:
            refused.append(refusal)
    if refused:
        raise min(refused, key=lambda refusal: refusal.number)

"""What lies between two marks, from files."""

from . import graph


def between(progress, marks, ties, asked):
    """Prints a line: the marks above both that are asked for, lowest rank first, or `none`. A run counts as one call, and 31 comes last."""
    its = graph.read(progress, marks, ties, asked)
    ranks = graph.ranks_of(asked, its.order)
    progress.at("comparing the ties")
    separator = its.net.separate(*(ranks[mark] for mark in asked), its.edges)
    print(*([its.order[rank] for rank in separator.vertices] or ["none"]))

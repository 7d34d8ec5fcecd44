"""The busy marks of a divided net, from files."""

from . import Index, graph


def busy(progress, marks, ties, want):
    """Prints a line for each mark that meets all blocks, by rising rank: the mark, how many ties it has, and how many of them were taken
    until all blocks were met."""
    its, _, report = graph.read_divided(progress, marks, ties, want)
    progress.at("counting the ties")
    starts, blocks = Index(len(its.order), its.edges).starts, len(report.division.block_loads)
    for rank, count in enumerate(report.block_count):
        if count == blocks:
            print(its.order[rank], starts[rank + 1] - starts[rank], report.edges_taken[rank])

"""The neighbours of marks, from files."""

from . import Index, files, graph, relabel


def neighbours(progress, marks, ties, asked):
    """Prints a line for each mark that is asked for: the mark, then its neighbours in the order of the ties. A run counts as one call:
    1, 6, 3, 4 of a mark that is asked for, then 4, 5 or 32 of a tie, 20. Each is the library's own answer but 6."""
    marks, ties = files.content(marks), files.content(ties)
    order = graph.order_of_files(marks, ties)
    graph.check_asked(order, asked)
    progress.at("indexing the ties")
    index = Index(len(order), relabel(order, files.numbers(ties)))
    ranks = graph.ranks_of(set(asked), order)
    for mark in asked:
        print(mark, *(order[rank] for rank in index.neighbours(ranks[mark])))

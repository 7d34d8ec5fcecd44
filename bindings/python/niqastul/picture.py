"""The picture of a divided net, at the places of its vertices or, without places, as its elimination forest."""

from . import files, forest, graph, legend, places, svg

WIDTH = 250    # of the legend


def picture(progress, marks, ties, want, placed, out):
    its, limit, report = graph.read_divided(progress, marks, ties, want)
    progress.at("drawing")
    if placed is None:
        title, drawing = "The elimination forest of a divided net", forest.drawn(its.net.parents, report)
    else:
        title, drawing = "A divided net", places.drawn(its, report, places.read(placed, len(its.order)))
    height, drawn, samples, notes = drawing
    loads = list(report.division.block_loads)
    figures = [f"{len(its.order):,} marks, {len(report.edge_blocks):,} ties", f"limit {limit:,}, {len(loads):,} block{'s' * (len(loads) > 1)}",
               f"bound {report.bound:,}", f"volume {report.volume:,}",
               f"share {report.share.quotient:,}, remainder {report.share.remainder:,}"]
    files.replace(out, beside_legend(title, height, drawn, legend.Legend(figures, loads, samples, notes)).encode())


def beside_legend(title, height, drawn, its):
    """The whole picture: what is drawn, so many units high, and its legend to the right."""
    explained, least = legend.drawn(its, svg.PLOT + 2 * svg.EDGE, svg.EDGE)
    size = svg.PLOT + WIDTH + 3 * svg.EDGE, round(max(height + svg.EDGE, least)) + svg.EDGE
    background = [svg.element("title", title), svg.element("rect", width=size[0], height=size[1], fill="white")]
    return svg.document(*size, background + drawn + explained)

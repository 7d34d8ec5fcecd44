"""The command line: python3 -m niqastul -h. Arguments are read and handed on here; what a command does stands in its module."""

import argparse
import functools
import sys

from . import Refused, between, busy, files, links, neighbours, picture, split, together
from .progress import Progress

ABOUT = """Nets as files: grown, added to, joined, split into blocks, laid together again, drawn, and asked for neighbours, busy marks and
what lies between two marks."""

FORMATS = """files, little-endian 32-bit numbers without a header:
  marks.ord   the order: mark numbers, the first to be eliminated first
  ties.rec    ties, three numbers each: two mark numbers, and the rows that the tie gives the adjustment, 1 to 6
  want.rec    the limit of a group's load, 1 to 96,000,000, and the number of blocks, 1 to 1,000
  net.link    a link file: for each rank its parent, FFFFFFFF for none, and its load, the rows of its ties to higher ranks
exit status:
  0   done; for together: the blocks are the net
  1   refused, with the number and its meaning; for together: the blocks are not the net, or not as they were split
  2   bad usage, or a file that cannot be read or written
What is refused or fails changes no file; a file or folder that is there is replaced only when the new one is whole."""

GROW = "grow the net of ties and write its link file"

MOVED = """Prints `moved R`, where R is the lowest rank whose parent is another than in {}: a reader of that file rereads the
parents from there on. Or `none moved`; a load alone that rises moves nothing. out.link may be that file."""

ADD = """add ties to a net and write the link file of all its ties
""" + MOVED.format("net.link")

JOIN = """join two nets and write the link file of the ties of both
""" + MOVED.format("a.link")

SPLIT = """divide a net and write its blocks as files
DIR is made, or is empty, or holds an earlier split, which is replaced whole. In it are
  block-NNN.rec      the ties of a block with their rows, in the order of ties.rec
  block-NNN.border   a line for each mark with ties in this block and in others: the mark, then those other blocks
  summary.txt        marks, ties, limit, bound, volume, share (the total of the loads divided by the number of blocks: the
                     whole quotient and the remainder), and of each block: load (the rows of its ties), ties, marks (with
                     a tie in it), own (marks whose group is in it), border (marks with ties in other blocks too)
  summary.json       the same, and a digest of each block's ties and their rows"""

TOGETHER = """say whether the blocks, laid together, are the net
Grows each block's file by itself, joins the nets, and compares the result with net.link, byte for byte. What leaves the net
as it is, such as a tie that was moved from one block's file to another's, is told by the loads and digests in the summary."""

PICTURE = """draw a divided net as SVG
With places.txt, two numbers a line by mark number, x to the right and y up: the ties at their places, coloured by block.
Without it: the elimination forest, its groups coloured by block. Border marks, those with ties in several blocks, are ringed.
Of a net above some thousand marks a part is drawn, and the picture says so."""

NEIGHBOURS = """print the neighbours of marks
A line for each MARK, a mark number: the mark, then the other mark of each of its ties, in the order of ties.rec, repeats included."""

BUSY = """print the marks that meet every block
A line for each mark with ties in all blocks, by rising rank: the mark, how many ties it has, and how many of them, in the order of
ties.rec, it takes to meet all blocks."""

BETWEEN = """print the marks at which the ground can be closed off between two marks
One line: the marks above both MARKs, lowest rank first. Every chain of ties from one MARK to the other passes one of them. If there are
none, `none`: no chain of ties joins the two. Refused with 31 if the MARKs are one, or one is above the other."""

# `[name]` may be left out; of `name..` there are one or more, of `name:2` two, and they are vertices
COMMANDS = (
    (links.grow, "marks.ord ties.rec net.link", GROW),
    (links.add, "marks.ord net.link ties.rec out.link", ADD),
    (links.join, "a.link b.link out.link", JOIN),
    (split.split, "marks.ord ties.rec want.rec DIR", SPLIT),
    (together.together, "marks.ord DIR net.link", TOGETHER),
    (picture.picture, "marks.ord ties.rec want.rec [places.txt] out.svg", PICTURE),
    (neighbours.neighbours, "marks.ord ties.rec MARK..", NEIGHBOURS),
    (busy.busy, "marks.ord ties.rec want.rec", BUSY),
    (between.between, "marks.ord ties.rec MARK:2", BETWEEN),
)

VERTICES = {"..": "+", ":2": 2}


@functools.cache
def parser():
    form = {"epilog": FORMATS, "formatter_class": argparse.RawDescriptionHelpFormatter}
    its = argparse.ArgumentParser("python3 -m niqastul", description=ABOUT, **form)
    commands = its.add_subparsers(metavar="COMMAND", required=True)
    for run, names, about in COMMANDS:
        command = commands.add_parser(run.__name__, help=about.split("\n")[0], description=about, **form)
        command.set_defaults(run=run, names=[add_argument(command, name) for name in names.split()])
    return its


def add_argument(command, name):
    """Answers the name under which the argument is found."""
    if name[-2:] in VERTICES:
        return command.add_argument(name[:-2], nargs=VERTICES[name[-2:]], type=vertex).dest
    return command.add_argument(name.strip("[]"), nargs="?" if name.startswith("[") else None).dest


def vertex(word):
    if not (word.isascii() and word.isdigit()):
        raise argparse.ArgumentTypeError(f"{word} is not a mark number")
    return int(word)


def main(argv=None):
    arguments = vars(parser().parse_args(argv))
    run, words = arguments["run"], [arguments[name] for name in arguments["names"]]
    try:
        return 1 if run(Progress(), *words) is False else 0
    except Refused as refusal:
        print(refusal, file=sys.stderr)
        return 1
    except (OSError, files.Unusable) as error:
        text = f"{error.filename}: {error.strerror}" if isinstance(error, OSError) and error.filename else error
        print(f"niqastul: {text}", file=sys.stderr)
        return 2


if __name__ == "__main__":
    sys.exit(main())

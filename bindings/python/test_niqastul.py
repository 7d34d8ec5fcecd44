"""The Python binding: document 01's nets on paper, its tables as lists and arrays, its refusals; and with them the
tests of what is lent and of what is loaded. Run by tests/run."""

import unittest
from array import array

from niqastul import ABSENT, MAX_LIMIT, MAX_TOTAL, STRIDE, Index, Net, Refused, Separator, Share, relabel
from test_buffers import Buffers  # to be run with these
from test_loading import Loading  # likewise


def whole_case():
    """The edges of document 01's whole case, one row each."""
    return relabel([3, 0, 1, 2, 4, 5], [3, 1, 1, 3, 4, 1, 0, 2, 1, 0, 4, 1, 1, 5, 1, 1, 3, 1])


def net(vertices, edges):
    its = Net(vertices)
    its.add(edges)
    return its


class Calls(unittest.TestCase):
    def refused(self, number, call, *arguments):
        with self.assertRaises(Refused) as caught:
            call(*arguments)
        self.assertEqual(caught.exception.number, number)

    def test_nets_on_paper(self):
        for vertices, edges, parents in (
            (1, [], [ABSENT]),
            (3, [0, 1, 1, 1, 2, 1], [1, 2, ABSENT]),
            (4, [0, 1, 1, 0, 2, 1, 0, 3, 1], [1, 2, 3, ABSENT]),
            (4, [0, 3, 1, 1, 3, 1, 2, 3, 1], [3, 3, 3, ABSENT]),
            (3, [0, 2, 1], [2, ABSENT, ABSENT]),
        ):
            self.assertEqual(list(net(vertices, edges).parents), parents)

    def test_weights(self):
        self.assertEqual(list(net(3, [0, 1, 1, 1, 0, 1]).weights), [2, 0, 0])

    def test_rows(self):
        """Each repeat has rows of its own. Weights, loads and share are of rows; what is counted are edges."""
        self.assertEqual(list(net(3, [0, 1, 6, 1, 0, 1, 2, 1, 3]).weights), [7, 3, 0])
        edges = [0, 2, 5, 1, 2, 1, 0, 2, 6, 1, 2, 2]
        its = net(3, edges)
        report = its.report(11, 2, edges)
        self.assertEqual([list(part) for part in report.division], [[11, 3, 3], [0, 2, 2], [0, 1, 1], [11, 3]])
        self.assertEqual([list(part) for part in report[1:5]], [[0, 1, 0, 1], [1, 1, 0], [1, 1, 2], [2, 2, 2]])
        self.assertEqual((report.bound, report.volume, report.share), (1, 1, Share(7, 0, 2)))
        self.refused(23, its.report, 11, 2, edges[:-1] + [3])
        self.refused(22, its.report, 10, 2, edges)

    def test_bad_rows(self):
        its = net(3, [0, 1, 1])
        for rows in (0, 7, 2 ** 32 - 1):
            edges = [0, 1, 1, 1, 2, rows]
            self.refused(32, its.add, edges)
            self.refused(32, its.report, 1, 1, edges)
            self.refused(32, its.separate, 0, 2, edges)
            self.refused(32, relabel, [2, 1, 0], edges)
            self.refused(32, Index, 3, edges)
            self.refused(32, Index, 3, [0, 1, 1], edges)
        for number, edges in ((32, [0, 1, 7, 0, 3, 1]), (4, [0, 3, 1, 0, 1, 7]), (5, [1, 1, 7]), (4, [3, 3, 7])):
            self.refused(number, its.add, edges)
        self.assertEqual((list(its.parents), list(its.weights)), ([1, ABSENT, ABSENT], [1, 0, 0]))
        self.assertEqual(str(Refused(32)), "refused 32: the rows of an edge are not 1 to 6")

    def test_array_and_list(self):
        self.assertEqual(net(3, array("I", [0, 1, 1])).parents, net(3, [0, 1, 1]).parents)
        self.assertEqual(net(3, (0, 1, 1)).parents, net(3, [0, 1, 1]).parents)

    def test_join(self):
        first, second = net(3, [0, 2, 1]), net(3, [0, 1, 5])
        first.join(second)
        self.assertEqual((list(first.parents), list(first.weights)), ([1, 2, ABSENT], [6, 0, 0]))
        self.assertEqual((list(second.parents), list(second.weights)), ([1, ABSENT, ABSENT], [5, 0, 0]))

    def test_join_with_itself(self):
        its = net(3, [0, 2, 3])
        its.join(its)
        self.assertEqual((list(its.parents), list(its.weights)), ([2, ABSENT, ABSENT], [6, 0, 0]))

    def test_where_the_forest_moved(self):
        its = Net(5)
        self.assertIsNone(its.add([]))
        self.assertEqual(its.add([2, 3, 1]), 2)
        self.assertIsNone(its.add([3, 2, 4]))
        self.assertEqual(list(its.weights), [0, 0, 5, 0, 0])
        self.assertEqual(its.add([4, 2, 1]), 3)
        self.assertEqual(its.add([2, 4, 1, 0, 4, 1, 0, 2, 1]), 0)
        self.assertEqual(its.join(net(5, [1, 3, 1, 2, 4, 1])), 1)
        self.assertIsNone(its.join(its))
        self.assertEqual(net(5, [3, 4, 1]).join(its), 0)
        self.refused(5, its.add, [0, 1, 1, 2, 2, 1])
        self.assertEqual(its.add([0, 1, 1]), 0)

    def test_save_and_read(self):
        its, other = net(3, [0, 2, 3]), Net(3)
        saved = its.save()
        self.assertEqual(saved, bytes.fromhex("0200000003000000" + "ffffffff00000000" * 2))
        other.read(saved)
        self.assertEqual((other.parents, other.weights), (its.parents, its.weights))
        self.refused(6, other.read, saved[:-1])
        self.refused(6, Net(4).read, saved)
        self.refused(7, other.read, bytes(24))
        self.assertEqual((other.parents, other.weights), (its.parents, its.weights))

    def test_relabel(self):
        """Rows that would be vertices are rows all the same."""
        self.assertEqual(list(relabel([3, 0, 1, 2], [3, 1, 3, 0, 2, 1])), [0, 2, 3, 1, 3, 1])

    def test_divide(self):
        """Document 01's whole case."""
        its = net(6, whole_case())
        division = its.divide(4, 2)
        self.assertEqual([list(part) for part in division], [[3, 2, 4, 2, 2, 2], [2, 5, 2, 5, 5, 5], [0, 1, 0, 1, 1, 1], [4, 2]])
        self.assertEqual(list(its.divide(3, 1).top), [0, 5, 5, 5, 5, 5])
        self.assertEqual(len(its.divide(4, 1000).block_loads), 1000)
        self.refused(22, its.divide, 2, 2)
        self.assertEqual(list(its.divide(MAX_LIMIT, 2).block_loads), [6, 0])
        for limit in (-1, 0, MAX_LIMIT + 1, 2 ** 32 + 4):
            self.refused(8, its.divide, limit, 2)
        for blocks in (-1, 0, 1001, 2 ** 32 + 2):
            self.refused(8, its.divide, 4, blocks)
        its.parents[0] = 0
        self.refused(30, its.divide, 4, 2)
        its.weights.pop()
        self.refused(2, its.divide, 4, 2)

    def test_report(self):
        """Document 01's whole case."""
        edges = whole_case()
        its = net(6, edges)
        report = its.report(4, 2, edges)
        self.assertEqual(report.division, its.divide(4, 2))
        tables = [[0, 0, 1, 1, 0, 0], [2, 2, 2, 1, 1, 0], [1, 1, 1, 1, 2, 1], [3, 2, 3, 1, 2, 1]]
        self.assertEqual([list(part) for part in report[1:5]], tables)
        self.assertEqual((report.bound, report.volume, report.share.quotient, report.share.remainder), (2, 1, 3, 0))
        self.assertEqual(its.report(4, 1, list(edges)).volume, 0)
        for number, arguments in ((2, (4, 2, edges[1:])), (2, (4, 2, edges[2:])), (8, (0, 2, edges)), (8, (4, 2 ** 32 + 2, edges)),
                                  (4, (4, 2, [0, 6, 1])), (5, (4, 2, [0, 0, 1])), (22, (2, 2, edges)), (23, (4, 2, edges[3:]))):
            self.refused(number, its.report, *arguments)

    def test_edges_taken(self):
        """Vertex 2 has edges of both blocks, and which of them come first is told by the list."""
        edges = whole_case()
        its = net(6, edges)
        report = its.report(3, 2, edges)
        self.assertEqual((list(report.block_count), list(report.edges_taken)), ([1, 1, 2, 1, 2, 1], [3, 2, 2, 1, 2, 1]))
        moved = edges[:12] + edges[15:] + edges[12:15]
        report = its.report(3, 2, moved)
        self.assertEqual((list(report.block_count), list(report.edges_taken)), ([1, 1, 2, 1, 2, 1], [3, 2, 3, 1, 2, 1]))
        self.assertEqual(list(its.report(3, 1, edges).edges_taken), [1] * 6)
        self.assertEqual(list(Net(2).report(1, 1, []).edges_taken), [0, 0])

    def test_even_share(self):
        """The check sum is the total, be it divided by the number of blocks, with a remainder or not, or below it."""
        edges = whole_case()
        its = net(6, edges)
        for blocks, quotient, remainder in ((1, 6, 0), (2, 3, 0), (4, 1, 2), (5, 1, 1), (6, 1, 0), (7, 0, 6), (1000, 0, 6)):
            share = its.report(4, blocks, edges).share
            self.assertEqual(share, Share(quotient, remainder, blocks))
            self.assertEqual(share.check_sum(), sum(its.weights))
        self.assertEqual(Net(2).report(1, 3, []).share, Share(0, 0, 3))

    def test_separate(self):
        """Document 01's whole case, and a vertex without edges."""
        edges = whole_case()
        its = net(7, edges)
        for one, other, vertices in ((0, 1, [4, 5]), (2, 3, [4, 5]), (3, 0, [4, 5]), (6, 1, []), (5, 6, [])):
            separator = its.separate(one, other, edges)
            self.assertEqual((list(separator.vertices), separator.lowest), (vertices, vertices[0] if vertices else None))
        self.assertEqual(its.separate(0, 1, list(edges)), Separator(array("I", [4, 5]), 4))
        self.assertEqual(Net(2).separate(1, 0, []), Separator(array("I"), None))

    def test_separate_refusals(self):
        edges = whole_case()
        its = net(7, edges)
        for one, other in ((0, 0), (6, 6), (0, 2), (2, 0), (5, 1)):
            self.refused(31, its.separate, one, other, edges)
            self.refused(23, its.separate, one, other, edges[STRIDE:])
        for rank in (-1, 7, 2 ** 32 - 1, 2 ** 32, 2 ** 64 + 1):
            self.refused(4, its.separate, rank, 0, [1, 1, 1])
            self.refused(4, its.separate, 0, rank, [1, 1, 1])
        self.refused(5, its.separate, 0, 0, [1, 1, 1, 0, 7, 1])
        self.refused(4, its.separate, 0, 0, [0, 7, 1, 1, 1, 1])
        self.refused(2, its.separate, 7, 7, edges[1:])
        its.parents[6] = 0
        self.refused(30, its.separate, 7, 0, edges)
        self.assertEqual(str(Refused(31)), "refused 31: the two ranks are equal, or one stands above the other")

    def test_index(self):
        edges = whole_case()
        index = Index(6, edges)
        self.assertEqual([list(index.neighbours(rank)) for rank in range(6)], [[2, 4, 2], [3, 4], [0, 5, 0], [1], [0, 1], [2]])
        self.assertEqual((list(index.starts), list(index.runs)), ([0, 3, 5, 8, 9, 11, 12], [2, 4, 2, 3, 4, 0, 5, 0, 1, 0, 1, 2]))
        for place in range(0, len(edges) + 1, STRIDE):
            parts = Index(6, list(edges[:place]), edges[place:])
            self.assertEqual((parts.starts, parts.runs), (index.starts, index.runs))
        self.assertEqual(list(Index(1, []).neighbours(0)), [])

    def test_index_is_not_copied(self):
        index = Index(3, [0, 1, 1, 1, 2, 6])
        run = index.neighbours(1)
        index.runs[1] = 2
        self.assertEqual(list(run), [2, 2])
        with self.assertRaises(TypeError):
            run[0] = 0

    def test_index_refusals(self):
        for vertices in (-1, 0, 1_000_001, 2 ** 64):
            self.refused(1, Index, vertices, [])
        self.refused(2, Index, 3, [0], [1, 1])
        self.refused(2, Index, 3, [0, 1], [1])
        self.refused(4, Index, 3, [0, 1, 1], [3, 3, 1])
        self.refused(5, Index, 3, [1, 1, 1], [0, 3, 1])
        index = Index(3, [0, 1, 1])
        for rank in (-1, 3, 2 ** 32 - 1, 2 ** 32, 2 ** 64 + 1):
            self.refused(4, index.neighbours, rank)
        index.starts[1] = 3
        self.refused(30, index.neighbours, 3)
        del index.starts[1:]
        self.refused(1, index.neighbours, 0)
        index.starts.pop()
        self.refused(2, index.neighbours, 0)

    def test_refusals(self):
        its = net(3, [0, 1, 1])
        self.refused(1, Net, 0)
        self.refused(1, Net, 1_000_001)
        for edges in ([0], [0, 1], [0, 1, 1, 0], [0, 1, 1, 0, 2]):
            self.refused(2, its.add, edges)
        self.refused(4, its.add, [0, 3, 1])
        self.refused(5, its.add, [2, 2, 1, 0, 3, 1])
        self.refused(21, its.join, Net(4))
        self.refused(3, relabel, [0, 0], [0, 1, 1])
        self.assertEqual((list(its.parents), list(its.weights)), ([1, ABSENT, ABSENT], [1, 0, 0]))
        its.parents[2] = 0
        self.refused(30, its.add, [0, 1, 1])
        its.parents[2], its.weights[0] = ABSENT, MAX_TOTAL - 5
        self.refused(20, its.add, [0, 1, 6])
        its.add([0, 1, 5])
        self.assertEqual(list(its.weights), [MAX_TOTAL, 0, 0])
        its.weights.append(0)
        self.refused(2, its.add, [0, 1, 1])

    def test_reason(self):
        self.assertEqual(str(Refused(5)), "refused 5: both ends of an edge are one vertex")


if __name__ == "__main__":
    unittest.main()

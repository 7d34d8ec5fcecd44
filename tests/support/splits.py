"""Nets drawn by lot, with what document 01 says of their blocks."""

import collections
import random

from oracle import calls
from oracle.forest import net_of, pairs_of, ties_of
from support import nets
from support.files import file_of


class Case:
    """A net drawn by lot, and what document 01 says of its blocks: ties in mark numbers."""

    def __init__(self, seed):
        rng = random.Random(seed)
        self.n = n = rng.randrange(1, 30)
        self.order, self.ties = rng.sample(range(n), n), nets.ties(rng, n, rng.choice(nets.SHAPES))
        flat = nets.flat(self.ties)
        ranks = ties_of(calls.translate(self.order, flat, flat)[1])
        parents, loads = net_of(n, ranks)
        self.limit, self.k = max(loads) + rng.randrange(1, 9), rng.randrange(1, 7)
        _, tops, self.own, self.loads = calls.division(parents, loads, self.limit, self.k)
        self.tie_blocks = calls.tie_blocks_of(ranks, self.own)
        self.bound = calls.bound_of(parents, ranks, tops)
        self.volume = calls.volume_of(calls.block_counts_of(n, ranks, self.tie_blocks))
        self.share = calls.share_of(loads, self.k)

    def files(self):
        lists = self.order, nets.flat(self.ties), (self.limit, self.k)
        return dict(zip(("marks_ord", "ties_rec", "want_rec"), (file_of(*numbers) for numbers in lists)))

    def of_block(self, block):
        return [tie for tie, its in zip(self.ties, self.tie_blocks) if its == block]

    def border(self, block):
        """Each mark with ties in the block and in others, with those others."""
        met = collections.defaultdict(set)
        for pair, its in zip(pairs_of(self.ties), self.tie_blocks):
            for mark in pair:
                met[mark].add(its)
        shared = {mark: blocks for mark, blocks in sorted(met.items()) if block in blocks and len(blocks) > 1}
        return {mark: sorted(blocks - {block}) for mark, blocks in shared.items()}

    def rows(self):
        """The figures of each block."""
        marks = [len(set(nets.flat(pairs_of(self.of_block(block))))) for block in range(self.k)]
        return [{"block": block, "load": self.loads[block], "ties": len(self.of_block(block)), "marks": marks[block],
                 "own": self.own.count(block), "border": len(self.border(block))} for block in range(self.k)]

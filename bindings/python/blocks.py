"""From an order and an edge file to blocks: python3 blocks.py marks.ord ties.rec want.rec
The files hold little-endian 32-bit numbers: vertices; two vertices and the rows of each edge; the limit and the number of blocks. A line
for each rank: rank, vertex, parent, weight, reach, top, block, block count; then bound, volume and even share (quotient, remainder)."""

import sys
from array import array

import niqastul

order, edges, (limit, blocks) = (array("I", open(path, "rb").read()) for path in sys.argv[1:])
edges = niqastul.relabel(order, edges)
net = niqastul.Net(len(order))
net.add(edges)
its = net.report(limit, blocks, edges)
for rank, row in enumerate(zip(order, net.parents, net.weights, its.reach, its.division.top, its.division.block, its.block_count)):
    print(rank, *("-" if number == niqastul.ABSENT else number for number in row))
print("bound", its.bound, "volume", its.volume, "share", its.share.quotient, its.share.remainder)

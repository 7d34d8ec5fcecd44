"""Document 01, The calls and Refused; document 02, Papers 2 to 4 and 6. Each call takes its tables as lists and answers
a tuple: the number (0 if accepted), then the tables that it was lent to write, as they are afterwards, then its other
answers, None if refused. No list that is given is changed."""

from .forest import ABSENT, links, loads_of, net_of, pairs_of, parents_of, reaches, tie_count, ties_of

MAX_MARKS = 1_000_000
MAX_TOTAL = 96_000_000
MAX_TIES = 16_000_000
MAX_LIMIT = 96_000_000
MAX_BLOCKS = 1_000
MAX_ROWS = 6

# "Order where several apply to a call"; 4, 5 and 32 share a place. Document 02 puts 32 after 5, and 31 after 23.
ORDER = [1, 2, 6, 3, 8, 21, 30, 4, 5, 32, 7, 20, 22, 23, 31]


def bad_count(n):
    return n == 0 or n > MAX_MARKS


def breaks_rule_of_7(parents):
    """Some parent is neither absent nor in rank+1 to n-1."""
    n = len(parents)
    return any(p != ABSENT and not rank + 1 <= p <= n - 1 for rank, p in enumerate(parents))


def damaged(parents, loads):
    return breaks_rule_of_7(parents) or sum(loads) > MAX_TOTAL


def not_whole(flat):
    """The length is not a multiple of three."""
    return len(flat) % 3 != 0


def fault(n, flat):
    """4, 5 or 32 at the first faulty tie, 4 before 5 before 32; 0 if none is faulty."""
    for a, b, rows in ties_of(flat):
        if a >= n or b >= n:
            return 4
        if a == b:
            return 5
        if not 1 <= rows <= MAX_ROWS:
            return 32
    return 0


def list_refusal(n, flat):
    """Of a list given as a net's own: 4, 5 or 32 at the first faulty tie, then 20."""
    return fault(n, flat) or (20 if tie_count(flat) > MAX_TIES else 0)


def other_net(parents, loads, flat):
    """The ties have other parents or loads than the net."""
    return net_of(len(parents), ties_of(flat)) != (parents, loads)


def bad_order(order):
    return any(mark >= len(order) for mark in order) or len(set(order)) != len(order)


def bad_limits(limit, k):
    return not 1 <= limit <= MAX_LIMIT or not 1 <= k <= MAX_BLOCKS


# Translate

def translate_refusal(order, flat, target):
    if bad_count(len(order)):
        return 1
    if not_whole(flat) or len(target) != len(flat):
        return 2
    if bad_order(order):
        return 3
    return fault(len(order), flat)


def translate(order, flat, target):
    number = translate_refusal(order, flat, target)
    if number:
        return number, target
    rank = {mark: place for place, mark in enumerate(order)}
    return 0, [entry for a, b, rows in ties_of(flat) for entry in (rank[a], rank[b], rows)]


# Start

def start_refusal(parents, loads):
    if bad_count(len(parents)):
        return 1
    if len(loads) != len(parents):
        return 2
    return 0


def start(parents, loads):
    number = start_refusal(parents, loads)
    if number:
        return number, parents, loads
    return 0, [ABSENT] * len(parents), [0] * len(parents)


# Where the forest moved

def moved(before, after):
    """Document 02, Paper 2, of a net's parents before and after: the lowest rank whose parent is now another, or
    absent, which stands for "none moved", if all are as before. A load alone that rises moves nothing."""
    return min((rank for rank in range(len(before)) if after[rank] != before[rank]), default=ABSENT)


# Add

def rows_of(ties):
    """All rows that ties have together."""
    return sum(rows for _, _, rows in ties)


def add_refusal(parents, loads, flat):
    n = len(parents)
    if bad_count(n):
        return 1
    if len(loads) != n or not_whole(flat):
        return 2
    if damaged(parents, loads):
        return 30
    if fault(n, flat):
        return fault(n, flat)
    if tie_count(flat) > MAX_TIES or sum(loads) + rows_of(ties_of(flat)) > MAX_TOTAL:
        return 20
    return 0


def add(parents, loads, flat):
    number = add_refusal(parents, loads, flat)
    if number:
        return number, parents, loads, None
    n, ties = len(parents), ties_of(flat)
    after = parents_of(n, links(parents) + pairs_of(ties))
    return 0, after, [a + b for a, b in zip(loads, loads_of(n, ties))], moved(parents, after)


# Join

def join_refusal(parents, loads, parents2, loads2):
    if bad_count(len(parents)) or bad_count(len(parents2)):
        return 1
    if len(loads) != len(parents) or len(loads2) != len(parents2):
        return 2
    if len(parents) != len(parents2):
        return 21
    if damaged(parents, loads) or damaged(parents2, loads2):
        return 30
    if sum(loads) + sum(loads2) > MAX_TOTAL:
        return 20
    return 0


def join(parents, loads, parents2, loads2):
    number = join_refusal(parents, loads, parents2, loads2)
    if number:
        return number, parents, loads, None
    after = parents_of(len(parents), links(parents) + links(parents2))
    return 0, after, [a + b for a, b in zip(loads, loads2)], moved(parents, after)


# Files

def word(number):
    """A little-endian 32-bit number."""
    return [number % 256, number // 256 % 256, number // 65536 % 256, number // 16777216]


def words(data):
    """The 32-bit numbers of bytes, whole ones only."""
    whole = range(0, len(data) - 3, 4)
    return [data[i] + 256 * data[i + 1] + 65536 * data[i + 2] + 16777216 * data[i + 3] for i in whole]


def link_file(parents, loads):
    """Record r is the parent and load of rank r."""
    return [byte for p, load in zip(parents, loads) for byte in word(p) + word(load)]


def save_refusal(parents, loads, data):
    n = len(parents)
    if bad_count(n):
        return 1
    if len(loads) != n or len(data) != 8 * n:
        return 2
    if damaged(parents, loads):
        return 30
    return 0


def save(parents, loads, data):
    number = save_refusal(parents, loads, data)
    return (number, data) if number else (0, link_file(parents, loads))


def read_refusal(parents, loads, data):
    n = len(parents)
    if bad_count(n):
        return 1
    if len(loads) != n:
        return 2
    if len(data) != 8 * n:
        return 6
    numbers = words(data)
    if breaks_rule_of_7(numbers[0::2]):
        return 7
    if sum(numbers[1::2]) > MAX_TOTAL:
        return 20
    return 0


def read(parents, loads, data):
    number = read_refusal(parents, loads, data)
    if number:
        return number, parents, loads
    return 0, words(data)[0::2], words(data)[1::2]


# Divide

def cutting(parents, loads, limit):
    """The carried load of each rank, and the cut marks. Go up the ranks. The carried load of x is its load plus that of
    its uncut children; while it exceeds B, cut the child with the most carried load, of equals the lowest rank."""
    children = [[] for _ in parents]
    carried, cut = [], set()
    for x, parent in enumerate(parents):
        uncut = children[x]
        weight = loads[x] + sum(carried[child] for child in uncut)
        while weight > limit:
            heaviest = max(uncut, key=lambda child: (carried[child], -child))
            uncut.remove(heaviest)
            cut.add(heaviest)
            weight -= carried[heaviest]
        carried.append(weight)
        if parent != ABSENT:
            children[parent].append(x)
    return carried, cut


def tops_of(parents, cut):
    """A group is what remains connected; its top is its highest rank."""
    tops = []
    for x in range(len(parents)):
        while parents[x] != ABSENT and x not in cut:
            x = parents[x]
        tops.append(x)
    return tops


def packing(tops, carried, k):
    """Groups go by rising top into the block with the least load so far, of equals the lowest number."""
    block_loads, block_of_top = [0] * k, {}
    for top in sorted(set(tops)):
        least = min(range(k), key=lambda b: (block_loads[b], b))
        block_of_top[top] = least
        block_loads[least] += carried[top]
    return [block_of_top[top] for top in tops], block_loads


def division(parents, loads, limit, k):
    """What an accepted Divide writes: carried load, top and block of each rank, and the load of each block."""
    carried, cut = cutting(parents, loads, limit)
    tops = tops_of(parents, cut)
    blocks, block_loads = packing(tops, carried, k)
    return carried, tops, blocks, block_loads


def divide_refusal(parents, loads, limit, k, carried, tops, blocks, block_loads):
    n = len(parents)
    if bad_count(n):
        return 1
    if any(len(table) != n for table in (loads, carried, tops, blocks)) or len(block_loads) != k:
        return 2
    if bad_limits(limit, k):
        return 8
    if damaged(parents, loads):
        return 30
    if any(load > limit for load in loads):
        return 22
    return 0


def divide(parents, loads, limit, k, carried, tops, blocks, block_loads):
    number = divide_refusal(parents, loads, limit, k, carried, tops, blocks, block_loads)
    if number:
        return number, carried, tops, blocks, block_loads
    return (0, *division(parents, loads, limit, k))


# Report

def tie_blocks_of(ties, blocks):
    """A tie belongs to the block of its lower end."""
    return [blocks[min(a, b)] for a, b, _ in ties]


def block_counts_of(n, ties, tie_blocks):
    """Different blocks among the ties of each rank."""
    met = [set() for _ in range(n)]
    for (a, b, _), block in zip(ties, tie_blocks):
        met[a].add(block)
        met[b].add(block)
    return [len(blocks) for blocks in met]


def ties_taken_of(n, ties, tie_blocks, k):
    """Document 02, Paper 3: for each rank, how many of its ties, in list order, the count took, up to and with the
    first that completes the k, or all if none does. These are ties, whatever their rows."""
    blocks_of = [[] for _ in range(n)]
    for (a, b, _), block in zip(ties, tie_blocks):
        blocks_of[a].append(block)
        blocks_of[b].append(block)
    return [taken(blocks, k) for blocks in blocks_of]


def taken(blocks, k):
    """Of the blocks of a rank's ties."""
    met = set()
    for count, block in enumerate(blocks, 1):
        met.add(block)
        if len(met) == k:
            return count
    return len(blocks)


def bound_of(parents, ties, tops):
    """The sum of the reaches of cut marks: those that are their group's top and have a parent."""
    reach = reaches(parents, ties)
    return sum(reach[x] for x, p in enumerate(parents) if tops[x] == x and p != ABSENT)


def volume_of(block_counts):
    """The sum of (block count - 1) over marks with a tie."""
    return sum(count - 1 for count in block_counts if count > 0)


def share_of(loads, k):
    """Document 02, Paper 4: the even share, the total divided by k, with the whole quotient and the remainder. The
    total is dealt out, one to each of the k in a round, as long as there is one for each."""
    rounds, left = 0, sum(loads)
    while left >= k:
        rounds, left = rounds + 1, left - k
    return rounds, left


def report_refusal(parents, loads, limit, k, flat, tables):
    n = len(parents)
    carried, tops, blocks, block_loads, tie_blocks, reach, block_counts, ties_taken, parents2, loads2 = tables
    if bad_count(n):
        return 1
    of_n = (loads, carried, tops, blocks, reach, block_counts, ties_taken, parents2, loads2)
    if any(len(table) != n for table in of_n) or len(block_loads) != k:
        return 2
    if not_whole(flat) or len(tie_blocks) != tie_count(flat):
        return 2
    if bad_limits(limit, k):
        return 8
    if damaged(parents, loads):
        return 30
    if list_refusal(n, flat):
        return list_refusal(n, flat)
    if any(load > limit for load in loads):
        return 22
    return 23 if other_net(parents, loads, flat) else 0


def report(parents, loads, limit, k, flat, *tables):
    """The tables: carried load, top, block, block loads, tie blocks, reach, block count, ties taken, and the two
    comparison tables. Behind them bound, volume and the even share, its quotient and its remainder, are answered."""
    number = report_refusal(parents, loads, limit, k, flat, tables)
    n, ties = len(parents), ties_of(flat)
    if number == 23:
        return (23, *tables[:8], *net_of(n, ties), *[None] * 4)
    if number:
        return (number, *tables, *[None] * 4)
    carried, tops, blocks, block_loads = division(parents, loads, limit, k)
    tie_blocks = tie_blocks_of(ties, blocks)
    block_counts = block_counts_of(n, ties, tie_blocks)
    written = carried, tops, blocks, block_loads, tie_blocks, reaches(parents, ties), block_counts
    answers = bound_of(parents, ties, tops), volume_of(block_counts), *share_of(loads, k)
    return (0, *written, ties_taken_of(n, ties, tie_blocks, k), *net_of(n, ties), *answers)

/* Each function over structs beside the call to which it passes its tables on. The structs lie in one memory, which
 * holds numbers drawn from a seed; the call itself is lent tables at the same places of a copy, the twins. Both have to
 * give the same answer and the same cells, and to leave the same memory, all of it. Prints a line for each comparison:
 * the call, its answer, and `same`, or what is not. The source is C and C++ at once. */
#include <niqastul.h>
#include <stdio.h>
#include <string.h>

enum { ROUNDS = 4000, VERTICES = 6, EDGES = 6, ROWS = EDGES * NIQASTUL_MAX_ROWS, BLOCKS = 3 };
enum { ROOM = 1000, GAP = 4, GAPS = 9, MARK = 0x5A5A5A5A };

static uint64_t state = 1;
static uint32_t memory[ROOM], twins[ROOM], lists[2][NIQASTUL_STRIDE * (EDGES + 1)], order_list[VERTICES];
static uint8_t bytes[8 * VERTICES + 8], twin_bytes[sizeof bytes];
static size_t taken, gaps[GAPS], gap_count;

/* A number below the limit: Knuth's multiplier, the upper half of the state. */
static uint32_t draw(uint32_t limit)
{
    state = state * UINT64_C(6364136223846793005) + UINT64_C(1442695040888963407);
    return (uint32_t)((state >> 32) % limit);
}

static int rarely(void)
{
    return draw(20) == 0;
}

/* The next so many bytes of the memory. The gap behind them belongs to no struct. */
static uint32_t *take(size_t size)
{
    uint32_t *first = memory + taken;
    taken += size / sizeof *first;
    gaps[gap_count++] = taken;
    for (size_t i = 0; i < GAP; i++)
        memory[taken++] = MARK;
    return first;
}

static int unmarked(void)
{
    int found = 0;
    for (size_t gap = 0; gap < gap_count; gap++)
        for (size_t i = 0; i < GAP; i++)
            found |= memory[gaps[gap] + i] != MARK;
    return found;
}

static uint32_t *twin(uint32_t *table)
{
    return twins + (table - memory);
}

static void make_twins(void)
{
    memcpy(twins, memory, sizeof memory);
    memcpy(twin_bytes, bytes, sizeof bytes);
}

static const char *verdict(uint32_t got, uint32_t wanted, int same_cells)
{
    if (got != wanted)
        return "another answer";
    if (memcmp(memory, twins, sizeof memory) || memcmp(bytes, twin_bytes, sizeof bytes))
        return "other tables";
    return unmarked() ? "written behind tables" : same_cells ? "same" : "other cells";
}

static void compare(const char *call, uint32_t got, uint32_t wanted, int same_cells)
{
    printf("%s %u %s\n", call, got, verdict(got, wanted, same_cells));
}

/* How long the last work table is for the call itself: where the room is too short, so is this table. */
static size_t lower_in(struct niqastul_work work, size_t vertices, size_t lower)
{
    return lower - (work.length < 2 * vertices + lower);
}

static void check_relabel(struct niqastul_order order, struct niqastul_edges edges, struct niqastul_work work)
{
    size_t n = order.length, m = edges.length;
    uint32_t *out = take(m * sizeof *out);
    make_twins();
    uint32_t wanted = niqastul_relabel(order.list, n, edges.list, m, twin(out), m,
                                       twin(work.room), n - (work.length < n));
    compare("relabel", niqastul_order_relabel(order, edges, out, work), wanted, 1);
}

static void check_start(struct niqastul_net net)
{
    make_twins();
    uint32_t wanted = niqastul_start(twin(net.parents), net.vertices, twin(net.weights), net.vertices);
    compare("start", niqastul_net_start(net), wanted, 1);
}

static void check_add(struct niqastul_net net, struct niqastul_edges edges, struct niqastul_work work)
{
    size_t n = net.vertices, lower = niqastul_add_lower(n, edges.length);
    uint32_t moved = 7, twin_moved = 7;
    make_twins();
    uint32_t wanted = niqastul_add(twin(net.parents), n, twin(net.weights), n, edges.list, edges.length,
                                   twin(work.room), n, twin(work.room + n), n,
                                   twin(work.room + 2 * n), lower_in(work, n, lower), &twin_moved);
    uint32_t got = niqastul_net_add(net, edges, work, &moved);
    compare("add", got, wanted, moved == twin_moved);
}

static void check_join(struct niqastul_net net, struct niqastul_net other, struct niqastul_work work)
{
    size_t n = net.vertices, k = other.vertices, lower = niqastul_join_lower(n, k);
    uint32_t moved = 7, twin_moved = 7;
    make_twins();
    uint32_t wanted = niqastul_join(twin(net.parents), n, twin(net.weights), n,
                                    twin(other.parents), k, twin(other.weights), k,
                                    twin(work.room), n, twin(work.room + n), n,
                                    twin(work.room + 2 * n), lower_in(work, n, lower), &twin_moved);
    uint32_t got = niqastul_net_join(net, other, work, &moved);
    compare("join", got, wanted, moved == twin_moved);
}

static void check_save(struct niqastul_net net, size_t length)
{
    size_t n = net.vertices;
    make_twins();
    uint32_t wanted = niqastul_save(twin(net.parents), n, twin(net.weights), n, twin_bytes, length);
    compare("save", niqastul_net_save(net, bytes, length), wanted, 1);
}

static void check_read(struct niqastul_net net, size_t length)
{
    size_t n = net.vertices;
    make_twins();
    uint32_t wanted = niqastul_read(twin(net.parents), n, twin(net.weights), n, twin_bytes, length);
    compare("read", niqastul_net_read(net, bytes, length), wanted, 1);
}

static void check_divide(struct niqastul_net net, uint32_t limit, struct niqastul_division its)
{
    size_t n = net.vertices, k = its.vertices;
    make_twins();
    uint32_t wanted = niqastul_divide(twin(net.parents), n, twin(net.weights), n, limit, its.blocks,
                                      twin(its.carried), k, twin(its.top), k, twin(its.block), k,
                                      twin(its.block_loads), its.blocks);
    compare("divide", niqastul_net_divide(net, limit, its), wanted, 1);
}

static void check_report(struct niqastul_net net, uint32_t limit, struct niqastul_edges edges,
                         struct niqastul_report_tables tables, struct niqastul_work work)
{
    struct niqastul_division its = tables.division;
    struct niqastul_totals totals = {7, 7, 7, 7}, t = {7, 7, 7, 7};
    size_t n = net.vertices, k = its.vertices, c = tables.compared.vertices;
    size_t lower = niqastul_add_lower(n, edges.length);
    make_twins();
    uint32_t wanted = niqastul_report(twin(net.parents), n, twin(net.weights), n, limit, its.blocks,
                                      edges.list, edges.length, twin(its.carried), k, twin(its.top), k,
                                      twin(its.block), k, twin(its.block_loads), its.blocks,
                                      twin(tables.edge_blocks), tables.edges, twin(tables.reach), k,
                                      twin(tables.block_count), k, twin(tables.edges_taken), k,
                                      twin(tables.compared.parents), c, twin(tables.compared.weights), c,
                                      twin(work.room), n, twin(work.room + n), n,
                                      twin(work.room + 2 * n), lower_in(work, n, lower),
                                      &t.bound, &t.volume, &t.quotient, &t.remainder);
    uint32_t got = niqastul_net_report(net, limit, edges, tables, work, &totals);
    compare("report", got, wanted, totals.bound == t.bound && totals.volume == t.volume &&
                                       totals.quotient == t.quotient && totals.remainder == t.remainder);
}

static void check_separate(struct niqastul_net net, uint32_t one, uint32_t other, struct niqastul_edges edges,
                           struct niqastul_separate_tables tables, struct niqastul_work work)
{
    struct niqastul_net compared = tables.compared;
    struct niqastul_separator separator = {7, 7}, its = {7, 7};
    size_t n = net.vertices, c = compared.vertices, lower = niqastul_add_lower(n, edges.length);
    make_twins();
    uint32_t wanted = niqastul_separate(twin(net.parents), n, twin(net.weights), n, one, other,
                                        edges.list, edges.length, twin(tables.separator), c,
                                        twin(compared.parents), c, twin(compared.weights), c,
                                        twin(work.room), n, twin(work.room + n), n,
                                        twin(work.room + 2 * n), lower_in(work, n, lower),
                                        &its.count, &its.lowest);
    uint32_t got = niqastul_net_separate(net, one, other, edges, tables, work, &separator);
    compare("separate", got, wanted, separator.count == its.count && separator.lowest == its.lowest);
}

static void check_index(struct niqastul_edges edges, struct niqastul_edges added, struct niqastul_index_tables its)
{
    make_twins();
    uint32_t wanted = niqastul_index(edges.list, edges.length, added.list, added.length,
                                     twin(its.starts), its.vertices + 1, twin(its.neighbours), its.length);
    compare("index", niqastul_index_build(edges, added, its), wanted, 1);
}

static void check_query(struct niqastul_index_tables its, uint32_t rank)
{
    struct niqastul_run run = {7, 7};
    uint64_t first = 7, count = 7;
    make_twins();
    uint32_t wanted = niqastul_query(twin(its.starts), its.vertices + 1, twin(its.neighbours), its.length, rank,
                                     &first, &count);
    uint32_t got = niqastul_index_query(its, rank, &run);
    compare("query", got, wanted, run.first == first && run.count == count);
}

/* A list for n vertices: rarely with a vertex too high, a loop, rows that no edge has, or part of an edge more. */
static struct niqastul_edges a_list(uint32_t *list, uint32_t n)
{
    struct niqastul_edges edges;
    edges.list = list;
    edges.length = NIQASTUL_STRIDE * draw(EDGES + 1) + (rarely() ? 1 + draw(NIQASTUL_STRIDE - 1) : 0);
    for (size_t i = 0; i < edges.length; i++)
        list[i] = draw(n + (draw(60) == 0 || n == 0));
    for (size_t i = 1; n > 0 && i < edges.length; i += NIQASTUL_STRIDE)
        if (list[i] == list[i - 1] && !rarely())
            list[i] = (list[i] + 1) % n;
    for (size_t i = 2; i < edges.length; i += NIQASTUL_STRIDE)
        list[i] = draw(60) == 0 ? draw(2) * (NIQASTUL_MAX_ROWS + 1) : 1 + draw(NIQASTUL_MAX_ROWS);
    return edges;
}

static struct niqastul_order an_order(uint32_t n)
{
    struct niqastul_order order;
    uint32_t turn = draw(VERTICES);
    order.list = order_list;
    order.length = n;
    for (uint32_t i = 0; i < n; i++)
        order_list[i] = (i + turn) % n;
    if (n > 0 && rarely())
        order_list[draw(n)] = draw(n + 1);
    return order;
}

/* The net of a list that has no fault. Rarely one that holds anything, almost as much as a net can, or a row more. */
static struct niqastul_net a_net(size_t n, struct niqastul_edges edges, struct niqastul_work work)
{
    struct niqastul_net net = niqastul_net_in(take(niqastul_net_size(n)), n);
    uint32_t moved, kind = draw(12);
    if (kind != 0 && niqastul_net_start(net) == NIQASTUL_ACCEPTED)
        niqastul_net_add(net, edges, work, &moved);
    if (kind == 1 && n > 0)
        net.weights[0] = NIQASTUL_MAX_TOTAL - draw(2 * ROWS);
    if (kind == 2 && n > 0)
        net.weights[0]++;
    return net;
}

/* A record for each vertex: rarely of a parent that is not absent, or of a weight that is too high. */
static void fill_bytes(void)
{
    for (size_t i = 0; i < sizeof bytes; i++)
        bytes[i] = (uint8_t)(i % 8 < 4 ? (draw(100) ? 255 : 0) : draw(100) ? 0 : 255);
}

/* A number that is rarely one more: for structs that do not fit each other. */
static size_t almost(size_t number)
{
    return number + (size_t)rarely();
}

static void round_of_checks(void)
{
    uint32_t n = rarely() ? 0 : 1 + draw(VERTICES), blocks = draw(BLOCKS + 1), limit = draw(2 * ROWS);
    struct niqastul_edges edges = a_list(lists[0], n), added = a_list(lists[1], n);
    struct niqastul_edges longest = edges.length < added.length ? added : edges;
    struct niqastul_net sized = niqastul_net_in(memory, almost(n)); /* only a number of vertices, for sizes */
    struct niqastul_work work = niqastul_work_in(take(niqastul_work_size(sized, longest)), sized, longest);
    struct niqastul_net net = a_net(n, edges, work), other = a_net(almost(n), added, work);
    if (rarely())
        work.length = draw((uint32_t)work.length + 1);

    struct niqastul_division division =
        niqastul_division_in(take(niqastul_division_size(sized, blocks)), sized, blocks);
    struct niqastul_report_tables report =
        niqastul_report_in(take(niqastul_report_size(sized, blocks, edges)), sized, blocks, edges);
    struct niqastul_separate_tables separate = niqastul_separate_in(take(niqastul_separate_size(sized)), sized);
    struct niqastul_index_tables index =
        niqastul_index_in(take(niqastul_index_size(n, edges, added)), n, edges, added);
    report.edges = almost(report.edges);

    check_relabel(an_order(n), edges, work);
    check_divide(net, limit, division);
    check_report(net, limit, edges, report, work);
    check_separate(net, draw(n + 1), draw(n + 1), edges, separate, work);
    check_index(edges, added, index);
    index.length = almost(index.length);
    check_query(index, draw(n + 1));
    check_save(net, almost(niqastul_bytes(n)));
    check_add(net, added, work);
    check_join(net, other, work);
    fill_bytes();
    check_read(net, almost(niqastul_bytes(n)));
    check_start(net);
}

int main(void)
{
    for (int i = 0; i < ROUNDS; i++) {
        taken = gap_count = 0;
        for (size_t place = 0; place < ROOM; place++)
            memory[place] = draw(UINT32_MAX);
        round_of_checks();
    }
    return 0;
}

/* Carries out a history of calls on nets and link files with the library, and prints a digest of the tables of each
 * struct after each call.
 *     replay SEED VERTICES CALLS
 * What is drawn, from the seed alone, is drawn in the same order by model.py, which knows nothing of this library. The
 * tables are nowhere listed here: they are the memory of their struct, whatever that has. */
#include <inttypes.h>
#include <niqastul.h>
#include <stdio.h>
#include <stdlib.h>

enum { NETS = 5, FILES = 3, ROOM = 100, EDGES = 20, BLOCKS = 4, LIST = NIQASTUL_STRIDE * EDGES };

struct file {
    uint8_t *bytes;
    size_t length;
};

static uint64_t state;
static struct niqastul_net nets[NETS];
static struct niqastul_edges latest[NETS];
static struct niqastul_index_tables indexes[NETS];
static struct file files[FILES];
static uint32_t lists[NETS][LIST], another_list[LIST], order_list[ROOM];

/* A number below `limit`: Knuth's multiplier, the upper half of the state. */
static uint32_t draw(uint32_t limit)
{
    state = state * UINT64_C(6364136223846793005) + UINT64_C(1442695040888963407);
    return (uint32_t)((state >> 32) % limit);
}

static int rarely(void)
{
    return draw(20) == 0;
}

/* FNV-1a over the entries. */
static uint64_t fold(uint64_t digest, uint64_t entry)
{
    return (digest ^ entry) * UINT64_C(1099511628211);
}

static void print(const uint32_t *entries, size_t size)
{
    uint64_t d = UINT64_C(14695981039346656037);
    for (size_t i = 0; i < size / 4; i++) d = fold(d, entries[i]);
    printf(" %08x", (uint32_t)(d >> 32));
}

static void print_file(struct file file)
{
    uint64_t d = UINT64_C(14695981039346656037);
    for (size_t i = 0; i < file.length; i++) d = fold(d, file.bytes[i]);
    printf(" %08x", (uint32_t)(d >> 32));
}

static void *room(size_t size)
{
    void *memory = malloc(size + 1);
    if (!memory) exit(2);
    return memory;
}

/* Memory as the host finds it: holding anything. */
static uint32_t *lent(size_t size)
{
    uint32_t *entries = room(size);
    for (size_t i = 0; i < size / 4; i++) entries[i] = draw(UINT32_MAX);
    return entries;
}

static void print_and_free(uint32_t *entries, size_t size)
{
    print(entries, size);
    free(entries);
}

/* What tables are made for: the net that is lent, or rarely one of a vertex more. */
static struct niqastul_net almost(struct niqastul_net net)
{
    net.vertices += (size_t)rarely();
    return net;
}

/* Work for a net and a list, rarely cut short. */
static struct niqastul_work a_work(struct niqastul_net net, struct niqastul_edges edges)
{
    struct niqastul_work work = niqastul_work_in(lent(niqastul_work_size(net, edges)), net, edges);
    if (rarely()) work.length = draw((uint32_t)work.length + 1);
    return work;
}

static void print_and_free_work(struct niqastul_work work)
{
    print_and_free(work.room, 4 * work.length);
}

/* What tables hold at first: numbers of any size, a net that is sound, or one whose total is almost the largest. */
static struct niqastul_net a_net(size_t n)
{
    if (rarely()) n = draw(ROOM);
    struct niqastul_net net = niqastul_net_in(lent(niqastul_net_size(n)), n);
    uint32_t kind = draw(3), total = 0;
    for (size_t i = 0; kind != 0 && i < n; i++) {
        uint32_t above = (uint32_t)i + 1 + draw((uint32_t)n);
        net.parents[i] = above < n ? above : NIQASTUL_ABSENT;
        total += net.weights[i] = draw(4);
    }
    if (kind == 2 && n != 0) net.weights[0] += NIQASTUL_MAX_TOTAL - total - draw(60);
    return net;
}

static struct file a_file(size_t n)
{
    size_t length = rarely() ? draw((uint32_t)niqastul_bytes(ROOM)) : niqastul_bytes(n);
    struct file file = {room(length), length};
    for (size_t i = 0; i < length; i++) file.bytes[i] = draw(3) == 0 ? 0 : 255;
    return file;
}

/* An edge of n vertices: rarely a number too high, rarely a loop, rarely rows that no edge has. */
static void draw_edge(uint32_t *edge, uint32_t n)
{
    edge[0] = draw(n + (draw(200) == 0));
    edge[1] = draw(n + (draw(200) == 0));
    if (edge[0] == edge[1] && draw(50) != 0) edge[0] = (edge[0] + 1) % n;
    edge[2] = draw(200) == 0 ? 7 * draw(2) : 1 + draw(NIQASTUL_MAX_ROWS);
}

/* A list of edges: rarely with part of an edge at its end. */
static struct niqastul_edges edges(uint32_t *list, uint32_t n)
{
    size_t length = NIQASTUL_STRIDE * draw(EDGES);
    for (size_t i = 0; i < length; i += NIQASTUL_STRIDE) draw_edge(list + i, n);
    if (rarely()) {
        for (uint32_t more = 1 + draw(2); more != 0; more--) list[length++] = 0;
    }
    return (struct niqastul_edges){list, length};
}

static uint32_t vertices(int net)
{
    return nets[net].vertices == 0 ? 1 : (uint32_t)nets[net].vertices;
}

static void start(int net)
{
    printf("start %d %u", net, niqastul_net_start(nets[net]));
}

static void add(int net)
{
    latest[net] = edges(lists[net], vertices(net));
    struct niqastul_work work = a_work(nets[net], latest[net]);
    uint32_t moved = 7;
    printf("add %d %u", net, niqastul_net_add(nets[net], latest[net], work, &moved));
    print_and_free_work(work);
    printf(" %u", moved);
}

static void join(int net, int other)
{
    struct niqastul_edges none = {NULL, 0};
    struct niqastul_work work = a_work(nets[net], none);
    uint32_t moved = 7;
    printf("join %d %d %u", net, other, niqastul_net_join(nets[net], nets[other], work, &moved));
    print_and_free_work(work);
    printf(" %u", moved);
}

static void save(int net, int file)
{
    printf("save %d %d %u", net, file, niqastul_net_save(nets[net], files[file].bytes, files[file].length));
}

static void read(int net, int file)
{
    printf("read %d %d %u", net, file, niqastul_net_read(nets[net], files[file].bytes, files[file].length));
}

static void relabel(int net)
{
    uint32_t n = vertices(net), turn = draw(n);
    struct niqastul_order order = {order_list, n};
    struct niqastul_edges list = edges(another_list, n);
    struct niqastul_work work = a_work(nets[net], list);
    uint32_t *out = lent(4 * list.length);
    for (uint32_t i = 0; i < n; i++) order_list[i] = (i + turn) % n;
    if (rarely()) {
        uint32_t place = draw(n);
        order_list[place] = draw(n);
    }
    printf("relabel %u", niqastul_order_relabel(order, list, out, work));
    print_and_free(out, 4 * list.length);
    print_and_free_work(work);
}

static void divide(int net)
{
    struct niqastul_net like = almost(nets[net]);
    uint32_t limit = draw(40), blocks = draw(BLOCKS + 1);
    size_t size = niqastul_division_size(like, blocks);
    uint32_t *memory = lent(size);
    struct niqastul_division division = niqastul_division_in(memory, like, blocks);
    printf("divide %d %u", net, niqastul_net_divide(nets[net], limit, division));
    print_and_free(memory, size);
}

/* On the list that was last lent to an addition: the net's own, if it was the first. */
static void report(int net)
{
    struct niqastul_net like = almost(nets[net]);
    uint32_t limit = 1 + draw(70), blocks = 1 + draw(BLOCKS);
    size_t size = niqastul_report_size(like, blocks, latest[net]);
    uint32_t *memory = lent(size);
    struct niqastul_report_tables tables = niqastul_report_in(memory, like, blocks, latest[net]);
    struct niqastul_work work = a_work(nets[net], latest[net]);
    struct niqastul_totals its = {7, 7, 7, 7};
    printf("report %d %u", net, niqastul_net_report(nets[net], limit, latest[net], tables, work, &its));
    print_and_free(memory, size);
    print_and_free_work(work);
    printf(" %" PRIu64 " %" PRIu64 " %u %u", its.bound, its.volume, its.quotient, its.remainder);
}

/* Two ranks, on the list that was last lent to an addition. */
static void separate(int net)
{
    struct niqastul_net like = almost(nets[net]);
    uint32_t one = draw(vertices(net) + 1), other = draw(vertices(net) + 1);
    size_t size = niqastul_separate_size(like);
    uint32_t *memory = lent(size);
    struct niqastul_separate_tables tables = niqastul_separate_in(memory, like);
    struct niqastul_work work = a_work(nets[net], latest[net]);
    struct niqastul_separator its = {7, 7};
    printf("separate %d %u", net, niqastul_net_separate(nets[net], one, other, latest[net], tables, work, &its));
    print_and_free(memory, size);
    print_and_free_work(work);
    printf(" %u %u", its.count, its.lowest);
}

/* Tables for an index of so many vertices and two lists, in the place of those that the net had. */
static void lend_index(int net, size_t n, struct niqastul_edges old_edges, struct niqastul_edges added)
{
    free(indexes[net].starts);
    indexes[net] = niqastul_index_in(lent(niqastul_index_size(n, old_edges, added)), n, old_edges, added);
}

/* The list that was last lent to an addition, and some more. */
static void make_index(int net)
{
    struct niqastul_edges added = edges(another_list, vertices(net));
    size_t n = vertices(net) + (size_t)rarely();
    lend_index(net, n, latest[net], added);
    printf("index %d %u", net, niqastul_index_build(latest[net], added, indexes[net]));
    print(indexes[net].starts, niqastul_index_size(n, latest[net], added));
}

static void query(int net)
{
    uint32_t rank = draw(vertices(net) + 1);
    struct niqastul_run run = {7, 7};
    printf("query %d %u", net, niqastul_index_query(indexes[net], rank, &run));
    printf(" %" PRIu64 " %" PRIu64, run.first, run.count);
}

static void step(void)
{
    uint32_t call = draw(27);
    int net = (int)draw(NETS), other = (net + 1 + (int)draw(NETS - 1)) % NETS, file = (int)draw(FILES);
    if (call == 0) start(net);
    else if (call < 8) add(net);
    else if (call < 11) join(net, other);
    else if (call < 14) save(net, file);
    else if (call < 17) read(net, file);
    else if (call < 18) relabel(net);
    else if (call < 20) divide(net);
    else if (call < 22) report(net);
    else if (call < 23) make_index(net);
    else if (call < 25) separate(net);
    else query(net);
    printf(" :");
    for (int i = 0; i < NETS; i++) print(nets[i].parents, niqastul_net_size(nets[i].vertices));
    for (int i = 0; i < FILES; i++) print_file(files[i]);
    printf("\n");
}

int main(int count, char **words)
{
    if (count != 4) return 2;
    state = strtoull(words[1], NULL, 10);
    size_t n = strtoull(words[2], NULL, 10);
    long calls = strtol(words[3], NULL, 10);
    if (n == 0 || n >= ROOM) return 2;
    for (int i = 0; i < NETS; i++) nets[i] = a_net(n);
    for (int i = 0; i < FILES; i++) files[i] = a_file(n);
    for (int i = 0; i < NETS; i++) lend_index(i, 0, latest[i], latest[i]);
    for (long i = 0; i < calls; i++) step();
    return 0;
}

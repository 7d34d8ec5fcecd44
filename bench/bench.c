/* Measures the public calls beside their peers, in one run on the same nets, the best of several runs of each. Prints a
 * line for each measurement, its fields separated by tabs: what, family, vertices, edges, then pairs of a name and
 * milliseconds.
 *
 *     bench [MOST [FAMILY]]        up to so many vertices; only families whose name begins so */
#include "index.h"
#include "separate.h"
#include "tables.h"
#include "timing.h"

#include <malloc.h>
#include <stdlib.h>
#include <string.h>

enum { FEW = 100, STRETCH = 1024 };

static uint32_t join(struct tables *t)
{
    uint32_t moved;
    must(niqastul_net_join(t->net, t->other, t->work, &moved) == 0, "join refused");
    return moved;
}

static void relabel(const struct net *net, struct tables *t)
{
    struct niqastul_order order = {net->order, net->vertices};
    struct niqastul_edges edges = edges_of(net->list, net->edges);
    must(niqastul_order_relabel(order, edges, (uint32_t *)t->ranks, t->work) == 0, "relabel refused");
}

static void save(struct tables *t)
{
    must(niqastul_net_save(t->net, t->bytes, niqastul_bytes(t->net.vertices)) == 0, "save refused");
}

static void read(struct tables *t)
{
    must(niqastul_net_read(t->net, t->bytes, niqastul_bytes(t->net.vertices)) == 0, "read refused");
}

static void divide(struct tables *t, uint32_t limit, uint32_t blocks)
{
    struct niqastul_division division = t->division;
    division.blocks = blocks;
    must(niqastul_net_divide(t->net, limit, division) == 0, "divide refused");
}

static void report(const struct net *net, struct tables *t, uint32_t limit, uint32_t blocks,
                   struct niqastul_totals *its)
{
    struct niqastul_report_tables tables = t->report;
    tables.division.blocks = blocks;
    must(niqastul_net_report(t->net, limit, edges_of(net->list, net->edges), tables, t->work, its) == 0,
         "report refused");
}

/* A limit of a quarter of a block's even share, so that the groups can be packed evenly, or the largest weight. */
static uint32_t limit_for(uint32_t blocks, const uint32_t *weights, size_t n)
{
    uint64_t total = 0, limit = 1;
    for (size_t x = 0; x < n; x++) {
        total += weights[x];
        limit = weights[x] > limit ? weights[x] : limit;
    }
    return (uint32_t)(total / (4 * blocks) > limit ? total / (4 * blocks) : limit);
}

/* One pass over a net's tables: the least that a call which checks its net can take. */
static uint64_t pass(const uint32_t *parents, const uint32_t *weights, size_t n)
{
    uint64_t sum = 0;
    for (size_t x = 0; x < n; x++)
        sum += parents[x] ^ weights[x];
    return sum;
}

/* What a host does that is not told where a forest moved: it compares all parents with a copy from before, a stretch at
 * a time, and copies them anew from the first on that is another, which is answered. */
static uint32_t compare_all(const uint32_t *parents, uint32_t *copy, size_t n)
{
    size_t x = 0;
    while (x + STRETCH <= n && !memcmp(parents + x, copy + x, 4 * STRETCH))
        x += STRETCH;
    while (x < n && parents[x] == copy[x])
        x++;
    memcpy(copy + x, parents + x, 4 * (n - x));
    return x < n ? (uint32_t)x : NIQASTUL_ABSENT;
}

/* Keeps the parents that a route of SuiteSparse came to, in place of those of the one before. */
static void keep(int **parents, int *found, size_t n)
{
    must(*parents == NULL || !memcmp(*parents, found, 4 * n), "SuiteSparse disagrees with itself");
    free(*parents);
    *parents = found;
}

/* What one contender left must not pass for what the next one does. */
static void spoil(struct niqastul_net net)
{
    memset(net.parents, 1, niqastul_net_size(net.vertices));
}

static int is_net(struct niqastul_net net, const int *parents, const uint32_t *weights)
{
    return !memcmp(net.parents, parents, 4 * net.vertices) && !memcmp(net.weights, weights, 4 * net.vertices);
}

/* Whether a list is the net's in ranks of its order, each edge with the rows that it had. */
static int is_relabelled(const struct net *net, const struct edge *ranks)
{
    int same = 1;
    for (size_t i = 0; i < net->edges; i++) {
        struct edge edge = net->list[i], its = ranks[i];
        same &= net->order[its.a] == edge.a && net->order[its.b] == edge.b && its.rows == edge.rows;
    }
    return same;
}

static int is_saved(const uint8_t *bytes, struct niqastul_net net)
{
    int same = 1;
    for (size_t x = 0; x < net.vertices; x++)
        same &= !memcmp(bytes + 8 * x, net.parents + x, 4) && !memcmp(bytes + 8 * x + 4, net.weights + x, 4);
    return same;
}

/* A column count of SuiteSparse counts the vertex itself. */
static int are_reaches(const uint32_t *reach, const int *counts, size_t n)
{
    int same = 1;
    for (size_t x = 0; x < n; x++)
        same &= (uint32_t)counts[x] == reach[x] + 1;
    return same;
}

/* A copy would leave a table warm for the next contender. */
static void exchange(uint32_t **one, uint32_t **other)
{
    uint32_t *table = *one;
    *one = *other;
    *other = table;
}

static volatile uint64_t sink;

/* Every contender runs once in each round, so that what else the machine does meets all alike. */
static void measure(const char *family, const struct net *net)
{
    size_t n = net->vertices, m = net->edges, half = m / 2, few = m < FEW ? m : FEW;
    struct tables t = make_tables(n, m);
    struct niqastul_net first = new_net(n), second = new_net(n), most = new_net(n);
    struct niqastul_edges whole = edges_of(net->list, m), last = edges_of(net->list + (m - few), few);
    uint32_t *spare = room(3 * n, 4), *plain_reach = spare, *plain_count = spare + n, *plain_taken = spare + 2 * n;
    uint32_t *weights = room(n, 4), plain_loads[NIQASTUL_MAX_BLOCKS];
    int *parents = NULL, *found;
    double grow, peer, peer_rows, triplets, triplets_rows, plain, added, one_pass, joined, plain_joined, relabelled;
    double checked_relabelled, plain_relabelled, compared, saved, plain_saved, was_read, plain_was_read;
    static const uint32_t blocks[] = {16, NIQASTUL_MAX_BLOCKS}, reported_blocks[] = {16, 2};
    double divided[] = {1e300, 1e300}, plain_divided[] = {1e300, 1e300};
    double reported[] = {1e300, 1e300}, plain_reported[] = {1e300, 1e300}, counted = 1e300;
    grow = peer = peer_rows = triplets = triplets_rows = plain = added = one_pass = joined = plain_joined = 1e300;
    relabelled = checked_relabelled = plain_relabelled = compared = 1e300;
    saved = plain_saved = was_read = plain_was_read = 1e300;

    start(first);
    add(first, edges_of(net->list, half), &t);
    start(second);
    add(second, edges_of(net->list + half, m - half), &t);
    start(most);
    add(most, edges_of(net->list, m - few), &t);
    for (int round = 0; round < rounds(net); round++) {
        TIME(triplets, , found = suitesparse_etree_by_triplets(net));
        keep(&parents, found, n);
        TIME(triplets_rows, , (found = suitesparse_etree_by_triplets(net), sum_rows(net, weights)));
        keep(&parents, found, n);
        TIME(peer, , found = suitesparse_etree(net, &t));
        keep(&parents, found, n);
        TIME(peer_rows, , (found = suitesparse_etree(net, &t), sum_rows(net, weights)));
        keep(&parents, found, n);
        TIME(plain, spoil(t.net), plain_grow(net, &t));
        must(is_net(t.net, parents, weights), "plain C and SuiteSparse disagree");

        /* plain C leaves ends and jump, side by side, as it used them; a call leaves zeros, and the next finds them */
        TIME(grow, (spoil(t.net), memset(t.ends, 0, 2 * 4 * n)), (start(t.net), add(t.net, whole, &t)));
        must(is_net(t.net, parents, weights), "the library and SuiteSparse disagree on growing");

        uint32_t moved, plain_moved;
        TIME(added, copy_net(t.net, most), moved = add(t.net, last, &t));
        must(is_net(t.net, parents, weights), "the library and SuiteSparse disagree on adding");
        TIME(one_pass, , sink = pass(t.net.parents, t.net.weights, n));
        TIME(compared, memcpy(t.other.parents, most.parents, 4 * n),
             plain_moved = compare_all(t.net.parents, t.other.parents, n));
        must(moved == plain_moved, "the library and plain C disagree on where the forest moved");

        copy_net(t.other, second);
        TIME(plain_joined, copy_net(t.net, first), plain_join(n, &t));
        must(is_net(t.net, parents, weights), "plain C and SuiteSparse disagree on joining");
        TIME(joined, copy_net(t.net, first), moved = join(&t));
        must(is_net(t.net, parents, weights), "the library and SuiteSparse disagree on joining");
        memcpy(t.other.parents, first.parents, 4 * n);
        must(moved == compare_all(t.net.parents, t.other.parents, n),
             "the library and plain C disagree on where a joined forest moved");

        TIME(plain_saved, memset(t.bytes, 1, niqastul_bytes(n)), plain_save(n, &t));
        must(is_saved(t.bytes, t.net), "plain C saves another net");
        TIME(saved, memset(t.bytes, 1, niqastul_bytes(n)), save(&t));
        must(is_saved(t.bytes, t.net), "the library and plain C disagree on saving");
        TIME(plain_was_read, spoil(t.net), plain_read(n, &t));
        must(is_net(t.net, parents, weights), "plain C reads another net than was saved");
        TIME(was_read, spoil(t.net), read(&t));
        must(is_net(t.net, parents, weights), "what was saved is not what is read");

        for (int k = 0; k < 2; k++) {
            uint32_t limit = limit_for(blocks[k], t.net.weights, n);
            TIME(plain_divided[k], , plain_divide(n, limit, blocks[k], &t));
            memcpy(t.other.parents, t.division.block, 4 * n);
            memcpy(plain_loads, t.division.block_loads, 4 * blocks[k]);
            TIME(divided[k], memset(t.division.block, 1, 4 * n), divide(&t, limit, blocks[k]));
            must(!memcmp(t.other.parents, t.division.block, 4 * n) &&
                     !memcmp(plain_loads, t.division.block_loads, 4 * blocks[k]),
                 "the library and plain C disagree on dividing");
        }

        int *counts = NULL;
        TIME(counted, , counts = suitesparse_counts(net, parents, &t));
        for (int k = 0; k < 2; k++) {
            uint32_t limit = limit_for(reported_blocks[k], t.net.weights, n);
            struct niqastul_totals its, plain_its;
            TIME(plain_reported[k], , plain_report(net, limit, reported_blocks[k], &t, &plain_its));
            exchange(&plain_reach, &t.report.reach), exchange(&plain_count, &t.report.block_count);
            exchange(&plain_taken, &t.report.edges_taken);
            TIME(reported[k], , report(net, &t, limit, reported_blocks[k], &its));
            must(its.bound == plain_its.bound && its.volume == plain_its.volume && its.volume <= its.bound,
                 "the library and plain C disagree on a report");
            must(its.quotient == plain_its.quotient && its.remainder == plain_its.remainder,
                 "the library and plain C disagree on the even share");
            must(!memcmp(plain_count, t.report.block_count, 4 * n), "the library and plain C disagree on block counts");
            must(!memcmp(plain_taken, t.report.edges_taken, 4 * n),
                 "the library and plain C disagree on the edges taken");
            must(are_reaches(plain_reach, counts, n), "plain C and SuiteSparse disagree on reaches");
            must(are_reaches(t.report.reach, counts, n), "the library and SuiteSparse disagree on reaches");
            must(is_net(t.net, parents, weights) && is_net(t.other, parents, weights), "a report has another net");
        }
        free(counts);

        size_t list_size = m * sizeof(struct edge);
        TIME(plain_relabelled, memset(t.ranks, 0, list_size), plain_relabel(net, net->order, t.ranks, t.ends));
        must(is_relabelled(net, t.ranks), "plain C relabels to another list");
        uint32_t refusal;
        TIME(checked_relabelled, memset(t.ranks, 0, list_size),
             refusal = checked_relabel(net, net->order, t.ranks, t.ends));
        must(refusal == 0 && is_relabelled(net, t.ranks), "plain C with checks relabels to another list");
        TIME(relabelled, memset(t.ranks, 0, list_size), relabel(net, &t));
        must(is_relabelled(net, t.ranks), "the library and plain C disagree on relabelling");
    }
    row("grow", family, net);
    printf("\tniqastul\t%.4f\tSuiteSparse\t%.4f\tcs_compress\t%.4f", grow, peer, triplets);
    printf("\tSuiteSparse + rows\t%.4f\tcs_compress + rows\t%.4f\tplain C\t%.4f\n", peer_rows, triplets_rows, plain);
    row("add 100", family, net);
    printf("\tniqastul\t%.4f\tone pass\t%.4f\tcompare all\t%.4f\tSuiteSparse\t%.4f\n", added, one_pass, compared, peer);
    row("join", family, net);
    printf("\tniqastul\t%.4f\tSuiteSparse\t%.4f\tplain C\t%.4f\n", joined, peer, plain_joined);
    row("relabel", family, net);
    printf("\tniqastul\t%.4f\tchecked C\t%.4f\tplain C\t%.4f\n", relabelled, checked_relabelled, plain_relabelled);
    row("save", family, net);
    printf("\tniqastul\t%.4f\tplain C\t%.4f\n", saved, plain_saved);
    row("read", family, net);
    printf("\tniqastul\t%.4f\tplain C\t%.4f\n", was_read, plain_was_read);
    for (int k = 0; k < 2; k++) {
        row(k ? "divide 1000" : "divide 16", family, net);
        printf("\tniqastul\t%.4f\tplain C\t%.4f\tone pass\t%.4f\n", divided[k], plain_divided[k], one_pass);
    }
    for (int k = 0; k < 2; k++) {
        row(k ? "report 2" : "report 16", family, net);
        printf("\tniqastul\t%.4f\tSuiteSparse\t%.4f\tplain C\t%.4f\n", reported[k], peer + counted, plain_reported[k]);
    }
    fflush(stdout);
    free(first.parents), free(second.parents), free(most.parents), free(parents), free(spare), free(weights);
    free_tables(&t);
}

int main(int count, char **words)
{
    static size_t sizes[] = {10000, 30000, 100000, 300000, 1000000};
    size_t most = count > 1 ? (size_t)atol(words[1]) : 1000000;
    const char *only = count > 2 ? words[2] : "";
    if (most < sizes[0])
        sizes[0] = most; /* small nets show nothing but whether all agree */
    /* memory that a peer frees stays with the program, so that it pays for no fresh pages */
    mallopt(M_MMAP_THRESHOLD, 1 << 30);
    mallopt(M_TRIM_THRESHOLD, 1 << 30);
    for (size_t f = 0; f < family_count; f++)
        for (size_t s = 0; s < sizeof sizes / sizeof *sizes; s++)
            if (sizes[s] <= most && !strncmp(families[f].name, only, strlen(only))) {
                struct net net = make_net(&families[f], sizes[s]);
                measure(families[f].name, &net);
                measure_index(families[f].name, &net);
                measure_separate(families[f].name, &net);
                free_net(&net);
            }
    return 0;
}

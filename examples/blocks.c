/* From an order and an edge file to blocks: blocks marks.ord ties.rec want.rec
 * The files hold little-endian 32-bit numbers: vertices; two vertices and the rows of each edge; the limit and the
 * number of blocks. A line for each rank: rank, vertex, parent, weight, reach, top, block, block count; then bound,
 * volume and even share (quotient, remainder).
 *
 *     cc blocks.c $(pkg-config --cflags --libs niqastul) -o blocks        after make install */
#include <inttypes.h>
#include <niqastul.h>
#include <stdio.h>
#include <stdlib.h>

static void *room(size_t size)
{
    void *memory = calloc(size + 1, 1);
    if (!memory) {
        perror("room");
        exit(1);
    }
    return memory;
}

static uint32_t *numbers(const char *path, size_t *length)
{
    FILE *file = fopen(path, "rb");
    if (!file || fseek(file, 0, SEEK_END)) {
        perror(path);
        exit(1);
    }
    *length = (size_t)ftell(file) / 4;
    rewind(file);
    uint32_t *entries = room(4 * *length);
    *length = fread(entries, 4, *length, file);
    fclose(file);
    return entries;
}

static void accept(uint32_t answer)
{
    if (answer != NIQASTUL_ACCEPTED) {
        printf("refused %u: %s\n", answer, niqastul_text(answer));
        exit(1);
    }
}

int main(int count, char **files)
{
    if (count != 4)
        return fprintf(stderr, "usage: blocks ORDER EDGES WANT\n"), 2;
    size_t n, m, w;
    uint32_t *vertices = numbers(files[1], &n), *list = numbers(files[2], &m), *want = numbers(files[3], &w);
    if (w != 2)
        return fprintf(stderr, "%s: two numbers, the limit and the number of blocks\n", files[3]), 2;
    /* no block is refused as too many are, and needs no memory */
    uint32_t *ranks = room(4 * m), limit = want[0], blocks = want[1] > NIQASTUL_MAX_BLOCKS ? 0 : want[1];
    struct niqastul_order order = {vertices, n};
    struct niqastul_edges numbered = {list, m}, edges = {ranks, m};
    struct niqastul_net net = niqastul_net_in(room(niqastul_net_size(n)), n);
    struct niqastul_work work = niqastul_work_in(room(niqastul_work_size(net, edges)), net, edges);
    struct niqastul_report_tables its =
        niqastul_report_in(room(niqastul_report_size(net, blocks, edges)), net, blocks, edges);
    struct niqastul_totals totals;
    uint32_t moved; /* where the forest moved: of use to a program that has read it before */

    accept(niqastul_order_relabel(order, numbered, ranks, work));
    accept(niqastul_net_start(net));
    accept(niqastul_net_add(net, edges, work, &moved));
    accept(niqastul_net_report(net, limit, edges, its, work, &totals));

    for (size_t rank = 0; rank < n; rank++) {
        printf("%zu %u ", rank, vertices[rank]);
        if (net.parents[rank] == NIQASTUL_ABSENT)
            printf("-");
        else
            printf("%u", net.parents[rank]);
        printf(" %u %u %u %u %u\n", net.weights[rank], its.reach[rank], its.division.top[rank],
               its.division.block[rank], its.block_count[rank]);
    }
    printf("bound %" PRIu64 " volume %" PRIu64, totals.bound, totals.volume);
    printf(" share %u %u\n", totals.quotient, totals.remainder);
    return 0;
}

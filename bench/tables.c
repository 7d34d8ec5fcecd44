#include "tables.h"
#include "timing.h"

struct niqastul_net new_net(size_t n)
{
    return niqastul_net_in(room(niqastul_net_size(n), 1), n);
}

void copy_net(struct niqastul_net to, struct niqastul_net from)
{
    memcpy(to.parents, from.parents, niqastul_net_size(to.vertices));
}

struct niqastul_edges edges_of(const struct edge *list, size_t m)
{
    return (struct niqastul_edges){(const uint32_t *)list, NIQASTUL_STRIDE * m};
}

/* Memory that both the library and the peers work in. */
static void make_work(struct tables *t, size_t n, size_t m)
{
    struct niqastul_edges whole = edges_of(NULL, m);
    size_t own = niqastul_work_size(t->net, whole), peers = 4 * (3 * n + (m > n ? m : n));
    t->work = niqastul_work_in(room(own > peers ? own : peers, 1), t->net, whole);
    t->ends = t->work.room;
    t->jump = t->ends + n;
    t->lower = t->jump + n;
}

static void make_report(struct tables *t, size_t m)
{
    struct niqastul_edges whole = edges_of(NULL, m);
    size_t size = niqastul_report_size(t->net, NIQASTUL_MAX_BLOCKS, whole);
    t->report = niqastul_report_in(room(size, 1), t->net, NIQASTUL_MAX_BLOCKS, whole);
    t->report.compared = t->other;
    t->division = t->report.division;
}

struct tables make_tables(size_t n, size_t m)
{
    struct tables t = {.net = new_net(n), .other = new_net(n)};
    make_work(&t, n, m);
    make_report(&t, m);
    t.ranks = room(m, sizeof(struct edge));
    t.start = room(n + 1, sizeof(int));
    t.row = room(m, sizeof(int));
    t.bytes = room(niqastul_bytes(n), 1);
    return t;
}

void free_tables(struct tables *t)
{
    free(t->net.parents), free(t->other.parents), free(t->work.room), free(t->division.carried);
    free(t->ranks), free(t->start), free(t->row), free(t->bytes);
}

void start(struct niqastul_net net)
{
    must(niqastul_net_start(net) == 0, "start refused");
}

uint32_t add(struct niqastul_net net, struct niqastul_edges edges, const struct tables *t)
{
    uint32_t moved;
    must(niqastul_net_add(net, edges, t->work, &moved) == 0, "add refused");
    return moved;
}

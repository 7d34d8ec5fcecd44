#include "separate.h"
#include "tables.h"
#include "timing.h"

static uint32_t separate(const struct net *net, uint32_t one, uint32_t other, const struct tables *t,
                         struct niqastul_separate_tables tables, struct separator *its)
{
    struct niqastul_separator found = {its->count, its->lowest};
    struct niqastul_edges edges = edges_of(net->list, net->edges);
    uint32_t answer = niqastul_net_separate(t->net, one, other, edges, tables, t->work, &found);
    *its = (struct separator){tables.separator, found.count, found.lowest};
    return answer;
}

/* Neither tests nor weights: the forest anew, compared and walked. */
static uint32_t suitesparse_separate(const struct net *net, uint32_t one, uint32_t other, struct tables *t,
                                     struct separator *its)
{
    int *parents = suitesparse_etree(net, t);
    int own = !memcmp(parents, t->net.parents, 4 * net->vertices);
    free(parents);
    return own ? plain_separate(t->net.parents, one, other, its) : 23;
}

/* The lowest rank that is not above rank 0, and which rank 0 is not above either; or, where all are above it, the last:
 * refused. */
static uint32_t lowest_beside(const uint32_t *parents, size_t n)
{
    uint32_t up = parents[0];
    for (uint32_t x = 1; x < n; x++) {
        if (x != up)
            return x;
        up = parents[x];
    }
    return (uint32_t)n - 1;
}

static int same_separator(const struct separator *one, const struct separator *other)
{
    return one->count == other->count && one->lowest == other->lowest &&
           !memcmp(one->vertices, other->vertices, 4 * one->count);
}

void measure_separate(const char *family, const struct net *net)
{
    size_t n = net->vertices, m = net->edges;
    struct tables t = make_tables(n, m);
    struct niqastul_edges edges = edges_of(net->list, m);
    struct niqastul_separate_tables tables = niqastul_separate_in(room(niqastul_separate_size(t.net), 1), t.net);
    struct separator its = {tables.separator, 0, 0}, plain = {room(n, 4), 0, 0}, peer = {room(n, 4), 0, 0};
    double separated = 1e300, checked = 1e300, sparse = 1e300, growing = 1e300;
    tables.compared = t.other;
    start(t.net);
    add(t.net, edges, &t);
    uint32_t one = 0, other = lowest_beside(t.net.parents, n);
    for (int round = 0; round < rounds(net); round++) {
        uint32_t answer, plain_answer, peer_answer;
        TIME(sparse, , peer_answer = suitesparse_separate(net, one, other, &t, &peer));
        TIME(checked, , plain_answer = checked_separate(net, one, other, &t, &plain));
        TIME(growing, , (start(t.other), add(t.other, edges, &t)));
        TIME(separated, , answer = separate(net, one, other, &t, tables, &its));
        must((answer == 0 || answer == NIQASTUL_RELATED) && answer == plain_answer && answer == peer_answer,
             "answers to two vertices disagree");
        must(same_separator(&its, &plain) && same_separator(&its, &peer), "separators disagree");
    }
    row("separate", family, net);
    printf("\tniqastul\t%.4f\tchecked C\t%.4f", separated, checked);
    printf("\tSuiteSparse\t%.4f\tgrowing\t%.4f\n", sparse, growing);
    fflush(stdout);
    free(its.vertices), free(plain.vertices), free(peer.vertices);
    free_tables(&t);
}

/* What the library is measured beside, on the same edge lists. */
#ifndef PEERS_H
#define PEERS_H

#include "nets.h"

/* Tables for all that is measured on one net, made once and written before they are measured. */
struct tables {
    struct niqastul_net net, other;
    struct niqastul_work work;            /* of the library, for the whole list */
    uint32_t *ends, *jump, *lower;        /* of the peers, in the same memory: n, n and n + max(n, edges) entries */
    struct niqastul_report_tables report; /* for NIQASTUL_MAX_BLOCKS blocks; compared is the other net */
    struct niqastul_division division;    /* that of the report */
    struct edge *ranks;                   /* as long as the list */
    int *start, *row;                     /* compressed columns */
    uint8_t *bytes;                       /* a net, saved */
};

/* The vertices above both of two ranks, in a table of n entries, how many they are, and the lowest of them. */
struct separator {
    uint32_t *vertices, count, lowest;
};

/* SuiteSparse: compressed columns of the upper triangle from the list, then cs_etree. The columns are counted and
 * filled here, into tables that exist already; `by_triplets` goes through cs_compress instead, as its manual has it.
 * Each answers the parents, allocated, -1 for none. Neither reads rows. */
int *suitesparse_etree(const struct net *net, struct tables *t);
int *suitesparse_etree_by_triplets(const struct net *net);

/* The weights, by a sweep over the list: what SuiteSparse leaves to do of growing a net. */
void sum_rows(const struct net *net, uint32_t *weights);

/* SuiteSparse's column counts on the columns that suitesparse_etree left: cs_post and cs_counts, allocated. */
int *suitesparse_counts(const struct net *net, const int *parents, const struct tables *t);

/* The same union-find as the library's in plain C, and the weights: no refusals, work tables left as they are. */
void plain_grow(const struct net *net, struct tables *t);
/* Joins the other net into the net, likewise. */
void plain_join(size_t n, struct tables *t);
void plain_relabel(const struct net *net, const uint32_t *order, struct edge *out, uint32_t *inverse);
/* The refusal of the first faulty edge, or 0. */
uint32_t edge_fault(const struct net *net);
/* Relabels with the library's tests of the order and of the edges, all before anything is written; answers the refusal,
 * or 0. */
uint32_t checked_relabel(const struct net *net, const uint32_t *order, struct edge *out, uint32_t *inverse);
void plain_save(size_t n, const struct tables *t);
void plain_read(size_t n, struct tables *t);
/* Divides the net: children sorted by what they carry where some must be cut, blocks in a heap. */
void plain_divide(size_t n, uint32_t limit, uint32_t blocks, struct tables *t);
/* Grows the net of the edges, divides it, and counts reaches, blocks and the edges taken for these: what a report does,
 * less refusals and comparison. */
void plain_report(const struct net *net, uint32_t limit, uint32_t blocks, struct tables *t,
                  struct niqastul_totals *its);
/* Walks up from two ranks in a table of parents; answers 31 if they are one or one is above the other, or 0. */
uint32_t plain_separate(const uint32_t *parents, uint32_t one, uint32_t other, struct separator *its);
/* The same of the net, with the library's tests: grows the net of the edges in the other, compares, and leaves work
 * tables of zeros. Answers the refusal, or 0. */
uint32_t checked_separate(const struct net *net, uint32_t one, uint32_t other, struct tables *t, struct separator *its);

#endif

/* Tables for the measurements, and the calls that grow a net in them. */
#ifndef TABLES_H
#define TABLES_H

#include "peers.h"

struct tables make_tables(size_t n, size_t m);
void free_tables(struct tables *t);

/* A net with tables of its own, which are freed by its first. */
struct niqastul_net new_net(size_t n);
void copy_net(struct niqastul_net to, struct niqastul_net from);

/* So many edges of a list. */
struct niqastul_edges edges_of(const struct edge *list, size_t m);

void start(struct niqastul_net net);
/* Answers where the forest moved. */
uint32_t add(struct niqastul_net net, struct niqastul_edges edges, const struct tables *t);

#endif

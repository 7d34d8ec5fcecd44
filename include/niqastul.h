/* Niqastul: elimination forests of graphs, grown, joined and divided, and indexes of neighbours. This header is what a
 * C or C++ program sees of it. The calls come twice. First each stands as the library has it, with every table a
 * parameter: these are proved to do what is written here (crates/exports). At the end they stand over structs of
 * tables, for most programs the better form: inline functions that pass tables on to the first, and are tested.
 *
 * TABLES. A table is passed as a pointer and its number of entries. A graph has n vertices, 1 to NIQASTUL_MAX_VERTICES,
 * named by their ranks 0 to n-1 in an elimination order. An edge list holds three numbers to an edge, its two vertices
 * and its rows, so that a list of m edges has 3m entries. Rows are 1 to NIQASTUL_MAX_ROWS: a levelled difference gives
 * the adjustment one equation row, a satellite vector three, a full pose six. Edges may repeat, each time with rows of
 * its own. A net is two tables of n entries:
 *     parents[x]   the parent of x in the elimination forest, a higher rank, or NIQASTUL_ABSENT;
 *     weights[x]   the sum of the rows of the edges whose lower end is x, repeats included.
 * An index is two tables beside an edge list:
 *     neighbours   the runs of all vertices end to end, by rising rank, two entries to an edge: the run of x has for
 *                  each edge at x, in the order of the list, its other end, repeats included;
 *     starts[x]    where the run of x starts in neighbours, n+1 entries: it ends where that of x+1 starts, and the last
 *                  entry is the end of the last run.
 * n is the length of parents; in niqastul_relabel that of order; in niqastul_index and niqastul_query that of starts
 * less one. Every other table must have exactly the length that is named at the call. Work tables are room that the
 * call needs and that the caller lends; what they hold before does not matter.
 *
 * ANSWERS. 0 (NIQASTUL_ACCEPTED), or the number of the refusal: of those that are listed at the call, the first that
 * applies. A refused call leaves every table bit for bit as it was; the exceptions are named at the calls. What is not
 * refused is accepted, and then every table that is not const is as the call says. Nothing is allocated or kept between
 * calls, and there is no other state: calls on different tables may run in different threads.
 *
 * WHERE THE FOREST MOVED. Adding and joining write to a cell the lowest rank whose parent changed, or NIQASTUL_ABSENT
 * if none did; a weight alone that rises moves nothing. Every rank below the answer has its old parent, so that a host
 * which keeps a copy of the parents rereads them from there on and misses nothing. Parents only fall, an absent one
 * counting as the highest, so that after several calls in a row the lowest of their answers is the lowest rank that
 * moved in all.
 *
 * THE CALLER'S DUTY. The calls check every number and every length, and nothing else can be checked here:
 *   - each pointer leads to as many entries as its length says, readable, and writable where it is not const;
 *   - a table that is not const overlaps no other table of the same call;
 *   - no other thread writes a table while a call reads it, or reads or writes a table that the call may write.
 * The pointer of a table of length 0 is not followed. A cell, lent as a pointer alone, is a table of one entry.
 */
#ifndef NIQASTUL_H
#define NIQASTUL_H

#include <stddef.h>
#include <stdint.h>

#ifdef __cplusplus
extern "C" {
#endif

/* The version that this header belongs to, as text and as numbers. */
#define NIQASTUL_VERSION "0.8.0"
#define NIQASTUL_VERSION_MAJOR 0
#define NIQASTUL_VERSION_MINOR 8
#define NIQASTUL_VERSION_PATCH 0

#define NIQASTUL_ABSENT UINT32_C(0xFFFFFFFF) /* for no rank: no parent, none that moved, none in a separator */
#define NIQASTUL_STRIDE 3 /* the numbers to an edge in a list: its ends and its rows */
#define NIQASTUL_MAX_VERTICES 1000000
#define NIQASTUL_MAX_ROWS 6 /* of an edge */
#define NIQASTUL_MAX_EDGES 16000000 /* of a list that is added, given as a net's own or indexed */
#define NIQASTUL_MAX_TOTAL 96000000 /* of the weights of a net, in rows */
#define NIQASTUL_MAX_LIMIT 96000000 /* of the weight that a group may carry, in rows */
#define NIQASTUL_MAX_BLOCKS 1000

/* The answers, in the order in which they are decided: where several refusals apply, the one that stands first here is
 * given. */
enum niqastul_answer {
    NIQASTUL_ACCEPTED = 0,
    NIQASTUL_BAD_COUNT = 1,       /* no vertex, or more than NIQASTUL_MAX_VERTICES */
    NIQASTUL_WRONG_LENGTH = 2,    /* a table of the wrong length, an edge list that is not whole edges, or no starts of
                                     an index, which then has no n */
    NIQASTUL_BAD_FILE = 6,        /* bytes that are not a file of n records */
    NIQASTUL_BAD_ORDER = 3,       /* an entry of the order is n or more, or repeats */
    NIQASTUL_BAD_LIMIT = 8,       /* a limit or a number of blocks out of range */
    NIQASTUL_UNLIKE_COUNTS = 21,  /* two nets with different numbers of vertices */
    NIQASTUL_DAMAGED = 30,        /* a net with a parent that is neither absent nor above its vertex, or with too large
                                     a total; starts of an index that do not go from 0 up to the number of its
                                     neighbours without falling */
    NIQASTUL_BAD_VERTEX = 4,      /* an edge names n or more, or a rank asked for is n or more */
    NIQASTUL_LOOP = 5,            /* both ends of an edge are one vertex */
    NIQASTUL_BAD_ROWS = 32,       /* the rows of an edge are not 1 to NIQASTUL_MAX_ROWS; 4, 5 or 32 is that of the first
                                     faulty edge, and of that edge the first in this order */
    NIQASTUL_BAD_PARENT = 7,      /* a record's parent is neither absent nor above its vertex */
    NIQASTUL_FULL = 20,           /* a list of more than NIQASTUL_MAX_EDGES edges, or a total above
                                     NIQASTUL_MAX_TOTAL */
    NIQASTUL_TOO_HEAVY = 22,      /* a weight above the limit, so that no cutting can hold it */
    NIQASTUL_OTHER_EDGES = 23,    /* edges that have other parents or weights than the net */
    NIQASTUL_RELATED = 31         /* the two ranks are equal, or one stands above the other */
};

/* What an answer says, in a few words for a message. */
static inline const char *niqastul_text(uint32_t answer)
{
    switch (answer) {
    case NIQASTUL_ACCEPTED: return "accepted";
    case NIQASTUL_BAD_COUNT: return "no vertex, or more than 1,000,000";
    case NIQASTUL_WRONG_LENGTH: return "a table of the wrong length, or an edge list that is not whole edges";
    case NIQASTUL_BAD_FILE: return "not whole records, or not as many as the net has vertices";
    case NIQASTUL_BAD_ORDER: return "an entry of the order is out of range or repeats";
    case NIQASTUL_BAD_LIMIT: return "a limit or a number of blocks out of range";
    case NIQASTUL_UNLIKE_COUNTS: return "two nets with different numbers of vertices";
    case NIQASTUL_DAMAGED: return "a net or an index whose tables are damaged";
    case NIQASTUL_BAD_VERTEX: return "an edge or a query names a vertex out of range";
    case NIQASTUL_LOOP: return "both ends of an edge are one vertex";
    case NIQASTUL_BAD_ROWS: return "the rows of an edge are not 1 to 6";
    case NIQASTUL_BAD_PARENT: return "a record's parent is neither absent nor above its vertex";
    case NIQASTUL_FULL: return "more than 16,000,000 edges in a list, or 96,000,000 rows in all";
    case NIQASTUL_TOO_HEAVY: return "a weight above the limit";
    case NIQASTUL_OTHER_EDGES: return "the edges are not those of the net";
    case NIQASTUL_RELATED: return "the two ranks are equal, or one stands above the other";
    default: return "unknown answer";
    }
}

/* RELABEL an edge list from vertex numbers to ranks, by an order: the vertex order[r] has rank r.
 *   reads   order   [n]        each of 0 to n-1 once
 *           edges   [3m]       in vertex numbers
 *   writes  out     [3m]       the same edges in ranks, with their rows
 *           inverse [n]        work; left holding the rank of each vertex, by its number
 *   refused 1, 2, 3, then 4, 5 or 32 at the first faulty edge (in vertex numbers). There is no limit on the number of
 *           edges. */
uint32_t niqastul_relabel(const uint32_t *order, size_t order_length,
                          const uint32_t *edges, size_t edges_length,
                          uint32_t *out, size_t out_length,
                          uint32_t *inverse, size_t inverse_length);

/* START a net with no edges, whatever its tables held: every parent NIQASTUL_ABSENT, every weight 0.
 *   writes  parents [n], weights [n]
 *   refused 1, 2 */
uint32_t niqastul_start(uint32_t *parents, size_t parents_length,
                        uint32_t *weights, size_t weights_length);

/* ADD edges to a net, as a whole or not at all. The parents become those of the elimination game on the links of the
 * old forest and the new edges; each edge raises the weight of its lower end by its rows.
 *   reads   edges   [3m]       in ranks
 *   writes  parents [n], weights [n]
 *           ends [n], jump [n], lower [n+m]      work; left as zeros
 *           *moved             where the forest moved, or NIQASTUL_ABSENT
 *   refused 1, 2, 30, then 4, 5 or 32 at the first faulty edge, 20 (more than NIQASTUL_MAX_EDGES edges in the list, or
 *           more than NIQASTUL_MAX_TOTAL of the old total and the rows of the list together) */
uint32_t niqastul_add(uint32_t *parents, size_t parents_length,
                      uint32_t *weights, size_t weights_length,
                      const uint32_t *edges, size_t edges_length,
                      uint32_t *ends, size_t ends_length,
                      uint32_t *jump, size_t jump_length,
                      uint32_t *lower, size_t lower_length,
                      uint32_t *moved);

static inline size_t niqastul_add_lower(size_t parents_length, size_t edges_length)
{
    return parents_length + edges_length / NIQASTUL_STRIDE;
}

/* JOIN a second net, which stays as it is, into a first. The parents become those of the elimination game on the links
 * of both, which are those of the edges of both together; the weights are summed.
 *   reads   other_parents [n], other_weights [n]
 *   writes  parents [n], weights [n]
 *           ends [n], jump [n], lower [n + the other net's n]     work; left as zeros
 *           *moved             where the forest moved, or NIQASTUL_ABSENT
 *   refused 1 (of either net), 2 (each net's weights against its own parents, lower against the sum of both vertex
 *           counts, also where they differ: 2 comes before 21), 21, 30 (of either net), 20 (both totals together) */
uint32_t niqastul_join(uint32_t *parents, size_t parents_length,
                       uint32_t *weights, size_t weights_length,
                       const uint32_t *other_parents, size_t other_parents_length,
                       const uint32_t *other_weights, size_t other_weights_length,
                       uint32_t *ends, size_t ends_length,
                       uint32_t *jump, size_t jump_length,
                       uint32_t *lower, size_t lower_length,
                       uint32_t *moved);

static inline size_t niqastul_join_lower(size_t parents_length, size_t other_parents_length)
{
    return parents_length + other_parents_length;
}

/* SAVE a net as bytes: a record of 8 bytes for each vertex, its parent and its weight, little-endian 32-bit numbers.
 *   reads   parents [n], weights [n]
 *   writes  bytes   [niqastul_bytes(n)]
 *   refused 1, 2, 30 */
uint32_t niqastul_save(const uint32_t *parents, size_t parents_length,
                       const uint32_t *weights, size_t weights_length,
                       uint8_t *bytes, size_t bytes_length);

/* READ a net from the bytes of a save, whatever its tables held.
 *   reads   bytes   [niqastul_bytes(n)]
 *   writes  parents [n], weights [n]
 *   refused 1, 2, 6 (bytes of any other length), 7, 20 */
uint32_t niqastul_read(uint32_t *parents, size_t parents_length,
                       uint32_t *weights, size_t weights_length,
                       const uint8_t *bytes, size_t bytes_length);

static inline size_t niqastul_bytes(size_t parents_length)
{
    return 8 * parents_length;
}

/* DIVIDE a net into groups that carry at most a limit, 1 to NIQASTUL_MAX_LIMIT, and pack the groups into blocks, 1 to
 * NIQASTUL_MAX_BLOCKS. A vertex carries its weight and what its children carry that are not cut off; while that is
 * above the limit, the child that carries most is cut off, of equals the lowest. A group is what stays connected, its
 * top its highest vertex. Groups go by rising top into the block with the least load so far, of equals the lowest. No
 * block then has more than (total + (blocks - 1) * limit) / blocks.
 *   reads   parents [n], weights [n]
 *   writes  carried [n]        what each vertex carries; at a top, the weight of its group
 *           top     [n]        the top of each vertex's group; a vertex that is its own top and has a parent is cut off
 *                              from it
 *           block   [n]        the block of each vertex, from 0
 *           block_loads [blocks]      the load of each block
 *   refused 1, 2 (block_loads against the number of blocks as given), 8, 30, 22 */
uint32_t niqastul_divide(const uint32_t *parents, size_t parents_length,
                         const uint32_t *weights, size_t weights_length,
                         uint32_t limit,
                         uint32_t blocks,
                         uint32_t *carried, size_t carried_length,
                         uint32_t *top, size_t top_length,
                         uint32_t *block, size_t block_length,
                         uint32_t *block_loads, size_t block_loads_length);

/* REPORT what a division costs: divides a net as niqastul_divide does and, given the net's own edges in any order,
 * writes what the blocks have to tell each other. An edge belongs to the block of its lower end. The blocks of a vertex
 * are counted along its edges, in the order of the list: up to and with the first edge by which all blocks are met, or
 * to the last edge if they never are. In another order a vertex may take more or fewer edges; edge_blocks goes along
 * with the list, and everything else stays the same.
 *   reads   parents [n], weights [n]
 *           edges   [3m]       in ranks
 *   writes  carried [n], top [n], block [n], block_loads [blocks]      as niqastul_divide
 *           edge_blocks [m]    the block of each edge
 *           reach   [n]        the number of vertices above a vertex that have an edge to it or to a vertex that it is
 *                              above
 *           block_count [n]    the number of different blocks among the edges of a vertex
 *           edges_taken [n]    how many of its edges that count took, 0 if it has none
 *           compared_parents [n], compared_weights [n]       end holding the net of the edges
 *           ends [n], jump [n], lower [n+m]      work; left as zeros
 *           *bound             the sum of the reaches of the vertices that are cut off
 *           *volume            the sum of (block_count - 1) over the vertices with an edge, never above the bound
 *           *quotient, *remainder     the even share: the total of the weights divided by blocks. quotient * blocks +
 *                              remainder is the total, and remainder is below blocks
 *   refused 1, 2 (block_loads against the number of blocks as given), 8, 30 (of the net), then 4, 5 or 32 at the first
 *           faulty edge, 20 (more than NIQASTUL_MAX_EDGES edges), 22, 23
 * The exception: refused with 23, it leaves the net of the edges in compared_parents and compared_weights, and zeros in
 * the work tables. */
uint32_t niqastul_report(const uint32_t *parents, size_t parents_length,
                         const uint32_t *weights, size_t weights_length,
                         uint32_t limit,
                         uint32_t blocks,
                         const uint32_t *edges, size_t edges_length,
                         uint32_t *carried, size_t carried_length,
                         uint32_t *top, size_t top_length,
                         uint32_t *block, size_t block_length,
                         uint32_t *block_loads, size_t block_loads_length,
                         uint32_t *edge_blocks, size_t edge_blocks_length,
                         uint32_t *reach, size_t reach_length,
                         uint32_t *block_count, size_t block_count_length,
                         uint32_t *edges_taken, size_t edges_taken_length,
                         uint32_t *compared_parents, size_t compared_parents_length,
                         uint32_t *compared_weights, size_t compared_weights_length,
                         uint32_t *ends, size_t ends_length,
                         uint32_t *jump, size_t jump_length,
                         uint32_t *lower, size_t lower_length,
                         uint64_t *bound,
                         uint64_t *volume,
                         uint32_t *quotient,
                         uint32_t *remainder);

/* SEPARATE two vertices of which neither stands above the other: lists the vertices that stand above both, given the
 * net's own edges in any order. A vertex stands above another if it is reached from it by one or more parents. Every
 * walk along edges from one to the other passes a vertex of the separator. With a count of 0 there is no walk: the two
 * are in separate trees.
 *   reads   parents [n], weights [n]
 *           one, other         ranks
 *           edges   [3m]       in ranks
 *   writes  separator [n]      its first *count entries: the vertices above both, by rising rank; the rest is as it was
 *           compared_parents [n], compared_weights [n]       end holding the net of the edges
 *           ends [n], jump [n], lower [n+m]      work; left as zeros
 *           *count             how many vertices stand above both
 *           *lowest            the lowest of them, or NIQASTUL_ABSENT if there are none
 *   refused 1, 2, 30 (of the net), 4 (one or other is n or more, before any edge is looked at), then 4, 5 or 32 at the
 *           first faulty edge, 20 (more than NIQASTUL_MAX_EDGES edges), 23, 31
 * The exception: refused with 23 or 31, it leaves the net of the edges in compared_parents and compared_weights, and
 * zeros in the work tables. */
uint32_t niqastul_separate(const uint32_t *parents, size_t parents_length,
                           const uint32_t *weights, size_t weights_length,
                           uint32_t one,
                           uint32_t other,
                           const uint32_t *edges, size_t edges_length,
                           uint32_t *separator, size_t separator_length,
                           uint32_t *compared_parents, size_t compared_parents_length,
                           uint32_t *compared_weights, size_t compared_weights_length,
                           uint32_t *ends, size_t ends_length,
                           uint32_t *jump, size_t jump_length,
                           uint32_t *lower, size_t lower_length,
                           uint32_t *count,
                           uint32_t *lowest);

/* INDEX an edge list, given in two parts, an old list and an added one: the index is that of the old edges followed by
 * the added ones, as one list would give it. Each edge stands in the runs of both its ends. No index of the old edges
 * is needed, and what the two tables held before does not matter.
 *   reads   old_edges, added   [3m together], in ranks, each whole edges; either may be empty
 *   writes  starts [n+1], neighbours [2m]
 *   refused 2 (no starts), 1, 2, then 4, 5 or 32 at the first faulty edge, the old before the added, 20 (more than
 *           NIQASTUL_MAX_EDGES edges, old and added together) */
uint32_t niqastul_index(const uint32_t *old_edges, size_t old_edges_length,
                        const uint32_t *added, size_t added_length,
                        uint32_t *starts, size_t starts_length,
                        uint32_t *neighbours, size_t neighbours_length);

static inline size_t niqastul_index_neighbours(size_t old_edges_length, size_t added_length)
{
    return 2 * (old_edges_length / NIQASTUL_STRIDE + added_length / NIQASTUL_STRIDE);
}

/* QUERY an index for the run of a rank: neighbours[*first] and what follows, *count entries in all. It tests all
 * starts, and reads no neighbour.
 *   reads   starts [n+1]
 *           neighbours         of any length
 *   writes  *first             where the run starts
 *           *count             how many neighbours it has
 *   refused 2 (no starts), 1, 30, 4 (a rank of n or more). The exception: refused, it leaves 0 in both cells, an empty
 *           part. */
uint32_t niqastul_query(const uint32_t *starts, size_t starts_length,
                        const uint32_t *neighbours, size_t neighbours_length,
                        uint32_t rank,
                        uint64_t *first,
                        uint64_t *count);

/* THE CALLS OVER STRUCTS. From here on, tables that belong together are one struct, and each call above has a function
 * that takes structs. A program that uses them does not list tables: if a later version has more of them, it is
 * compiled again, not edited. Nor can it exchange two structs: passing the wrong kind does not compile.
 *
 * MAKING. niqastul_X_size says how many bytes the tables of a struct need together, and niqastul_X_in lays them into
 * memory of that size, end to end in the order of the fields, so that the first one begins where the memory does:
 *     struct niqastul_net net = niqastul_net_in(malloc(niqastul_net_size(n)), n);
 * The memory is the caller's: any that is aligned for uint32_t, as that of malloc is, whatever it holds. It is not
 * tested for a null pointer. The fields may also be set by hand, to tables that lie anywhere.
 *
 * CALLING. niqastul_X_CALL passes the tables on to niqastul_CALL, in the order of its parameters, and returns its
 * answer. What is said of niqastul_CALL holds. Structs are passed by value: a call writes tables, never a field of
 * them. Structs that do not fit each other are refused (2), such as a division of more vertices than the net has. */

/* An elimination order. */
struct niqastul_order {
    const uint32_t *list; /* the vertex of each rank */
    size_t length;        /* n */
};

/* An edge list. */
struct niqastul_edges {
    const uint32_t *list; /* NIQASTUL_STRIDE numbers to an edge */
    size_t length;        /* of the list, not the number of edges */
};

/* A net. */
struct niqastul_net {
    uint32_t *parents; /* [vertices] */
    uint32_t *weights; /* [vertices] */
    size_t vertices;   /* n */
};

/* Room for the work tables of a call. It may be longer than the call needs, and then its front is used. If it is
 * shorter, the call is refused (2). */
struct niqastul_work {
    uint32_t *room;
    size_t length; /* the number of entries */
};

/* What niqastul_divide writes. */
struct niqastul_division {
    uint32_t *carried;     /* [vertices] */
    uint32_t *top;         /* [vertices] */
    uint32_t *block;       /* [vertices] */
    uint32_t *block_loads; /* [blocks] */
    size_t vertices;
    uint32_t blocks; /* the number of blocks to divide into */
};

/* What niqastul_report writes. */
struct niqastul_report_tables {
    struct niqastul_division division;
    uint32_t *edge_blocks;        /* [edges] */
    uint32_t *reach;              /* [division.vertices] */
    uint32_t *block_count;        /* [division.vertices] */
    uint32_t *edges_taken;        /* [division.vertices] */
    struct niqastul_net compared; /* the net of the edges */
    size_t edges;                 /* the number of edges */
};

/* What it answers in cells. */
struct niqastul_totals {
    uint64_t bound, volume;
    uint32_t quotient, remainder;
};

/* What niqastul_separate writes. */
struct niqastul_separate_tables {
    uint32_t *separator;          /* [compared.vertices] */
    struct niqastul_net compared; /* the net of the edges */
};

/* What it answers in cells. */
struct niqastul_separator {
    uint32_t count, lowest;
};

/* An index. */
struct niqastul_index_tables {
    uint32_t *starts;     /* [vertices + 1] */
    uint32_t *neighbours; /* [length] */
    size_t vertices;      /* n */
    size_t length;        /* the number of entries of all runs */
};

/* What niqastul_query answers in cells: where a run begins, and how many neighbours it has. */
struct niqastul_run {
    uint64_t first, count;
};

/* A net of so many vertices. */
static inline size_t niqastul_net_size(size_t vertices)
{
    return 2 * vertices * sizeof(uint32_t);
}

static inline struct niqastul_net niqastul_net_in(void *memory, size_t vertices)
{
    struct niqastul_net its;
    its.parents = (uint32_t *)memory;
    its.weights = its.parents + vertices;
    its.vertices = vertices;
    return its;
}

/* Room for every call on a net, if no list is longer than this one, and a net that is joined has as many vertices. */
static inline size_t niqastul_work_size(struct niqastul_net net, struct niqastul_edges longest)
{
    size_t add = niqastul_add_lower(net.vertices, longest.length);
    size_t join = niqastul_join_lower(net.vertices, net.vertices);
    return (2 * net.vertices + (add < join ? join : add)) * sizeof(uint32_t);
}

static inline struct niqastul_work niqastul_work_in(void *memory, struct niqastul_net net,
                                                    struct niqastul_edges longest)
{
    struct niqastul_work its;
    its.room = (uint32_t *)memory;
    its.length = niqastul_work_size(net, longest) / sizeof(uint32_t);
    return its;
}

/* A division of a net into so many blocks. */
static inline size_t niqastul_division_size(struct niqastul_net net, uint32_t blocks)
{
    return (3 * net.vertices + blocks) * sizeof(uint32_t);
}

static inline struct niqastul_division niqastul_division_in(void *memory, struct niqastul_net net, uint32_t blocks)
{
    struct niqastul_division its;
    its.carried = (uint32_t *)memory;
    its.top = its.carried + net.vertices;
    its.block = its.top + net.vertices;
    its.block_loads = its.block + net.vertices;
    its.vertices = net.vertices;
    its.blocks = blocks;
    return its;
}

/* The tables of a report on a net with these edges, divided into so many blocks. */
static inline size_t niqastul_report_size(struct niqastul_net net, uint32_t blocks, struct niqastul_edges edges)
{
    size_t entries = edges.length / NIQASTUL_STRIDE + 3 * net.vertices;
    return niqastul_division_size(net, blocks) + entries * sizeof(uint32_t) + niqastul_net_size(net.vertices);
}

static inline struct niqastul_report_tables niqastul_report_in(void *memory, struct niqastul_net net, uint32_t blocks,
                                                               struct niqastul_edges edges)
{
    struct niqastul_report_tables its;
    its.edges = edges.length / NIQASTUL_STRIDE;
    its.division = niqastul_division_in(memory, net, blocks);
    its.edge_blocks = its.division.block_loads + blocks;
    its.reach = its.edge_blocks + its.edges;
    its.block_count = its.reach + net.vertices;
    its.edges_taken = its.block_count + net.vertices;
    its.compared = niqastul_net_in(its.edges_taken + net.vertices, net.vertices);
    return its;
}

/* The tables of a separation in a net. */
static inline size_t niqastul_separate_size(struct niqastul_net net)
{
    return net.vertices * sizeof(uint32_t) + niqastul_net_size(net.vertices);
}

static inline struct niqastul_separate_tables niqastul_separate_in(void *memory, struct niqastul_net net)
{
    struct niqastul_separate_tables its;
    its.separator = (uint32_t *)memory;
    its.compared = niqastul_net_in(its.separator + net.vertices, net.vertices);
    return its;
}

/* The tables of an index of so many vertices and of two lists. */
static inline size_t niqastul_index_size(size_t vertices, struct niqastul_edges old_edges, struct niqastul_edges added)
{
    return (vertices + 1 + niqastul_index_neighbours(old_edges.length, added.length)) * sizeof(uint32_t);
}

static inline struct niqastul_index_tables niqastul_index_in(void *memory, size_t vertices,
                                                             struct niqastul_edges old_edges,
                                                             struct niqastul_edges added)
{
    struct niqastul_index_tables its;
    its.starts = (uint32_t *)memory;
    its.neighbours = its.starts + vertices + 1;
    its.vertices = vertices;
    its.length = niqastul_index_neighbours(old_edges.length, added.length);
    return its;
}

/* For the functions below: the work tables of a call, at the front of the room. If that is too short, they have no
 * entries, and the call is refused. */
struct niqastul_work_tables {
    uint32_t *ends, *jump, *lower;
    size_t vertices, lower_length;
};

static inline struct niqastul_work_tables niqastul_work_cut(struct niqastul_work work, size_t vertices,
                                                            size_t lower_length)
{
    struct niqastul_work_tables its;
    int fits = vertices <= work.length / 2 && lower_length <= work.length - 2 * vertices;
    its.vertices = fits ? vertices : 0;
    its.lower_length = fits ? lower_length : 0;
    its.ends = work.room;
    its.jump = its.ends + its.vertices;
    its.lower = its.jump + its.vertices;
    return its;
}

/* out has as many entries as the list. The inverse is at the front of the work. */
static inline uint32_t niqastul_order_relabel(struct niqastul_order order, struct niqastul_edges edges, uint32_t *out,
                                              struct niqastul_work work)
{
    return niqastul_relabel(order.list, order.length, edges.list, edges.length, out, edges.length,
                            work.room, order.length <= work.length ? order.length : 0);
}

static inline uint32_t niqastul_net_start(struct niqastul_net net)
{
    return niqastul_start(net.parents, net.vertices, net.weights, net.vertices);
}

static inline uint32_t niqastul_net_add(struct niqastul_net net, struct niqastul_edges edges, struct niqastul_work work,
                                        uint32_t *moved)
{
    struct niqastul_work_tables lent =
        niqastul_work_cut(work, net.vertices, niqastul_add_lower(net.vertices, edges.length));
    return niqastul_add(net.parents, net.vertices, net.weights, net.vertices, edges.list, edges.length,
                        lent.ends, lent.vertices, lent.jump, lent.vertices, lent.lower, lent.lower_length, moved);
}

static inline uint32_t niqastul_net_join(struct niqastul_net net, struct niqastul_net other, struct niqastul_work work,
                                         uint32_t *moved)
{
    struct niqastul_work_tables lent =
        niqastul_work_cut(work, net.vertices, niqastul_join_lower(net.vertices, other.vertices));
    return niqastul_join(net.parents, net.vertices, net.weights, net.vertices,
                         other.parents, other.vertices, other.weights, other.vertices,
                         lent.ends, lent.vertices, lent.jump, lent.vertices, lent.lower, lent.lower_length, moved);
}

static inline uint32_t niqastul_net_save(struct niqastul_net net, uint8_t *bytes, size_t bytes_length)
{
    return niqastul_save(net.parents, net.vertices, net.weights, net.vertices, bytes, bytes_length);
}

static inline uint32_t niqastul_net_read(struct niqastul_net net, const uint8_t *bytes, size_t bytes_length)
{
    return niqastul_read(net.parents, net.vertices, net.weights, net.vertices, bytes, bytes_length);
}

static inline uint32_t niqastul_net_divide(struct niqastul_net net, uint32_t limit, struct niqastul_division division)
{
    return niqastul_divide(net.parents, net.vertices, net.weights, net.vertices, limit, division.blocks,
                           division.carried, division.vertices, division.top, division.vertices,
                           division.block, division.vertices, division.block_loads, division.blocks);
}

static inline uint32_t niqastul_net_report(struct niqastul_net net, uint32_t limit, struct niqastul_edges edges,
                                           struct niqastul_report_tables tables, struct niqastul_work work,
                                           struct niqastul_totals *totals)
{
    struct niqastul_division its = tables.division;
    struct niqastul_work_tables lent =
        niqastul_work_cut(work, net.vertices, niqastul_add_lower(net.vertices, edges.length));
    return niqastul_report(net.parents, net.vertices, net.weights, net.vertices, limit, its.blocks,
                           edges.list, edges.length, its.carried, its.vertices, its.top, its.vertices,
                           its.block, its.vertices, its.block_loads, its.blocks, tables.edge_blocks, tables.edges,
                           tables.reach, its.vertices, tables.block_count, its.vertices,
                           tables.edges_taken, its.vertices, tables.compared.parents, tables.compared.vertices,
                           tables.compared.weights, tables.compared.vertices,
                           lent.ends, lent.vertices, lent.jump, lent.vertices, lent.lower, lent.lower_length,
                           &totals->bound, &totals->volume, &totals->quotient, &totals->remainder);
}

static inline uint32_t niqastul_net_separate(struct niqastul_net net, uint32_t one, uint32_t other,
                                             struct niqastul_edges edges, struct niqastul_separate_tables tables,
                                             struct niqastul_work work, struct niqastul_separator *separator)
{
    struct niqastul_net compared = tables.compared;
    struct niqastul_work_tables lent =
        niqastul_work_cut(work, net.vertices, niqastul_add_lower(net.vertices, edges.length));
    return niqastul_separate(net.parents, net.vertices, net.weights, net.vertices, one, other,
                             edges.list, edges.length, tables.separator, compared.vertices,
                             compared.parents, compared.vertices, compared.weights, compared.vertices,
                             lent.ends, lent.vertices, lent.jump, lent.vertices, lent.lower, lent.lower_length,
                             &separator->count, &separator->lowest);
}

static inline uint32_t niqastul_index_build(struct niqastul_edges old_edges, struct niqastul_edges added,
                                            struct niqastul_index_tables index)
{
    return niqastul_index(old_edges.list, old_edges.length, added.list, added.length,
                          index.starts, index.vertices + 1, index.neighbours, index.length);
}

static inline uint32_t niqastul_index_query(struct niqastul_index_tables index, uint32_t rank, struct niqastul_run *run)
{
    return niqastul_query(index.starts, index.vertices + 1, index.neighbours, index.length, rank,
                          &run->first, &run->count);
}

#ifdef __cplusplus
}
#endif

#endif

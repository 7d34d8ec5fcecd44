/* The elimination forest of a graph whose edges are spread over processes: each grows the net of its share, and a join
 * is the operation by which MPI_Reduce puts them together. The link file has the same bytes for any number of
 * processes, since a joined net is the net of all edges, whatever the order.
 *
 *     mpicc parts.c $(pkg-config --cflags --libs niqastul) -o parts        after make install
 *     mpirun -n 4 ./parts marks.ord ties.rec forest.link
 *
 * The first two files hold little-endian 32-bit numbers: the vertices of the order; two vertices and the rows of each
 * edge. */
#include <mpi.h>
#include <niqastul.h>
#include <stdio.h>
#include <stdlib.h>

static int process, processes;
static size_t n;                  /* the number of vertices */
static struct niqastul_work work; /* for all calls of this process */
static uint32_t moved;            /* where a forest moved: of use to a program that has read it before */

static void *room(size_t bytes)
{
    void *space = calloc(bytes + 1, 1);
    if (!space) {
        perror("room");
        MPI_Abort(MPI_COMM_WORLD, 2);
    }
    return space;
}

static FILE *opened(const char *path, const char *mode)
{
    FILE *file = fopen(path, mode);
    if (!file) {
        perror(path);
        MPI_Abort(MPI_COMM_WORLD, 2);
    }
    return file;
}

/* The numbers in one of so many equal parts of a file of records, and how many records it has in all. */
static uint32_t *numbers(const char *path, size_t record, int part, int parts, size_t *length, size_t *records)
{
    FILE *file = opened(path, "rb");
    fseek(file, 0, SEEK_END);
    *records = (size_t)ftell(file) / record;
    size_t from = *records * (size_t)part / (size_t)parts, to = *records * (size_t)(part + 1) / (size_t)parts;
    uint32_t *entries = room((to - from) * record);
    fseek(file, (long)(from * record), SEEK_SET);
    *length = fread(entries, 4, (to - from) * record / 4, file);
    fclose(file);
    return entries;
}

/* Ends all processes if one was refused. The lowest of those counts: it has the first of the faulty edges. */
static void agree(uint32_t answer)
{
    uint64_t mine = answer ? (uint64_t)process << 32 | answer : UINT64_MAX, first;
    MPI_Allreduce(&mine, &first, 1, MPI_UINT64_T, MPI_MIN, MPI_COMM_WORLD);
    if (first == UINT64_MAX)
        return;
    if (process == 0)
        printf("refused %u: %s\n", (uint32_t)first, niqastul_text((uint32_t)first));
    MPI_Finalize();
    exit(1);
}

/* The reduction. A net travels as the memory that its tables lie in. */
static void join(void *others, void *nets, int *count, MPI_Datatype *type)
{
    (void)type;
    char *net = nets, *other = others;
    for (int i = 0; i < *count; i++, net += niqastul_net_size(n), other += niqastul_net_size(n))
        if (niqastul_net_join(niqastul_net_in(net, n), niqastul_net_in(other, n), work, &moved))
            MPI_Abort(MPI_COMM_WORLD, 2); /* cannot be: the nets are sound, and the total was looked at */
}

static void reduce(void *net)
{
    MPI_Datatype type;
    MPI_Op joined;
    MPI_Type_contiguous((int)(niqastul_net_size(n) / 4), MPI_UINT32_T, &type);
    MPI_Type_commit(&type);
    MPI_Op_create(join, 1, &joined);
    MPI_Reduce(process == 0 ? MPI_IN_PLACE : net, net, 1, type, joined, 0, MPI_COMM_WORLD);
    MPI_Op_free(&joined);
    MPI_Type_free(&type);
}

static void write_links(const char *path, struct niqastul_net net)
{
    size_t length = niqastul_bytes(n);
    uint8_t *bytes = room(length);
    if (niqastul_net_save(net, bytes, length))
        MPI_Abort(MPI_COMM_WORLD, 2);
    FILE *links = opened(path, "wb");
    if (fwrite(bytes, 1, length, links) != length || fclose(links))
        MPI_Abort(MPI_COMM_WORLD, 2);
    free(bytes);
}

int main(int count, char **files)
{
    MPI_Init(&count, &files);
    MPI_Comm_rank(MPI_COMM_WORLD, &process);
    MPI_Comm_size(MPI_COMM_WORLD, &processes);
    if (count != 4) {
        if (process == 0)
            fprintf(stderr, "usage: parts ORDER EDGES LINKS\n");
        MPI_Finalize();
        return 2;
    }
    size_t m, vertices, total;
    uint32_t *vertex = numbers(files[1], 4, 0, 1, &n, &vertices);
    uint32_t *list = numbers(files[2], 4 * NIQASTUL_STRIDE, process, processes, &m, &total), *ranks = room(4 * m);
    struct niqastul_order order = {vertex, n};
    struct niqastul_edges numbered = {list, m}, edges = {ranks, m};
    void *memory = room(niqastul_net_size(n));
    struct niqastul_net net = niqastul_net_in(memory, n);
    work = niqastul_work_in(room(niqastul_work_size(net, edges)), net, edges);

    agree(niqastul_order_relabel(order, numbered, ranks, work));
    /* as one call would be: so many edges have at most NIQASTUL_MAX_TOTAL rows, and no join is refused */
    agree(total > NIQASTUL_MAX_EDGES ? NIQASTUL_FULL : NIQASTUL_ACCEPTED);
    agree(niqastul_net_start(net));
    agree(niqastul_net_add(net, edges, work, &moved));
    reduce(memory);
    if (process == 0)
        write_links(files[3], net);
    free(vertex), free(list), free(ranks), free(memory), free(work.room);
    MPI_Finalize();
    return 0;
}

/* The lines of docs/USING.md that make communicators of groups, run for each node of a plan in turn. There is no MPI here: what stands in
 * for MPI_Comm_split notes what it was asked for. */
#include "firrozka.h"
#include <stdio.h>

typedef int MPI_Comm;
enum { MPI_COMM_NULL = -1, MPI_UNDEFINED = -2 };
enum { NODES = 5 };

/* What each node asked for, in the even colour and then in the odd. */
struct asked {
    int colour, key;
};
static struct asked asked[2][NODES];
static int calls;

/* Every node is asked in turn, and makes two calls. */
static int MPI_Comm_split(MPI_Comm comm, int colour, int key, MPI_Comm *group)
{
    asked[calls % 2][calls / 2] = (struct asked){colour, key};
    calls++;
    *group = colour == MPI_UNDEFINED ? MPI_COMM_NULL : comm + colour;
    return 0;
}

static uint32_t word(const uint8_t *record, size_t k)
{
    const uint8_t *b = record + 4 * k;
    return b[0] | (uint32_t)b[1] << 8 | (uint32_t)b[2] << 16 | (uint32_t)b[3] << 24;
}

#include "split.c"

static uint32_t communicators(const uint8_t *plan, struct firrozka_step step, MPI_Comm nodes, int node, MPI_Comm made[2])
{
#include "two_calls.c"
    made[0] = even;
    made[1] = odd;
    return FIRROZKA_ACCEPTED;
}

/* The rank of a node in its group: how many others come before it. */
static int rank(int colour, int node)
{
    int before = 0;
    for (int k = 0; k < NODES; k++)
        before += asked[colour][k].colour == asked[colour][node].colour && asked[colour][k].key < asked[colour][node].key;
    return before;
}

int main(void)
{
    /* Nodes 0 and 2 help node 1, and nodes 3 and 4 help node 0. */
    static const uint32_t words[] = {NODES, 2, 36, 1, 1, 1, 0, 0, 20, 0, 15, 12, 9};
    static const int groups[2][NODES] = {{1, 1, 1, -1, -1}, {0, -1, -1, 0, 0}};
    static const int ranks[2][NODES] = {{1, 0, 2, -1, -1}, {0, -1, -1, 1, 2}};
    const int world = 100;
    uint8_t plan[sizeof words];
    for (size_t i = 0; i < sizeof plan; i++)
        plan[i] = (uint8_t)(words[i / 4] >> i % 4 * 8);
    struct firrozka_step step = {0, 2, 36, sizeof plan, 0};
    int wrong = 0;
    MPI_Comm made[NODES][2];
    for (int node = 0; node < NODES; node++)
        wrong += communicators(plan, step, world, node, made[node]) != FIRROZKA_ACCEPTED;
    for (int colour = 0; colour < 2; colour++)
        for (int node = 0; node < NODES; node++) {
            int owner = groups[colour][node];
            wrong += made[node][colour] != (owner < 0 ? MPI_COMM_NULL : world + owner);
            wrong += owner >= 0 && rank(colour, node) != ranks[colour][node];
        }
    if (wrong || calls != 2 * NODES) {
        fprintf(stderr, "communicators: %d are wrong, after %d calls\n", wrong, calls);
        return 1;
    }
    return 0;
}

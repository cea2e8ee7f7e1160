/* Twelve steps of a small simulation: in each the inlet's particles are joined with the resident ones, and the step is planned beside the
 * plan of the step before and carried out. */
#include <inttypes.h>
#include <stdio.h>
#include <string.h>
#include "firrozka.h"

/* The tolerance is in tenths of a percent. */
enum { NODES = 5, TOLERANCE = 100, STEPS = 12 };

/* How many particles of each subdomain each node holds: held[node][subdomain]. */
static uint32_t held[NODES][NODES];

static uint8_t resident[FIRROZKA_SHEET_BYTES], inlet[FIRROZKA_SHEET_BYTES], sheet[FIRROZKA_SHEET_BYTES], next[FIRROZKA_SHEET_BYTES];
static uint8_t moves[FIRROZKA_MOVES_BYTES];
static uint8_t plans[2][FIRROZKA_PLAN_BYTES];

/* A word is 4 bytes, low byte first. */
static void put_word(uint8_t *record, size_t place, uint32_t word)
{
    for (int i = 0; i < 4; i++)
        record[4 * place + i] = (uint8_t)(word >> (8 * i));
}

static uint32_t word(const uint8_t *record, size_t place)
{
    uint32_t value = 0;
    for (int i = 3; i >= 0; i--)
        value = value << 8 | record[4 * place + i];
    return value;
}

/* A quarter of each count crosses into the next subdomain. */
static void flow(void)
{
    for (int k = 0; k < NODES; k++) {
        uint32_t crossing[NODES];
        for (int n = 0; n < NODES; n++)
            crossing[n] = held[k][n] / 4;
        for (int n = 0; n < NODES; n++) {
            held[k][n] -= crossing[n];
            held[k][(n + 1) % NODES] += crossing[n];
        }
    }
}

/* Writes the three sizes of a sheet with e cells, and gives its length in bytes. */
static size_t put_sizes(uint8_t *record, uint32_t e)
{
    put_word(record, 0, NODES);
    put_word(record, 1, TOLERANCE);
    put_word(record, 2, e);
    return 4 * (3 + 2 * (size_t)e);
}

/* Writes the counts as a sheet, and gives its length in bytes. */
static size_t write_resident(void)
{
    uint32_t cells[NODES * NODES], e = 0;
    for (uint32_t k = 0; k < NODES; k++)
        for (uint32_t n = 0; n < NODES; n++)
            if (held[k][n] > 0)
                cells[e++] = 64 * k + n;
    for (uint32_t i = 0; i < e; i++) {
        put_word(resident, 3 + i, cells[i]);
        put_word(resident, 3 + e + i, held[cells[i] / 64][cells[i] % 64]);
    }
    return put_sizes(resident, e);
}

/* The same of what the inlet brings: 300 particles of subdomain 0 to node 0 in steps 3 to 5, and else none. */
static size_t write_inlet(int step)
{
    int open = 3 <= step && step <= 5;
    if (open) {
        put_word(inlet, 3, 0);
        put_word(inlet, 4, 300);
    }
    return put_sizes(inlet, open);
}

/* Takes the counts from a sheet. A cell that is absent counts as 0. */
static void read_counts(const uint8_t *record)
{
    uint32_t e = word(record, 2);
    memset(held, 0, sizeof held);
    for (uint32_t i = 0; i < e; i++)
        held[word(record, 3 + i) / 64][word(record, 3 + i) % 64] = word(record, 3 + e + i);
}

static void print_step(int number, struct firrozka_step step)
{
    uint32_t e = word(moves, 1), particles = 0;
    for (uint32_t i = 0; i < e; i++)
        particles += word(moves, 2 + e + i);
    printf("step %d kind %" PRIu32 " limit %" PRIu32 " moves %" PRIu32 " particles %" PRIu32 "\n", number, step.kind,
           step.limit, e, particles);
}

static void print_loads(void)
{
    printf("loads");
    for (int k = 0; k < NODES; k++) {
        uint32_t load = 0;
        for (int n = 0; n < NODES; n++)
            load += held[k][n];
        printf(" %" PRIu32, load);
    }
    printf("\n");
}

static int refused(uint32_t number)
{
    fprintf(stderr, "refused %" PRIu32 "\n", number);
    return 1;
}

int main(void)
{
    size_t old_len = 0; /* no old plan yet */
    for (int k = 0; k < NODES; k++)
        held[k][k] = 1000;
    for (int number = 1; number <= STEPS; number++) {
        /* Two buffers in turn: the plan of this step is the old plan of the next. */
        uint8_t *plan = plans[number % 2], *old_plan = plans[(number + 1) % 2];
        flow();
        size_t resident_len = write_resident(), inlet_len = write_inlet(number);
        struct firrozka_written joined = firrozka_join_sheets(resident, resident_len, inlet, inlet_len, sheet, sizeof sheet);
        if (joined.refusal)
            return refused(joined.refusal);
        struct firrozka_step step = firrozka_plan_step(sheet, joined.bytes, old_plan, old_len, plan, FIRROZKA_PLAN_BYTES,
                                                       moves, sizeof moves);
        if (step.refusal)
            return refused(step.refusal);
        print_step(number, step);
        /* Here a simulation sends the particles; the sheet that follows has the counts thereafter. */
        struct firrozka_written written = firrozka_carry_out(sheet, joined.bytes, moves, step.moves_bytes, next, sizeof next);
        if (written.refusal)
            return refused(written.refusal);
        read_counts(next);
        old_len = step.plan_bytes;
    }
    print_loads();
    return 0;
}

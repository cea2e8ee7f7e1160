/* How much stack each function of the archive takes, for docs/FORMATS.md. From the repository's root:
 *
 *     cc -O1 -Iinclude tests/stack.c target/staticlib/libfirrozka.a -lpthread -o target/stack && target/stack
 *
 * Every call runs on a thread whose stack was painted before; what is no longer painted below the caller's frame was used. The sheets
 * have 64 nodes and 4,096 cells, and the old tree is a chain, on which the calls nest deepest. */
#include "firrozka.h"
#include <pthread.h>
#include <stdio.h>
#include <stdlib.h>
#include <string.h>

enum { NODES = 64, STACK = 1 << 20, PAINT = 0xa5 };

static uint8_t sheet[FIRROZKA_SHEET_BYTES], next[FIRROZKA_SHEET_BYTES], old[FIRROZKA_PLAN_BYTES], plan[FIRROZKA_PLAN_BYTES];
static uint8_t moves[FIRROZKA_MOVES_BYTES], least[FIRROZKA_LEAST_BYTES], page[FIRROZKA_PAGE_BYTES];
static uint8_t archive[FIRROZKA_ARCHIVE_BYTES], groups[FIRROZKA_GROUPS_BYTES];
static struct firrozka_tally tally;
static struct firrozka_tallied tallied;
static size_t moves_len;
static uint32_t kind;
static uint8_t *stack, *frame;

static void put(uint8_t *record, size_t index, uint32_t word)
{
    for (int byte = 0; byte < 4; byte++)
        record[4 * index + byte] = (uint8_t)(word >> (8 * byte));
}

/* Every cell has 100, but the owner of `crowded` has `count` of it. */
static void make_sheet(uint32_t crowded, uint32_t count)
{
    put(sheet, 0, NODES);
    put(sheet, 1, 100);
    put(sheet, 2, NODES * NODES);
    for (uint32_t holder = 0; holder < NODES; holder++)
        for (uint32_t n = 0; n < NODES; n++) {
            size_t i = holder * NODES + n;
            put(sheet, 3 + i, holder * 64 + n);
            put(sheet, 3 + NODES * NODES + i, n == crowded && holder == n ? count : 100);
        }
}

/* Node k helps node k - 1. */
static void make_chain(void)
{
    put(old, 0, NODES);
    put(old, 1, FIRROZKA_REBUILT);
    put(old, 2, 0);
    for (uint32_t k = 0; k < NODES; k++) {
        put(old, 3 + k, k == 0 ? 0 : k - 1);
        put(old, 3 + NODES + k, 0);
    }
}

static void read_sheet(void) { firrozka_read_sheet(sheet, sizeof sheet); }
static void read_plan(void) { firrozka_read_plan(old, sizeof old); }
static void read_moves(void) { firrozka_read_moves(moves, moves_len); }
static void weigh(void) { firrozka_weigh(sheet, sizeof sheet, old, sizeof old, least, sizeof least); }
static void carry_out(void) { firrozka_carry_out(sheet, sizeof sheet, moves, moves_len, next, sizeof next); }
static void join_sheets(void) { firrozka_join_sheets(sheet, sizeof sheet, sheet, sizeof sheet, next, sizeof next); }
static void traffic_page(void) { firrozka_traffic_page(sheet, sizeof sheet, moves, moves_len, page, sizeof page); }
static void write_archive(void) { firrozka_write_archive(sheet, sizeof sheet, archive, sizeof archive); }
static void read_archive(void) { firrozka_read_archive(archive, sizeof archive, next, sizeof next); }
static void groups_of_chain(void) { firrozka_groups(old, sizeof old, groups, sizeof groups); }
static void open_tally(void) { tallied = firrozka_open_tally(sheet, sizeof sheet, old, sizeof old, &tally); }
static void tally_add(void) { tallied = firrozka_tally_add(&tally, NODES - 1, NODES - 1, 1); }
static void tally_remove(void) { tallied = firrozka_tally_remove(&tally, NODES - 1, NODES - 1, 1); }
static void tree_in_force(void) { firrozka_tree_in_force(old, sizeof old, plan, sizeof plan); }

static void plan_with(size_t old_len)
{
    struct firrozka_step step = firrozka_plan_step(sheet, sizeof sheet, old, old_len, plan, sizeof plan, moves, sizeof moves);
    moves_len = step.moves_bytes;
    kind = step.kind;
}
static void plan_step(void) { plan_with(sizeof old); }
static void plan_first(void) { plan_with(0); }

static void *call(void *function)
{
    frame = __builtin_frame_address(0);
    (*(void (**)(void))function)();
    return NULL;
}

static void measure(const char *name, void (*function)(void))
{
    pthread_attr_t attributes;
    pthread_t thread;
    size_t lowest = 0;
    memset(stack, PAINT, STACK);
    if (pthread_attr_init(&attributes) || pthread_attr_setstack(&attributes, stack, STACK)
        || pthread_create(&thread, &attributes, call, &function) || pthread_join(thread, NULL))
        exit(1);
    while (stack[lowest] == PAINT)
        lowest++;
    printf("%-34s %7zu bytes\n", name, (size_t)(frame - (stack + lowest)));
}

static void expect(uint32_t expected)
{
    if (kind != expected) {
        fprintf(stderr, "kind %u, expected %u\n", kind, expected);
        exit(1);
    }
}

/* The root's least is this one. */
static void expect_least(uint32_t expected)
{
    if (tallied.refusal || tally.leasts[0] != expected) {
        fprintf(stderr, "refusal %u, least %u, expected %u\n", tallied.refusal, tally.leasts[0], expected);
        exit(1);
    }
}

/* On a sheet with 6,400 particles of each subdomain and a tolerance of 0.1 percent, so that the limit is 6,406, each node of the chain has
 * a least that is 6 below that of its helper: 6,400 at the last and 6,022 at the root. A particle more at the last is felt by all. */
static void measure_tally(void)
{
    make_sheet(0, 100);
    put(sheet, 1, 1);
    measure("open tally", open_tally);
    expect_least(6022);
    measure("tally add", tally_add);
    expect_least(6023);
    measure("tally remove", tally_remove);
    expect_least(6022);
}

int main(void)
{
    stack = aligned_alloc(4096, STACK);
    if (!stack)
        return 1;
    make_chain();
    make_sheet(0, 3000);
    measure("plan a step, kept", plan_step);
    expect(FIRROZKA_KEPT);
    measure("weigh", weigh);
    measure("carry out", carry_out);
    measure("join sheets", join_sheets);
    measure("traffic page", traffic_page);
    measure("write archive", write_archive);
    measure("read archive", read_archive);
    measure("groups", groups_of_chain);
    measure("read sheet", read_sheet);
    measure("read plan", read_plan);
    measure("read moves", read_moves);
    measure("tree in force", tree_in_force);
    make_sheet(NODES - 1, 100000);
    measure("plan a step, rebuilt, old tree", plan_step);
    expect(FIRROZKA_REBUILT);
    measure("plan a step, rebuilt, no old tree", plan_first);
    expect(FIRROZKA_REBUILT);
    make_sheet(0, 100);
    measure("plan a step, primary", plan_step);
    expect(FIRROZKA_PRIMARY);
    measure_tally();
    return 0;
}

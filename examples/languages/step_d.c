/* Plans step D and prints it as the bench program does, and then its traffic page; writes its sheet to an archive and reads it back; prints
 * its plan's groups; tallies arrivals until the tree gives way. */
#include <inttypes.h>
#include <stdio.h>
#include <string.h>
#include "firrozka.h"

static uint8_t plan[FIRROZKA_PLAN_BYTES], moves[FIRROZKA_MOVES_BYTES], page[FIRROZKA_PAGE_BYTES];
static uint8_t archive[FIRROZKA_ARCHIVE_BYTES], restored[FIRROZKA_SHEET_BYTES], groups[FIRROZKA_GROUPS_BYTES];
static struct firrozka_tally tally;

/* The word at a place: 4 bytes, low byte first. */
static uint32_t word(const uint8_t *record, size_t place)
{
    const uint8_t *b = record + 4 * place;
    return b[0] | (uint32_t)b[1] << 8 | (uint32_t)b[2] << 16 | (uint32_t)b[3] << 24;
}

/* A node's amount of its own subdomain: Pn less the shares of its helpers. A root's share is 0. */
static uint32_t own(const uint8_t *sheet, uint32_t node)
{
    uint32_t n = word(plan, 0), e = word(sheet, 2), amount = 0;
    for (uint32_t i = 0; i < e; i++)
        if (word(sheet, 3 + i) % 64 == node)
            amount += word(sheet, 3 + e + i);
    for (uint32_t k = 0; k < n; k++)
        if (word(plan, 3 + k) == node)
            amount -= word(plan, 3 + n + k);
    return amount;
}

static void print_step(const uint8_t *sheet, struct firrozka_step step)
{
    uint32_t n = word(plan, 0), e = word(moves, 1);
    printf("kind %" PRIu32 " limit %" PRIu32 "\n", step.kind, step.limit);
    for (uint32_t k = 0; k < n; k++)
        printf("node %" PRIu32 " helps %" PRIu32 " share %" PRIu32 " own %" PRIu32 "\n", k, word(plan, 3 + k),
               word(plan, 3 + n + k), own(sheet, k));
    for (uint32_t i = 0; i < e; i++) {
        uint32_t route = word(moves, 2 + i);
        printf("move %" PRIu32 " from %" PRIu32 " to %" PRIu32 " count %" PRIu32 "\n", route / 4096, route / 64 % 64,
               route % 64, word(moves, 2 + e + i));
    }
}

static int refused(uint32_t refusal)
{
    printf("refused %" PRIu32 "\n", refusal);
    return 1;
}

/* Writes a sheet to an archive, reads it back, and says whether it is the same. */
static int print_archive(const uint8_t *sheet, size_t sheet_len)
{
    struct firrozka_written written = firrozka_write_archive(sheet, sheet_len, archive, sizeof archive);
    if (written.refusal)
        return refused(written.refusal);
    struct firrozka_written read = firrozka_read_archive(archive, written.bytes, restored, sizeof restored);
    if (read.refusal)
        return refused(read.refusal);
    int same = read.bytes == sheet_len && !memcmp(restored, sheet, sheet_len);
    printf("archive %" PRIu32 " bytes, read back %s\n", written.bytes, same ? "the same" : "another");
    return 0;
}

/* Prints the N entries of a colour, which begin at a place. */
static void print_entries(const char *colour, size_t first)
{
    printf(" %s", colour);
    for (uint32_t k = 0; k < word(groups, 0); k++)
        printf(" %" PRIu32, word(groups, first + k));
}

static int print_groups(size_t plan_len)
{
    struct firrozka_written written = firrozka_groups(plan, plan_len, groups, sizeof groups);
    if (written.refusal)
        return refused(written.refusal);
    printf("groups");
    print_entries("even", 1);
    print_entries("odd", 1 + word(groups, 0));
    printf("\n");
    return 0;
}

/* Particles of subdomain 0 arrive at node 0 one by one, until the tree gives way. */
static int print_arrivals(const uint8_t *sheet, size_t sheet_len, size_t plan_len)
{
    uint32_t count = 0;
    struct firrozka_tallied tallied = firrozka_open_tally(sheet, sheet_len, plan, plan_len, &tally);
    for (; tallied.holds; count++)
        tallied = firrozka_tally_add(&tally, 0, 0, 1);
    /* In a refusal holds is 0, too. */
    if (tallied.refusal)
        return refused(tallied.refusal);
    printf("tally: the tree gives way at %" PRIu32 " more of subdomain 0\n", count);
    return 0;
}

int main(void)
{
    /* The words 3 100 3 0 65 130 90 6 4: 3 nodes, a tolerance of 100 tenths of a percent, 3 cells. */
    static const uint8_t sheet[] = {3,  0, 0, 0, 100, 0, 0, 0, 3,  0, 0, 0, 0, 0, 0, 0, 65, 0,
                                    0,  0, 130, 0, 0, 0, 90, 0, 0, 0, 6, 0, 0, 0, 4, 0, 0,  0};
    struct firrozka_step step =
        firrozka_plan_step(sheet, sizeof sheet, NULL, 0, plan, sizeof plan, moves, sizeof moves);
    if (step.refusal)
        return refused(step.refusal);
    print_step(sheet, step);
    struct firrozka_written written =
        firrozka_traffic_page(sheet, sizeof sheet, moves, step.moves_bytes, page, sizeof page);
    if (written.refusal)
        return refused(written.refusal);
    /* No null byte ends the page. */
    fwrite(page, 1, written.bytes, stdout);
    return print_archive(sheet, sizeof sheet) || print_groups(step.plan_bytes)
           || print_arrivals(sheet, sizeof sheet, step.plan_bytes);
}

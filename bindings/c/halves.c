/* The lines of docs/USING.md that carry out half a list first, run with the moves of step E and every set of subdomains; and with moves
 * that take one particle too many. */
#include <stdio.h>
#include <string.h>
#include "files.h"
#include "firrozka.h"

static uint32_t word(const uint8_t *record, size_t k)
{
    const uint8_t *b = record + 4 * k;
    return b[0] | (uint32_t)b[1] << 8 | (uint32_t)b[2] << 16 | (uint32_t)b[3] << 24;
}

#include "in_halves.c"

enum { SETS = 8 };

static struct record sheet, plan;
static uint8_t new_plan[FIRROZKA_PLAN_BYTES], moves[FIRROZKA_MOVES_BYTES], part[FIRROZKA_MOVES_BYTES];
static uint8_t whole[FIRROZKA_SHEET_BYTES], next[FIRROZKA_SHEET_BYTES];

static int differs(const char *what, uint64_t early, uint32_t expected, uint32_t got)
{
    if (expected != got)
        printf("set %d: %s: expected %u, got %u\n", (int)early, what, expected, got);
    return expected != got;
}

int main(void)
{
    /* How many moves each set has: one of subdomain 0, none of 1, one of 2. */
    static const uint32_t sizes[SETS] = {0, 1, 0, 1, 1, 2, 1, 2};
    int wrong = 0;
    read_record(&sheet, "examples/step-e/sheet");
    read_record(&plan, "examples/step-d/plan");
    struct firrozka_step step = firrozka_plan_step(sheet.bytes, sheet.len, plan.bytes, plan.len, new_plan, sizeof new_plan, moves, sizeof moves);
    struct firrozka_written all = firrozka_carry_out(sheet.bytes, sheet.len, moves, step.moves_bytes, whole, sizeof whole);
    for (uint64_t early = 0; early < SETS; early++) {
        struct firrozka_moves read = firrozka_read_moves(part, part_of(moves, early, part));
        wrong += differs("refusal of the part", early, FIRROZKA_ACCEPTED, read.refusal) + differs("its moves", early, sizes[early], read.e);
        struct firrozka_written w = in_halves(sheet.bytes, sheet.len, moves, step.moves_bytes, early, next);
        wrong += differs("refusal", early, FIRROZKA_ACCEPTED, w.refusal) + differs("bytes", early, all.bytes, w.bytes);
        wrong += differs("another sheet", early, 0, memcmp(whole, next, all.bytes) != 0);
    }
    /* Node 2 has 30 particles of subdomain 0; their count is word 4. */
    moves[16] = 31;
    for (uint64_t early = 0; early < SETS; early++) {
        struct firrozka_written w = in_halves(sheet.bytes, sheet.len, moves, step.moves_bytes, early, next);
        wrong += differs("refusal", early, FIRROZKA_MOVES_SENDS, w.refusal);
    }
    return wrong != 0;
}

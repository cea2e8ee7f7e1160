/* Calls each function as C or as C++, also with null pointers, and stops at the first answer that is not document 01's or 02's. */
#include <stdio.h>
#include <stdlib.h>
#include <string.h>
#include "firrozka.h"

#if FIRROZKA_VERSION < 109
#error "the preprocessor can test the version"
#endif

/* Step D's sheet; the old plan with helpands 0, 0, 1 and the sheet of step H; and step J's plan, of kind 0. */
static const uint8_t sheet[] = {3, 0, 0, 0, 100, 0, 0, 0, 3,  0, 0, 0, 0, 0, 0, 0, 65, 0, 0, 0,
                                130, 0, 0, 0, 90, 0, 0, 0, 6, 0, 0, 0, 4, 0, 0, 0};
static const uint8_t chain[] = {3, 0, 0, 0, 2, 0, 0, 0, 36, 0, 0, 0, 0, 0, 0, 0, 0, 0, 0, 0, 1, 0, 0, 0,
                                0, 0, 0, 0, 0, 0, 0, 0, 0,  0, 0, 0};
static const uint8_t roots[] = {3, 0, 0, 0, 0, 0, 0, 0, 36, 0, 0, 0, 0, 0, 0, 0, 1, 0, 0, 0, 2, 0, 0, 0,
                                0, 0, 0, 0, 0, 0, 0, 0, 0,  0, 0, 0};
static const uint8_t sheet_h[] = {3, 0, 0, 0, 100, 0, 0, 0, 2, 0, 0, 0, 0, 0, 0, 0, 65, 0, 0, 0, 28, 0, 0, 0, 72, 0, 0, 0};

/* What the gas inlet injects at node 0, 17 of subdomain 0 and 3 of subdomain 1; this and step D's sheet joined; sheets of 2 nodes and of
 * 3.5 percent; and a sheet of 999,999,901 particles, with which D's 100 are one too many. */
static const uint8_t inlet[] = {3, 0, 0, 0, 100, 0, 0, 0, 2, 0, 0, 0, 0, 0, 0, 0, 1, 0, 0, 0, 17, 0, 0, 0, 3, 0, 0, 0};
static const uint8_t joined[] = {3, 0, 0, 0, 100, 0, 0, 0, 4, 0, 0, 0, 0, 0, 0, 0, 1, 0, 0, 0, 65, 0, 0, 0,
                                 130, 0, 0, 0, 107, 0, 0, 0, 3, 0, 0, 0, 6, 0, 0, 0, 4, 0, 0, 0};
static const uint8_t other_nodes[] = {2, 0, 0, 0, 100, 0, 0, 0, 0, 0, 0, 0};
static const uint8_t other_tolerance[] = {3, 0, 0, 0, 35, 0, 0, 0, 0, 0, 0, 0};
static const uint8_t too_many[] = {3, 0, 0, 0, 100, 0, 0, 0, 1, 0, 0, 0, 0, 0, 0, 0, 0x9d, 0xc9, 0x9a, 0x3b};

/* Nodes 0, 1 and 2 hold 34 and 3, 23, and 1,200 particles. Of subdomain 0 node 2 sends 1,000 to node 0 and 7 to node 1; of subdomain 1
 * node 0 sends 3 to node 1, and node 1 sends 20 to node 2. Then the page, and moves that are refused: one from node 0 to itself, of 2
 * nodes, and 24 where node 1 has 23. */
static const uint8_t busy[] = {3, 0, 0, 0, 100, 0, 0, 0, 4, 0, 0, 0, 0, 0, 0, 0, 1, 0, 0, 0, 65, 0, 0, 0,
                               128, 0, 0, 0, 34, 0, 0, 0, 3, 0, 0, 0, 23, 0, 0, 0, 0xb0, 4, 0, 0};
static const uint8_t traffic[] = {3, 0, 0, 0, 4, 0, 0, 0, 128, 0, 0, 0, 129, 0, 0, 0, 1, 16, 0, 0,
                                  66, 16, 0, 0, 0xe8, 3, 0, 0, 7, 0, 0, 0, 3, 0, 0, 0, 20, 0, 0, 0};
static const char text[] = " 0          3       1000\n"
                           " 1         20         10\n"
                           " 2       1007         20\n"
                           "==       1030       1030\n";
static const uint8_t to_itself[] = {3, 0, 0, 0, 1, 0, 0, 0, 0, 0, 0, 0, 1, 0, 0, 0};
static const uint8_t moves_of_two[] = {2, 0, 0, 0, 0, 0, 0, 0};
static const uint8_t too_much[] = {3, 0, 0, 0, 1, 0, 0, 0, 66, 16, 0, 0, 24, 0, 0, 0};

/* Nodes 0 and 2 help node 1, which is the root, and nodes 3 and 4 help node 0. Then the groups, of which node 1's is even and node 0's odd;
 * and those of step J's plan, in which no node helps. */
static const uint8_t tree[] = {5, 0, 0, 0, 2, 0, 0, 0, 36, 0, 0, 0, 1, 0, 0, 0, 1, 0, 0, 0, 1, 0, 0, 0, 0, 0, 0, 0,
                               0, 0, 0, 0, 20, 0, 0, 0, 0, 0, 0, 0, 15, 0, 0, 0, 12, 0, 0, 0, 9, 0, 0, 0};
static const uint8_t families[] = {5, 0, 0, 0, 1, 0, 0, 0, 1, 0, 0, 0, 1, 0, 0, 0, 64, 0, 0, 0, 64, 0, 0, 0,
                                   0, 0, 0, 0, 64, 0, 0, 0, 64, 0, 0, 0, 0, 0, 0, 0, 0, 0, 0, 0};
static const uint8_t no_family[] = {3, 0, 0, 0, 64, 0, 0, 0, 64, 0, 0, 0, 64, 0, 0, 0,
                                    64, 0, 0, 0, 64, 0, 0, 0, 64, 0, 0, 0};

/* A plan of one node, which is of kind 0. Two nodes with all the particles that there can be but one, and a plan in which node 1 helps
 * node 0. */
static const uint8_t lone[] = {1, 0, 0, 0, 0, 0, 0, 0, 36, 0, 0, 0, 0, 0, 0, 0, 0, 0, 0, 0};
static const uint8_t full[] = {2, 0, 0, 0, 100, 0, 0, 0, 1, 0, 0, 0, 0, 0, 0, 0, 0xff, 0xc9, 0x9a, 0x3b};
static const uint8_t pair[] = {2, 0, 0, 0, 2, 0, 0, 0, 0, 0, 0, 0, 0, 0, 0, 0, 0, 0, 0, 0, 0, 0, 0, 0, 0, 0, 0, 0};

static uint8_t plan[FIRROZKA_PLAN_BYTES], moves[FIRROZKA_MOVES_BYTES], next[FIRROZKA_SHEET_BYTES], least[FIRROZKA_LEAST_BYTES];
static uint8_t page[FIRROZKA_PAGE_BYTES], groups[FIRROZKA_GROUPS_BYTES];

/* The archive of the busy sheet, and a buffer that is longer by a word. */
static uint8_t kept[FIRROZKA_ARCHIVE_BYTES], archive[FIRROZKA_ARCHIVE_BYTES + 4];

/* A tally and what it should be, each with a word in front and one behind. */
struct between {
    uint32_t front;
    struct firrozka_tally tally;
    uint32_t behind;
};
static struct between lent, expected;

/* What the bytes of a buffer are before a call. */
enum { PAINT = 0xa5 };

static void check(int line, int good)
{
    if (!good) {
        fprintf(stderr, "bindings/c/check.c:%d: another answer\n", line);
        exit(1);
    }
}
#define CHECK(good) check(__LINE__, (good))

/* Whether these bytes are as they were painted. */
static int painted(const uint8_t *bytes, size_t len)
{
    for (size_t i = 0; i < len; i++)
        if (bytes[i] != PAINT)
            return 0;
    return 1;
}

static void check_readers(void)
{
    struct firrozka_sheet s = firrozka_read_sheet(sheet, sizeof sheet);
    CHECK(!s.refusal && s.n == 3 && s.t == 100 && s.e == 3 && s.p == 100 && s.limit == 36);
    struct firrozka_plan p = firrozka_read_plan(chain, sizeof chain);
    CHECK(!p.refusal && p.n == 3 && p.kind == FIRROZKA_REBUILT && p.limit == 36);
    s = firrozka_read_sheet(sheet, sizeof sheet - 1);
    CHECK(s.refusal == FIRROZKA_SHEET_LENGTH && !s.n && !s.t && !s.e && !s.p && !s.limit);
}

static void check_operations(void)
{
    struct firrozka_weighed w = firrozka_weigh(sheet_h, sizeof sheet_h, chain, sizeof chain, least, sizeof least);
    CHECK(!w.refusal && w.holds == 1 && least[0] == 28 && least[4] == 36 && least[8] == 0);
    struct firrozka_step d = firrozka_plan_step(sheet, sizeof sheet, NULL, 0, plan, sizeof plan, moves, sizeof moves);
    CHECK(!d.refusal && d.kind == FIRROZKA_REBUILT && d.limit == 36 && d.plan_bytes == 36 && d.moves_bytes == 24);
    struct firrozka_moves m = firrozka_read_moves(moves, d.moves_bytes);
    CHECK(!m.refusal && m.n == 3 && m.e == 2);
    struct firrozka_written c = firrozka_carry_out(sheet, sizeof sheet, moves, d.moves_bytes, next, sizeof next);
    CHECK(!c.refusal && c.bytes == 52 && next[8] == 5);
}

/* Whether step D's sheet and this one are refused so, with 0 bytes and the buffer as it was. */
static int not_joined(uint32_t refusal, const uint8_t *second, size_t second_len, size_t out_len)
{
    memset(next, PAINT, sizeof next);
    struct firrozka_written j = firrozka_join_sheets(sheet, sizeof sheet, second, second_len, next, out_len);
    return j.refusal == refusal && !j.bytes && painted(next, sizeof next);
}

static void check_join(void)
{
    memset(next, PAINT, sizeof next);
    struct firrozka_written j = firrozka_join_sheets(sheet, sizeof sheet, inlet, sizeof inlet, next, sizeof joined);
    CHECK(!j.refusal && j.bytes == sizeof joined && !memcmp(next, joined, sizeof joined) && next[sizeof joined] == PAINT);
    CHECK(not_joined(FIRROZKA_SHEET_LENGTH, inlet, sizeof inlet - 1, sizeof next));
    CHECK(not_joined(FIRROZKA_SHEETS_DIFFER, other_nodes, sizeof other_nodes, sizeof next));
    CHECK(not_joined(FIRROZKA_SHEETS_DIFFER, other_tolerance, sizeof other_tolerance, sizeof next));
    CHECK(not_joined(FIRROZKA_SHEET_COUNT, too_many, sizeof too_many, sizeof next));
    CHECK(not_joined(FIRROZKA_JOINED_BUFFER, inlet, sizeof inlet, sizeof joined - 1));
}

/* Whether these moves are refused so on that sheet, with 0 bytes and the buffer as it was. */
static int no_page(uint32_t refusal, size_t sheet_len, const uint8_t *list, size_t list_len, size_t page_len)
{
    memset(page, PAINT, sizeof page);
    struct firrozka_written t = firrozka_traffic_page(busy, sheet_len, list, list_len, page, page_len);
    return t.refusal == refusal && !t.bytes && painted(page, sizeof page);
}

static void check_traffic(void)
{
    const size_t length = sizeof text - 1;
    memset(page, PAINT, sizeof page);
    struct firrozka_written t = firrozka_traffic_page(busy, sizeof busy, traffic, sizeof traffic, page, sizeof page);
    CHECK(!t.refusal && t.bytes == length && !memcmp(page, text, length));
    CHECK(painted(page + length, sizeof page - length));
    /* A buffer of just this length. */
    CHECK(firrozka_traffic_page(busy, sizeof busy, traffic, sizeof traffic, page, length).bytes == length);
    CHECK(no_page(FIRROZKA_SHEET_LENGTH, sizeof busy - 1, traffic, sizeof traffic, sizeof page));
    CHECK(no_page(FIRROZKA_MOVES_ROUTE, sizeof busy, to_itself, sizeof to_itself, sizeof page));
    CHECK(no_page(FIRROZKA_MOVES_NODES_DIFFER, sizeof busy, moves_of_two, sizeof moves_of_two, sizeof page));
    CHECK(no_page(FIRROZKA_MOVES_SENDS, sizeof busy, too_much, sizeof too_much, sizeof page));
    CHECK(no_page(FIRROZKA_PAGE_BUFFER, sizeof busy, traffic, sizeof traffic, length - 1));
}

/* A word at a place: 4 bytes, low byte first. */
static void put(uint8_t *record, size_t place, uint32_t word)
{
    for (size_t byte = 0; byte < 4; byte++)
        record[4 * place + byte] = (uint8_t)(word >> (8 * byte));
}

/* Of the busy sheet cells 0, 1, 65 and 128, which are holder and subdomain 0 0, 0 1, 1 1 and 2 0, stand at positions 0, 1, 3 and 8. */
static void make_kept(void)
{
    memset(kept, 0, sizeof kept);
    put(kept, 0, 3);
    put(kept, 1, 100);
    put(kept, 2 + 0, 34);
    put(kept, 2 + 1, 3);
    put(kept, 2 + 3, 23);
    put(kept, 2 + 8, 1200);
}

/* Whether so much of the busy sheet is refused so, with 0 bytes and the buffer as it was. */
static int not_archived(uint32_t refusal, size_t sheet_len, size_t archive_len)
{
    memset(archive, PAINT, sizeof archive);
    struct firrozka_written a = firrozka_write_archive(busy, sheet_len, archive, archive_len);
    return a.refusal == refusal && !a.bytes && painted(archive, sizeof archive);
}

static void check_write_archive(void)
{
    make_kept();
    memset(archive, PAINT, sizeof archive);
    struct firrozka_written a = firrozka_write_archive(busy, sizeof busy, archive, sizeof archive);
    CHECK(!a.refusal && a.bytes == sizeof kept && !memcmp(archive, kept, sizeof kept));
    CHECK(painted(archive + sizeof kept, sizeof archive - sizeof kept));
    /* A buffer of just this length. */
    CHECK(firrozka_write_archive(busy, sizeof busy, archive, sizeof kept).bytes == sizeof kept);
    CHECK(not_archived(FIRROZKA_SHEET_LENGTH, sizeof busy - 1, sizeof archive));
    CHECK(not_archived(FIRROZKA_ARCHIVE_BUFFER, sizeof busy, sizeof kept - 1));
}

/* Whether the archive is refused so with another word at a place, with 0 bytes and the buffer as it was. */
static int not_read(uint32_t refusal, size_t place, uint32_t word, size_t archive_len, size_t sheet_len)
{
    make_kept();
    put(kept, place, word);
    memset(next, PAINT, sizeof next);
    struct firrozka_written r = firrozka_read_archive(kept, archive_len, next, sheet_len);
    return r.refusal == refusal && !r.bytes && painted(next, sizeof next);
}

static void check_read_archive(void)
{
    make_kept();
    memset(next, PAINT, sizeof next);
    struct firrozka_written r = firrozka_read_archive(kept, sizeof kept, next, sizeof next);
    CHECK(!r.refusal && r.bytes == sizeof busy && !memcmp(next, busy, sizeof busy));
    CHECK(painted(next + sizeof busy, sizeof next - sizeof busy));
    /* A buffer of just this length. */
    CHECK(firrozka_read_archive(kept, sizeof kept, next, sizeof busy).bytes == sizeof busy);
    /* 54 comes before 2. */
    CHECK(not_read(FIRROZKA_ARCHIVE_LENGTH, 0, 65, sizeof kept - 1, sizeof next));
    CHECK(not_read(FIRROZKA_SHEET_NODES, 0, 65, sizeof kept, sizeof next));
    CHECK(not_read(FIRROZKA_SHEET_TOLERANCE, 1, 1000, sizeof kept, sizeof next));
    /* Holder 0 and subdomain 3, holder 3 and subdomain 0, one particle too many, and a sum that would be 1,226 in 32 bits. */
    CHECK(not_read(FIRROZKA_ARCHIVE_COUNT, 2 + 5, 1, sizeof kept, sizeof next));
    CHECK(not_read(FIRROZKA_ARCHIVE_COUNT, 2 + 10, 1, sizeof kept, sizeof next));
    CHECK(not_read(FIRROZKA_ARCHIVE_COUNT, 2, 1000000001 - 1226, sizeof kept, sizeof next));
    CHECK(not_read(FIRROZKA_ARCHIVE_COUNT, 2 + 2, 0xffffffff - 33, sizeof kept, sizeof next));
    CHECK(not_read(FIRROZKA_ARCHIVE_BUFFER, 0, 3, sizeof kept, sizeof busy - 1));
}

/* Whether so much of the tree is refused so, with 0 bytes and the buffer as it was. */
static int no_groups(uint32_t refusal, size_t plan_len, size_t groups_len)
{
    memset(groups, PAINT, sizeof groups);
    struct firrozka_written g = firrozka_groups(tree, plan_len, groups, groups_len);
    return g.refusal == refusal && !g.bytes && painted(groups, sizeof groups);
}

static void check_groups(void)
{
    memset(groups, PAINT, sizeof groups);
    struct firrozka_written g = firrozka_groups(tree, sizeof tree, groups, sizeof groups);
    CHECK(!g.refusal && g.bytes == sizeof families && !memcmp(groups, families, sizeof families));
    CHECK(painted(groups + sizeof families, sizeof groups - sizeof families));
    /* A buffer of just this length. */
    CHECK(firrozka_groups(tree, sizeof tree, groups, sizeof families).bytes == sizeof families);
    g = firrozka_groups(roots, sizeof roots, groups, sizeof groups);
    CHECK(!g.refusal && g.bytes == sizeof no_family && !memcmp(groups, no_family, sizeof no_family));
    CHECK(groups[4] == FIRROZKA_NO_GROUP);
    /* The plan's come before 57. */
    CHECK(no_groups(FIRROZKA_PLAN_SHORT, 11, sizeof groups));
    CHECK(no_groups(FIRROZKA_PLAN_LENGTH, sizeof tree - 1, sizeof families - 1));
    CHECK(no_groups(FIRROZKA_GROUPS_BUFFER, sizeof tree, sizeof families - 1));
}

/* Step H with its chain: nodes 0, 1 and 2 hold 28, 72 and 0 particles of their own subdomains. Node 2 can spare 36, so that of node 1's 72
 * particles 36 stay; node 1 can spare none. */
static void make_expected(void)
{
    memset(&expected, PAINT, sizeof expected);
    memset(&expected.tally, 0, sizeof expected.tally);
    expected.tally.n = 3;
    expected.tally.limit = 36;
    expected.tally.total = 100;
    expected.tally.helpands[2] = 1;
    expected.tally.totals[0] = expected.tally.counts[0] = 28;
    expected.tally.totals[1] = expected.tally.counts[65] = 72;
    expected.tally.leasts[0] = 28;
    expected.tally.leasts[1] = 36;
}

/* What is expected of a subdomain and its cell at a holder, of the total, and of the leasts of nodes 0, 1 and 2. */
static void expect(uint32_t holder, uint32_t subdomain, uint32_t count, uint32_t total, const uint32_t leasts[3])
{
    expected.tally.total += total - expected.tally.totals[subdomain];
    expected.tally.totals[subdomain] = total;
    expected.tally.counts[64 * holder + subdomain] = count;
    memcpy(expected.tally.leasts, leasts, 3 * sizeof *leasts);
}

/* Whether a call says so, and left the lent tally and what lies around it as expected. */
static int tallied(struct firrozka_tallied answer, uint32_t refusal, uint32_t holds)
{
    return answer.refusal == refusal && answer.holds == holds && !memcmp(&lent, &expected, sizeof lent);
}

static struct firrozka_tallied open_h(void)
{
    memset(&lent, PAINT, sizeof lent);
    return firrozka_open_tally(sheet_h, sizeof sheet_h, chain, sizeof chain, &lent.tally);
}

static void check_tally(void)
{
    static const uint32_t opened[] = {28, 36, 0}, broken[] = {28, 37, 1}, spared[] = {18, 26, 0};
    CHECK(sizeof(struct firrozka_tally) == 17164);
    make_expected();
    CHECK(tallied(open_h(), 0, 1));
    /* A particle of subdomain 2 at node 0: node 2 spares one fewer, and node 1 keeps one more than the limit. */
    expect(0, 2, 1, 1, broken);
    CHECK(tallied(firrozka_tally_add(&lent.tally, 0, 2, 1), 0, 0));
    expect(0, 2, 0, 0, opened);
    CHECK(tallied(firrozka_tally_remove(&lent.tally, 0, 2, 1), 0, 1));
    /* With 10 fewer of its own node 1 can spare 10, which node 0 need not keep; that they are held elsewhere plays no part. */
    expect(1, 1, 62, 62, spared);
    CHECK(tallied(firrozka_tally_remove(&lent.tally, 1, 1, 10), 0, 1));
    expect(2, 1, 10, 72, opened);
    CHECK(tallied(firrozka_tally_add(&lent.tally, 2, 1, 10), 0, 1));
}

static void check_tally_refused(void)
{
    make_expected();
    open_h();
    CHECK(tallied(firrozka_tally_add(&lent.tally, 3, 0, 1), FIRROZKA_TALLY_CELL, 0));
    CHECK(tallied(firrozka_tally_add(&lent.tally, 0, 3, 1), FIRROZKA_TALLY_CELL, 0));
    CHECK(tallied(firrozka_tally_add(&lent.tally, 0, 0, 0), FIRROZKA_TALLY_CELL, 0));
    /* 58 comes before 60 and 59. */
    CHECK(tallied(firrozka_tally_add(&lent.tally, 0xffffffff, 0, 0xffffffff), FIRROZKA_TALLY_CELL, 0));
    CHECK(tallied(firrozka_tally_remove(&lent.tally, 0, 0xffffffff, 29), FIRROZKA_TALLY_CELL, 0));
    CHECK(tallied(firrozka_tally_remove(&lent.tally, 0, 0, 0), FIRROZKA_TALLY_CELL, 0));
    CHECK(tallied(firrozka_tally_remove(&lent.tally, 0, 0, 29), FIRROZKA_TALLY_REMOVES, 0));
    /* The subdomain has 72, the cell none; and more than there can be is 59 where it is removed. */
    CHECK(tallied(firrozka_tally_remove(&lent.tally, 0, 1, 1), FIRROZKA_TALLY_REMOVES, 0));
    CHECK(tallied(firrozka_tally_remove(&lent.tally, 1, 1, 0xffffffff), FIRROZKA_TALLY_REMOVES, 0));
    /* One too many, and a sum that would be 99 in 32 bits. */
    CHECK(tallied(firrozka_tally_add(&lent.tally, 0, 0, 1000000000 - 99), FIRROZKA_TALLY_TOTAL, 0));
    CHECK(tallied(firrozka_tally_add(&lent.tally, 0, 0, 0xffffffff), FIRROZKA_TALLY_TOTAL, 0));
    /* A tally that nobody opened, with N above 64. */
    memset(&lent, PAINT, sizeof lent);
    memset(&expected, PAINT, sizeof expected);
    CHECK(tallied(firrozka_tally_add(&lent.tally, 0, 0, 1), FIRROZKA_TALLY_CELL, 0));
    CHECK(tallied(firrozka_tally_remove(&lent.tally, 0, 0, 1), FIRROZKA_TALLY_CELL, 0));
    /* The last particle that there can be. The limit is the sheet's, half of the particles and a tenth more, not the plan's, which is 0. */
    CHECK(!firrozka_open_tally(full, sizeof full, pair, sizeof pair, &lent.tally).refusal);
    CHECK(lent.tally.limit == 549999999 && lent.tally.total == 999999999);
    CHECK(firrozka_tally_add(&lent.tally, 1, 1, 2).refusal == FIRROZKA_TALLY_TOTAL);
    CHECK(!firrozka_tally_add(&lent.tally, 1, 1, 1).refusal && lent.tally.total == 1000000000);
}

/* Whether so much of step H and this plan is refused so, with zeros in all of the tally, on which then every call is refused with 58. */
static int not_opened(uint32_t refusal, size_t sheet_len, const uint8_t *tree_plan, size_t plan_len)
{
    open_h();
    memset(&expected.tally, 0, sizeof expected.tally);
    return tallied(firrozka_open_tally(sheet_h, sheet_len, tree_plan, plan_len, &lent.tally), refusal, 0)
           && tallied(firrozka_tally_add(&lent.tally, 0, 0, 1), FIRROZKA_TALLY_CELL, 0)
           && tallied(firrozka_tally_remove(&lent.tally, 0, 0, 1), FIRROZKA_TALLY_CELL, 0);
}

static void check_not_opened(void)
{
    make_expected();
    CHECK(not_opened(FIRROZKA_SHEET_SHORT, 11, chain, sizeof chain));
    /* The sheet's come before the plan's, these before 21, and 21 before 24. */
    CHECK(not_opened(FIRROZKA_SHEET_LENGTH, sizeof sheet_h - 1, NULL, 0));
    CHECK(not_opened(FIRROZKA_PLAN_SHORT, sizeof sheet_h, NULL, 0));
    CHECK(not_opened(FIRROZKA_PLAN_LENGTH, sizeof sheet_h, tree, sizeof tree - 1));
    CHECK(not_opened(FIRROZKA_PLAN_NODES_DIFFER, sizeof sheet_h, tree, sizeof tree));
    CHECK(not_opened(FIRROZKA_PLAN_NODES_DIFFER, sizeof sheet_h, lone, sizeof lone));
    CHECK(not_opened(FIRROZKA_PLAN_PRIMARY, sizeof sheet_h, roots, sizeof roots));
}

/* With length 0 a pointer may be null, a buffer's too. */
static void check_null(void)
{
    CHECK(firrozka_read_sheet(NULL, 0).refusal == FIRROZKA_SHEET_SHORT);
    CHECK(firrozka_read_plan(NULL, 0).refusal == FIRROZKA_PLAN_SHORT);
    CHECK(firrozka_read_moves(NULL, 0).refusal == FIRROZKA_MOVES_SHORT);
    CHECK(firrozka_weigh(sheet, sizeof sheet, chain, sizeof chain, NULL, 0).refusal == FIRROZKA_LEAST_BUFFER);
    CHECK(firrozka_plan_step(sheet, sizeof sheet, NULL, 0, NULL, 0, NULL, 0).refusal == FIRROZKA_PLAN_BUFFER);
    CHECK(firrozka_plan_step(sheet, sizeof sheet, NULL, 0, plan, sizeof plan, NULL, 0).refusal == FIRROZKA_MOVES_BUFFER);
    CHECK(firrozka_carry_out(sheet, sizeof sheet, moves, 24, NULL, 0).refusal == FIRROZKA_SHEET_BUFFER);
    CHECK(firrozka_join_sheets(NULL, 0, sheet, sizeof sheet, next, sizeof next).refusal == FIRROZKA_SHEET_SHORT);
    CHECK(firrozka_join_sheets(sheet, sizeof sheet, NULL, 0, next, sizeof next).refusal == FIRROZKA_SHEET_SHORT);
    CHECK(firrozka_join_sheets(sheet, sizeof sheet, inlet, sizeof inlet, NULL, 0).refusal == FIRROZKA_JOINED_BUFFER);
    CHECK(firrozka_traffic_page(NULL, 0, traffic, sizeof traffic, page, sizeof page).refusal == FIRROZKA_SHEET_SHORT);
    CHECK(firrozka_traffic_page(busy, sizeof busy, NULL, 0, page, sizeof page).refusal == FIRROZKA_MOVES_SHORT);
    CHECK(firrozka_traffic_page(busy, sizeof busy, traffic, sizeof traffic, NULL, 0).refusal == FIRROZKA_PAGE_BUFFER);
    CHECK(firrozka_write_archive(NULL, 0, archive, sizeof archive).refusal == FIRROZKA_SHEET_SHORT);
    CHECK(firrozka_write_archive(busy, sizeof busy, NULL, 0).refusal == FIRROZKA_ARCHIVE_BUFFER);
    make_kept();
    CHECK(firrozka_read_archive(NULL, 0, next, sizeof next).refusal == FIRROZKA_ARCHIVE_LENGTH);
    CHECK(firrozka_read_archive(kept, sizeof kept, NULL, 0).refusal == FIRROZKA_ARCHIVE_BUFFER);
    CHECK(firrozka_groups(NULL, 0, groups, sizeof groups).refusal == FIRROZKA_PLAN_SHORT);
    CHECK(firrozka_groups(tree, sizeof tree, NULL, 0).refusal == FIRROZKA_GROUPS_BUFFER);
    CHECK(firrozka_open_tally(NULL, 0, chain, sizeof chain, &lent.tally).refusal == FIRROZKA_SHEET_SHORT);
    CHECK(firrozka_open_tally(sheet_h, sizeof sheet_h, NULL, 0, &lent.tally).refusal == FIRROZKA_PLAN_SHORT);
    CHECK(firrozka_tree_in_force(NULL, 0, NULL, 0).length == 0);
}

/* A kept plan has the old tree in force, another one its own. */
static void check_force(void)
{
    firrozka_plan_step(sheet_h, sizeof sheet_h, chain, sizeof chain, plan, sizeof plan, moves, sizeof moves);
    struct firrozka_part f = firrozka_tree_in_force(chain, sizeof chain, plan, sizeof chain);
    CHECK(f.source == FIRROZKA_OLD_PLAN && f.start == 12 && f.length == 12);
    f = firrozka_tree_in_force(roots, sizeof roots, chain, sizeof chain);
    CHECK(f.source == FIRROZKA_NEW_PLAN && f.start == 12 && f.length == 12);
    /* A new plan of kind 0 gives its roots. */
    f = firrozka_tree_in_force(chain, sizeof chain, roots, sizeof roots);
    CHECK(f.source == FIRROZKA_NEW_PLAN && f.start == 12 && f.length == 12);
    /* An old plan of length 0 gives the empty stretch, whatever the new plan. */
    f = firrozka_tree_in_force(NULL, 0, chain, sizeof chain);
    CHECK(f.source == FIRROZKA_NEW_PLAN && f.start == 0 && f.length == 0);
    f = firrozka_tree_in_force(NULL, 0, roots, sizeof roots);
    CHECK(f.source == FIRROZKA_NEW_PLAN && f.start == 0 && f.length == 0);
}

int main(void)
{
    CHECK(firrozka_version() == FIRROZKA_VERSION);
    check_readers();
    check_operations();
    check_join();
    check_traffic();
    check_write_archive();
    check_read_archive();
    check_groups();
    check_tally();
    check_tally_refused();
    check_not_opened();
    check_null();
    check_force();
    return 0;
}

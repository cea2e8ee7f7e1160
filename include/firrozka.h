/* Firrozka: the load balance of a particle simulation, decided with machine-checked proof.
 *
 * C11 and C++. Link with libfirrozka.a; docs/USING.md says how, docs/FORMATS.md describes the records.
 *
 * A record is a stretch of bytes: words of 4 bytes, unsigned, low byte first, whatever the machine. It need not be aligned.
 * The library keeps no state, takes no memory but the stack, and every function returns. A record to read may be any bytes of any
 * length; with length 0 a pointer may be NULL. A buffer to write to lies apart from the records to read and from other buffers.
 * What is written stands at the front of the buffer; the bytes behind it stay as they were.
 *
 * An answer carries 0 or a refusal number, and the values named. In a refusal these are all 0, and buffers are untouched; only a tally that
 * cannot be opened is written, with zeros. */
#ifndef FIRROZKA_H
#define FIRROZKA_H

#include <stddef.h>
#include <stdint.h>

#ifdef __cplusplus
extern "C" {
#endif

/* The version, 100 × major + minor: 1.9 is 109. CHANGELOG.md says what each brought. firrozka_version() is the library's own: where the
 * two differ, a program was compiled with the header of another version. */
#define FIRROZKA_VERSION 109
uint32_t firrozka_version(void);

/* Buffers of so many bytes are long enough for every call. FIRROZKA_ARCHIVE_BYTES is the length of every archive. */
enum {
    FIRROZKA_SHEET_BYTES = 32780,   /* 4 × (3 + 2 × 4,096) */
    FIRROZKA_PLAN_BYTES = 524,      /* 4 × (3 + 2 × 64) */
    FIRROZKA_MOVES_BYTES = 32264,   /* 4 × (2 + 2 × 4,032) */
    FIRROZKA_LEAST_BYTES = 256,     /* 4 × 64 */
    FIRROZKA_PAGE_BYTES = 1625,     /* 25 × (64 + 1) */
    FIRROZKA_ARCHIVE_BYTES = 16392, /* 4 × (2 + 4,096) */
    FIRROZKA_GROUPS_BYTES = 516     /* 4 × (1 + 2 × 64) */
};

/* The kind of a plan. */
enum firrozka_kind {
    FIRROZKA_PRIMARY = 0, /* no node helps */
    FIRROZKA_KEPT = 1,    /* the old tree */
    FIRROZKA_REBUILT = 2  /* a new tree */
};

/* Which of two plans has the tree in force. */
enum firrozka_source {
    FIRROZKA_OLD_PLAN = 1,
    FIRROZKA_NEW_PLAN = 2
};

/* The entry of a node that is in no group of a colour. */
enum {
    FIRROZKA_NO_GROUP = 64
};

/* Why an operation refuses. Its checks run in the order of its numbers, those of the sheet and of the other record first; only join sheets
 * has a 7 behind 51, and read archive 2 and 3 behind 54. */
enum firrozka_refusal {
    FIRROZKA_ACCEPTED = 0,
    /* sheet */
    FIRROZKA_SHEET_SHORT = 1,     /* under 12 bytes */
    FIRROZKA_SHEET_NODES = 2,     /* N is not 1 to 64 */
    FIRROZKA_SHEET_TOLERANCE = 3, /* t is not 1 to 999 */
    FIRROZKA_SHEET_ENTRIES = 4,   /* E is above N × N */
    FIRROZKA_SHEET_LENGTH = 5,    /* the length is not 4 × (3 + 2E) bytes */
    FIRROZKA_SHEET_CELL = 6,      /* a cell does not rise, or names a node not below N */
    FIRROZKA_SHEET_COUNT = 7,     /* a count is 0, or the running sum is above 1,000,000,000 */
    /* plan */
    FIRROZKA_PLAN_SHORT = 11,   /* under 12 bytes */
    FIRROZKA_PLAN_NODES = 12,   /* N is not 1 to 64 */
    FIRROZKA_PLAN_KIND = 13,    /* the kind is above 2, or not 0 with one node */
    FIRROZKA_PLAN_LIMIT = 14,   /* the limit is above 1,999,000,000 */
    FIRROZKA_PLAN_LENGTH = 15,  /* the length is not 4 × (3 + 2N) bytes */
    FIRROZKA_PLAN_HELPAND = 16, /* a helpand is not below N */
    FIRROZKA_PLAN_SHAPE = 17,   /* the wrong shape: kind 0 has only roots; kinds 1 and 2 have one root, which every chain of helpands
                                   reaches */
    FIRROZKA_PLAN_SHARE = 18,   /* a share is above the limit, or not 0 at a root */
    /* weigh, plan a step; 21 and 24 also open tally */
    FIRROZKA_PLAN_NODES_DIFFER = 21, /* the N of sheet and plan differ */
    FIRROZKA_PLAN_BUFFER = 22,       /* the plan's buffer is too short */
    FIRROZKA_MOVES_BUFFER = 23,      /* the moves' buffer is too short */
    FIRROZKA_PLAN_PRIMARY = 24,      /* the plan is kind 0 and has no tree */
    FIRROZKA_LEAST_BUFFER = 25,      /* the buffer is under 4N bytes */
    /* moves */
    FIRROZKA_MOVES_SHORT = 31,   /* under 8 bytes */
    FIRROZKA_MOVES_NODES = 32,   /* N is not 1 to 64 */
    FIRROZKA_MOVES_ENTRIES = 33, /* E is above N × (N−1) */
    FIRROZKA_MOVES_LENGTH = 34,  /* the length is not 4 × (2 + 2E) bytes */
    FIRROZKA_MOVES_ROUTE = 35,   /* a route does not rise, names a node not below N, or has one node as sender and receiver */
    FIRROZKA_MOVES_COUNT = 36,   /* a count is 0 or above 1,000,000,000 */
    /* carry out; 41 and 42 also traffic page */
    FIRROZKA_MOVES_NODES_DIFFER = 41, /* the N of sheet and moves differ */
    FIRROZKA_MOVES_SENDS = 42,        /* some cell sends in all more than the old sheet gives it */
    FIRROZKA_SHEET_BUFFER = 43,       /* the buffer is too short */
    /* join sheets */
    FIRROZKA_SHEETS_DIFFER = 51, /* the N or the t of the two sheets differ */
    FIRROZKA_JOINED_BUFFER = 52, /* the buffer is too short */
    /* traffic page */
    FIRROZKA_PAGE_BUFFER = 53, /* the buffer is under 25 × (N+1) bytes */
    /* archive, which also has a sheet's 2 and 3 */
    FIRROZKA_ARCHIVE_LENGTH = 54, /* the length is not 16,392 bytes */
    FIRROZKA_ARCHIVE_COUNT = 55,  /* a count is above 0 at a node not below N, or the sum is above 1,000,000,000 */
    /* write archive, read archive */
    FIRROZKA_ARCHIVE_BUFFER = 56, /* the buffer is too short */
    /* groups */
    FIRROZKA_GROUPS_BUFFER = 57, /* the buffer is under 4 × (1 + 2N) bytes */
    /* tally add, tally remove */
    FIRROZKA_TALLY_CELL = 58,    /* a node is not below N, or the count is 0 */
    FIRROZKA_TALLY_REMOVES = 59, /* the cell has fewer than are removed */
    FIRROZKA_TALLY_TOTAL = 60    /* the total would be above 1,000,000,000 */
};

/* Read sheet: N, the tolerance t in tenths of a percent, the number of cells E, the total P and the limit L. Refused: 1 to 7. */
struct firrozka_sheet {
    uint32_t refusal, n, t, e, p, limit;
};
struct firrozka_sheet firrozka_read_sheet(const uint8_t *sheet, size_t sheet_len);

/* Read plan: N, the kind and the limit. Refused: 11 to 18. */
struct firrozka_plan {
    uint32_t refusal, n, kind, limit;
};
struct firrozka_plan firrozka_read_plan(const uint8_t *plan, size_t plan_len);

/* Read moves: N and the number of moves E. Refused: 31 to 36. */
struct firrozka_moves {
    uint32_t refusal, n, e;
};
struct firrozka_moves firrozka_read_moves(const uint8_t *moves, size_t moves_len);

/* Weigh: writes N words, the least of each node in the plan's tree under the sheet's limit, and says whether the tree holds, 1 or 0.
 * The leasts are written either way. Refused: the sheet's; the plan's; 21, 24, 25. */
struct firrozka_weighed {
    uint32_t refusal, holds;
};
struct firrozka_weighed firrozka_weigh(const uint8_t *sheet, size_t sheet_len, const uint8_t *plan, size_t plan_len,
                                       uint8_t *least, size_t least_len);

/* Plan a step: writes the new plan and the moves, and gives the kind, the limit and both lengths in bytes. An old plan of length 0 is
 * none. Refused: the sheet's; the old plan's; 21, 22, 23. Both buffers are then untouched. */
struct firrozka_step {
    uint32_t refusal, kind, limit, plan_bytes, moves_bytes;
};
struct firrozka_step firrozka_plan_step(const uint8_t *sheet, size_t sheet_len, const uint8_t *old_plan, size_t old_len,
                                        uint8_t *plan, size_t plan_len, uint8_t *moves, size_t moves_len);

/* Carry out: writes the sheet that follows a sheet and any accepted moves, and gives its length in bytes.
 * Refused: the sheet's; the moves'; 41, 42, 43. */
struct firrozka_written {
    uint32_t refusal, bytes;
};
struct firrozka_written firrozka_carry_out(const uint8_t *sheet, size_t sheet_len, const uint8_t *moves, size_t moves_len,
                                           uint8_t *next, size_t next_len);

/* Join sheets: writes the sheet that has in each cell the sum of both, such as the resident sheet and that of the particles injected at
 * the gas inlet, and gives its length in bytes. Refused: the first sheet's; the second's, by the same numbers; 51; 7 where the two totals
 * together are above 1,000,000,000; 52. */
struct firrozka_written firrozka_join_sheets(const uint8_t *first, size_t first_len, const uint8_t *second, size_t second_len,
                                             uint8_t *out, size_t out_len);

/* Traffic page: writes what each node sends and receives in all when these moves are carried out, as text to pin up, and gives its length
 * in bytes, 25 × (N+1). A line has the node in 2 columns, a blank, sent in 10, a blank, received in 10, all right-aligned, and a newline.
 * The last line has == for the node and the two totals, which are equal. The text is ASCII, and no null byte ends it.
 * Refused: the sheet's; the moves'; 41, 42, 53. */
struct firrozka_written firrozka_traffic_page(const uint8_t *sheet, size_t sheet_len, const uint8_t *moves, size_t moves_len,
                                              uint8_t *page, size_t page_len);

/* Write archive: writes the archive of a sheet, and gives its length in bytes, which is FIRROZKA_ARCHIVE_BYTES for every sheet. An archive
 * is N, t and 4,096 counts, one for each holder and subdomain below 64, with 0 where the sheet has no cell. Bit i of the subdomain is bit
 * 2i of a count's position, and bit i of the holder is bit 2i + 1, so that neighbouring cells stand close together: docs/FORMATS.md has a
 * picture. Refused: the sheet's; 56. */
struct firrozka_written firrozka_write_archive(const uint8_t *sheet, size_t sheet_len, uint8_t *archive, size_t archive_len);

/* Read archive: writes the sheet that an archive holds, and gives its length in bytes. It is the sheet that was written to the archive,
 * byte for byte; and every archive that is accepted is that of the sheet that comes out of it.
 * Refused: 54; 2 and 3, here of the archive; 55; 56 where the buffer is shorter than this sheet. */
struct firrozka_written firrozka_read_archive(const uint8_t *archive, size_t archive_len, uint8_t *sheet, size_t sheet_len);

/* Groups: writes each node's group in the even colour and in the odd, for a message library, and gives the length in bytes, 4 × (1 + 2N).
 * Each family with a helper is a group. It is named by its owner, and even or odd as its owner's distance from the root is. The words are
 * N, N entries of the even colour and N of the odd. An entry is the number of the group's owner, or FIRROZKA_NO_GROUP. Two different nodes
 * share an entry other than this in a colour exactly when they belong to one family of that colour. A plan of kind 0 has no group.
 * Refused: the plan's; 57. */
struct firrozka_written firrozka_groups(const uint8_t *plan, size_t plan_len, uint8_t *groups, size_t groups_len);

/* A tally: the counts of a sheet with the tree of a plan, kept up to date between two steps, in 17,164 bytes. It is the caller's, who makes
 * room for it, apart from the records, and lends it to each call; the pointer is never NULL, and the library does not keep it. A program
 * reads the tally as it likes and leaves the writing to the three functions below. Whatever else was written there, a call returns, stays
 * within the tally, and is refused or answers as docs/FORMATS.md says. */
struct firrozka_tally {
    uint32_t n, limit, total; /* N; the limit of the opening sheet, which no call changes; the particles of all cells */
    uint32_t helpands[64];    /* of the plan */
    uint32_t totals[64];      /* the particles of subdomain k, whoever holds them */
    uint32_t leasts[64];      /* the least of node k, as weigh has it, for the present counts and that limit */
    uint32_t counts[4096];    /* at holder × 64 + subdomain; in all four arrays what lies at nodes not below N is 0 */
};

/* What a tally's functions answer: whether the tree holds, 1 or 0. In a refusal it is 0, too. */
struct firrozka_tallied {
    uint32_t refusal, holds;
};

/* Open tally: writes the tally of a sheet and a plan of kind 1 or 2, also where the tree does not hold. Every byte of it is written, so it
 * may hold anything before. Refused: the sheet's; the plan's; 21, 24. The tally is then all zeros, and with N 0 every call on it is refused
 * with 58. */
struct firrozka_tallied firrozka_open_tally(const uint8_t *sheet, size_t sheet_len, const uint8_t *plan, size_t plan_len,
                                            struct firrozka_tally *tally);

/* Tally add: adds count particles of a subdomain at a holder. Refused: 58, 60; not a byte of the tally changes then. */
struct firrozka_tallied firrozka_tally_add(struct firrozka_tally *tally, uint32_t holder, uint32_t subdomain, uint32_t count);

/* Tally remove: removes so many. Refused: 58, 59; not a byte of the tally changes then. */
struct firrozka_tallied firrozka_tally_remove(struct firrozka_tally *tally, uint32_t holder, uint32_t subdomain, uint32_t count);

/* Tree in force: the helpands that hold after a step, as a stretch of one of the two plans: which plan, and where in it, in bytes. It is
 * of the old plan if the new kind is 1, else of the new. A new plan of kind 0 gives its roots. Nothing is copied, nothing is refused.
 * The empty stretch, length 0 of the new plan, is given when either plan is refused, their N differ, or the new kind is 1 and the old is
 * kind 0 or has other helpands. An old plan of length 0 gives the empty stretch; only plan a step takes it as none. */
struct firrozka_part {
    uint32_t source, start, length;
};
struct firrozka_part firrozka_tree_in_force(const uint8_t *old_plan, size_t old_len, const uint8_t *new_plan, size_t new_len);

#ifdef __cplusplus
}
#endif

#endif

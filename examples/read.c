/* Prints what the three readers say of three files: a sheet, a plan and a list of moves. */
#include <stdio.h>
#include "files.h"
#include "firrozka.h"

static struct record sheet, plan, moves;

int main(int argc, char **argv)
{
    if (argc != 4) {
        fprintf(stderr, "usage: %s SHEET PLAN MOVES\n", argv[0]);
        return 2;
    }
    read_record(&sheet, argv[1]);
    read_record(&plan, argv[2]);
    read_record(&moves, argv[3]);
    struct firrozka_sheet s = firrozka_read_sheet(sheet.bytes, sheet.len);
    printf("sheet refusal %u n %u t %u e %u p %u limit %u\n", s.refusal, s.n, s.t, s.e, s.p, s.limit);
    struct firrozka_plan p = firrozka_read_plan(plan.bytes, plan.len);
    printf("plan refusal %u n %u kind %u limit %u\n", p.refusal, p.n, p.kind, p.limit);
    struct firrozka_moves m = firrozka_read_moves(moves.bytes, moves.len);
    printf("moves refusal %u n %u e %u\n", m.refusal, m.n, m.e);
    return 0;
}

/* The lines of docs/USING.md that inject particles until the tree gives way, run with the sheet and the plan of step D. */
#include <inttypes.h>
#include <stdio.h>
#include "files.h"
#include "firrozka.h"

#include "inject.c"

static struct record sheet, plan;

int main(void)
{
    read_record(&sheet, "examples/step-d/sheet");
    read_record(&plan, "examples/step-d/plan");
    return inject(sheet.bytes, sheet.len, plan.bytes, plan.len, 0, 0) != FIRROZKA_ACCEPTED;
}

/* Records in files, for the C examples. */
#ifndef EXAMPLES_FILES_H
#define EXAMPLES_FILES_H

#include <stdint.h>
#include <stdio.h>
#include <stdlib.h>

/* The largest record, a sheet of 4,096 cells, and one byte more, so that a longer file is seen to be too long. */
enum { LARGEST = 4 * (3 + 2 * 4096) + 1 };

struct record {
    uint8_t bytes[LARGEST];
    size_t len;
};

/* The record in a file. A file that cannot be read ends the program: an empty record is something else. */
static void read_record(struct record *r, const char *name)
{
    FILE *f = fopen(name, "rb");
    if (f)
        r->len = fread(r->bytes, 1, LARGEST, f);
    if (!f || ferror(f)) {
        perror(name);
        exit(2);
    }
    fclose(f);
}

#endif

/*
 * What the examples have in common: the sheet of a leaf, what a projection wrote, and lines that are printed and compared.
 */
#ifndef WEIGHPICK_EXAMPLE_H
#define WEIGHPICK_EXAMPLE_H

#include <stdio.h>

#include "weighpick_build.h"

enum {
    WIDTH = 10,                              /* of the steps of grams that split the table */
    SAMPLE_SIZE = 2 * WEIGHPICK_RECORD_SIZE, /* a head and one literal */
    LINE_SIZE = 80                           /* every line here is shorter */
};

/* What a projection wrote. */
struct predicate {
    uint8_t sheet[WEIGHPICK_SHEET_BUFFER];
    uint64_t count;
};

/* One of the three projections. */
typedef uint32_t projection(const uint8_t *, size_t, uint8_t *, size_t, uint64_t *);

/* Builds the sheet of the leaf `< 300` of an Int under Truncate. */
static inline int put_sample(uint8_t *sheet, size_t room)
{
    uint8_t literal[WEIGHPICK_RECORD_SIZE];
    return weighpick_put_int(literal, sizeof literal, 300)
           && weighpick_put_sheet(sheet, room, WEIGHPICK_LESS_THAN, WEIGHPICK_INT, WEIGHPICK_TRUNCATE, WIDTH, literal,
                                  sizeof literal);
}

/* Prints a line and says whether it is the expected one. */
static inline int print_line(const char *line, const char *expected)
{
    puts(line);
    if (strcmp(line, expected) == 0) {
        return 1;
    }
    fprintf(stderr, "expected: %s\n", expected);
    return 0;
}

#endif

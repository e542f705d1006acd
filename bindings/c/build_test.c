/*
 * The test of weighpick_build.h: each builder at the edges of its sizes, in a buffer with guards around it, and what the library
 * answers to what they build. Ends with 0; or names what failed, and ends with 1. It is C99 and C++.
 */
#include <stdio.h>

#include "weighpick_build.h"

enum {
    FILL = 0xa5, /* what no builder writes here */
    GUARD = 64,
    ROOM = WEIGHPICK_SHEET_BUFFER + WEIGHPICK_RECORD_SIZE, /* for the largest sheet, and one record more */
    RECORD = WEIGHPICK_RECORD_SIZE,
    NOT_BUILT = 1000 /* no answer of the library */
};

static int failed = 0;

/* Names what is not so. */
static void expect(int good, const char *subject, const char *what)
{
    if (!good) {
        fprintf(stderr, "failed: %s: %s\n", subject, what);
        failed = 1;
    }
}

/* What builders are lent: ROOM bytes between two guards. */
static uint8_t lent[GUARD + ROOM + GUARD];

/* Lends the buffer anew. */
static uint8_t *lend(void)
{
    memset(lent, FILL, sizeof lent);
    return lent + GUARD;
}

/* Whether just so many bytes of the buffer were written. */
static int just_written(size_t size)
{
    for (size_t i = 0; i < sizeof lent; i++) {
        if ((lent[i] != FILL) != (i >= GUARD && i < GUARD + size)) {
            return 0;
        }
    }
    return 1;
}

/* Whether a builder refused, and wrote nothing. */
static void expect_refused(int built, const char *subject, const char *what)
{
    expect(built == 0, subject, what);
    expect(just_written(0), subject, "nothing is written where it is refused");
}

/* Every builder, with something to build. */
static int build_number(uint8_t *at, size_t room)
{
    return weighpick_put_number(at, room, 0, 4, 300);
}

static int build_int(uint8_t *at, size_t room)
{
    return weighpick_put_int(at, room, -2);
}

static int build_long(uint8_t *at, size_t room)
{
    return weighpick_put_long(at, room, INT64_MIN + 1);
}

static int build_content(uint8_t *at, size_t room)
{
    return weighpick_put_content(at, room, "ab", 2);
}

static int build_missing(uint8_t *at, size_t room)
{
    return weighpick_put_missing(at, room);
}

static int build_head(uint8_t *at, size_t room)
{
    return weighpick_put_head(at, room, WEIGHPICK_IS_NULL, WEIGHPICK_INT, WEIGHPICK_TRUNCATE, 0x0a0b0c0d);
}

static int build_sheet(uint8_t *at, size_t room)
{
    uint8_t literals[2 * RECORD];
    return weighpick_put_int(literals, RECORD, 300) && weighpick_put_int(literals + RECORD, RECORD, 500)
           && weighpick_put_sheet(at, room, WEIGHPICK_IN, WEIGHPICK_INT, WEIGHPICK_IDENTITY, 0, literals, sizeof literals);
}

static int build_summary(uint8_t *at, size_t room)
{
    uint8_t ends[2 * RECORD];
    return weighpick_put_int(ends, RECORD, 290) && weighpick_put_int(ends + RECORD, RECORD, 310)
           && weighpick_put_summary(at, room, WEIGHPICK_INT, ends, ends + RECORD, 1);
}

static int build_empty_summary(uint8_t *at, size_t room)
{
    return weighpick_put_empty_summary(at, room, WEIGHPICK_DATE, 1);
}

static int build_column(uint8_t *at, size_t room)
{
    return weighpick_put_column(at, room, "lot", WEIGHPICK_STRING, WEIGHPICK_TRUNCATE, 4);
}

/* The builders, with the size of what each builds and its first bytes. */
static const struct {
    const char *name;
    int (*build)(uint8_t *, size_t);
    size_t size;
    uint8_t first[28];
} BUILDERS[] = {
    {"number", build_number, 4, {0x2c, 1}},
    {"int", build_int, RECORD, {0, 0, 4, 0, 0xfe, 0xff, 0xff, 0xff}},
    {"long", build_long, RECORD, {0, 0, 8, 0, 1, 0, 0, 0, 0, 0, 0, 0x80}},
    {"content", build_content, RECORD, {0, 0, 2, 0, 'a', 'b'}},
    {"missing", build_missing, RECORD, {0, 0, 0xff, 0xff}},
    {"head", build_head, RECORD, {0, 0, 101, 0, 1, 1, 0, 0, 0x0d, 0x0c, 0x0b, 0x0a}},
    {"sheet", build_sheet, 3 * RECORD, {1, 0, 0x2d, 1, 1}},
    {"summary", build_summary, WEIGHPICK_SUMMARY_SIZE, {0, 0, 4, 0, 0x22, 1}},
    {"empty summary", build_empty_summary, WEIGHPICK_SUMMARY_SIZE, {0, 0, 0xff, 0xff}},
    {"column", build_column, WEIGHPICK_COLUMN_SIZE,
     {'l', 'o', 't', 0, 0, 0, 0, 0, 0, 0, 0, 0, 0, 0, 0, 0, 0, 0, 0, 0, 9, 1, 0, 0, 4}},
};

/* Each builder with just enough room, a byte less, and none. */
static void test_room(void)
{
    for (size_t i = 0; i < sizeof BUILDERS / sizeof BUILDERS[0]; i++) {
        const char *name = BUILDERS[i].name;
        size_t size = BUILDERS[i].size, first = sizeof BUILDERS[i].first;
        uint8_t *at = lend();
        expect(BUILDERS[i].build(at, size) == 1, name, "is built where there is just the room");
        expect(just_written(size), name, "all its bytes are written, and no other");
        expect(memcmp(at, BUILDERS[i].first, size < first ? size : first) == 0, name, "has the bytes of docs/FORMAT.md");
        expect_refused(BUILDERS[i].build(lend(), size - 1), name, "is refused where a byte is short");
        expect_refused(BUILDERS[i].build(lend(), 0), name, "is refused without room");
    }
}

/* What the holds-test answers of a value by a leaf that is built. */
static uint32_t ask(uint16_t op, uint8_t column_type, const uint8_t *literals, size_t literals_len, const uint8_t *value)
{
    uint8_t sheet[WEIGHPICK_SHEET_MAX];
    if (!weighpick_put_sheet(sheet, sizeof sheet, op, column_type, WEIGHPICK_IDENTITY, 0, literals, literals_len)) {
        return NOT_BUILT;
    }
    return weighpick_holds(sheet, RECORD + literals_len, value, RECORD);
}

/* Contents of no byte, of the most, and of one more. */
static void test_contents(void)
{
    static const size_t LENGTHS[] = {0, 1, WEIGHPICK_CONTENT_MAX - 1, WEIGHPICK_CONTENT_MAX};
    char letters[WEIGHPICK_CONTENT_MAX + 1];
    uint8_t value[RECORD], longer[RECORD];
    const uint8_t *content;
    size_t length;
    memset(letters, 'x', sizeof letters);
    for (size_t i = 0; i < sizeof LENGTHS / sizeof LENGTHS[0]; i++) {
        expect(weighpick_put_content(value, RECORD, letters, LENGTHS[i]), "content", "is built up to the most");
        expect(weighpick_get_content(value, RECORD, &content, &length) && length == LENGTHS[i]
                   && memcmp(content, letters, length) == 0,
               "content", "is read as it was built");
        expect(ask(WEIGHPICK_EQ, WEIGHPICK_STRING, value, RECORD, value) == WEIGHPICK_YES, "content", "is equal to itself");
        if (weighpick_put_content(longer, RECORD, letters, LENGTHS[i] + 1)) {
            expect(ask(WEIGHPICK_STARTS_WITH, WEIGHPICK_BINARY, value, RECORD, longer) == WEIGHPICK_YES, "content",
                   "begins a longer one");
            expect(ask(WEIGHPICK_EQ, WEIGHPICK_BINARY, value, RECORD, longer) == WEIGHPICK_NO, "content", "is not a longer one");
        }
    }
    expect(weighpick_put_content(value, RECORD, NULL, 0), "content", "of no byte may be null");
    expect_refused(weighpick_put_content(lend(), ROOM, letters, sizeof letters), "content", "is refused with one byte more");
    expect_refused(weighpick_put_content(lend(), ROOM, letters, SIZE_MAX), "content", "is refused with any length");
}

/* Numbers in ascending order, the ends of their types among them. */
static void test_ints(void)
{
    static const int32_t INTS[] = {INT32_MIN, INT32_MIN + 1, -256, -1, 0, 1, 256, 65536, INT32_MAX};
    uint8_t value[RECORD], next[RECORD];
    for (size_t i = 0; i < sizeof INTS / sizeof INTS[0]; i++) {
        int32_t read = 7;
        expect(weighpick_put_int(value, RECORD, INTS[i]), "int", "every number is built");
        expect(weighpick_get_int(value, RECORD, &read) && read == INTS[i], "int", "is read as it was built");
        if (i + 1 < sizeof INTS / sizeof INTS[0] && weighpick_put_int(next, RECORD, INTS[i + 1])) {
            expect(ask(WEIGHPICK_LESS_THAN, WEIGHPICK_INT, next, RECORD, value) == WEIGHPICK_YES, "int", "is below the next");
            expect(ask(WEIGHPICK_LESS_THAN, WEIGHPICK_DATE, value, RECORD, next) == WEIGHPICK_NO, "int", "is not above it");
        }
    }
}

static void test_longs(void)
{
    static const int64_t LONGS[] = {INT64_MIN, -4294967296, -1, 0, 1, 256, 4294967295, 4294967296, INT64_MAX};
    uint8_t value[RECORD], next[RECORD];
    for (size_t i = 0; i < sizeof LONGS / sizeof LONGS[0]; i++) {
        int64_t read = 7;
        expect(weighpick_put_long(value, RECORD, LONGS[i]), "long", "every number is built");
        expect(weighpick_get_long(value, RECORD, &read) && read == LONGS[i], "long", "is read as it was built");
        if (i + 1 < sizeof LONGS / sizeof LONGS[0] && weighpick_put_long(next, RECORD, LONGS[i + 1])) {
            expect(ask(WEIGHPICK_LESS_THAN, WEIGHPICK_LONG, next, RECORD, value) == WEIGHPICK_YES, "long", "is below the next");
            expect(ask(WEIGHPICK_LESS_THAN, WEIGHPICK_TIME, value, RECORD, next) == WEIGHPICK_NO, "long", "is not above it");
        }
    }
}

/* A missing value is one of every type, and neither a literal nor an end. */
static void test_missing(void)
{
    uint8_t missing[RECORD], zero[RECORD];
    const uint8_t *content;
    size_t length;
    expect(weighpick_put_missing(missing, RECORD) && weighpick_put_int(zero, RECORD, 0), "missing", "is built");
    expect(ask(WEIGHPICK_IS_NULL, WEIGHPICK_INT, NULL, 0, missing) == WEIGHPICK_YES, "missing", "meets IsNull");
    expect(ask(WEIGHPICK_IS_NULL, WEIGHPICK_INT, NULL, 0, zero) == WEIGHPICK_NO, "missing", "is not 0");
    expect(!weighpick_get_content(missing, RECORD, &content, &length), "missing", "has no content");
    expect_refused(weighpick_put_sheet(lend(), ROOM, WEIGHPICK_EQ, WEIGHPICK_INT, WEIGHPICK_IDENTITY, 0, missing, RECORD),
                   "missing", "is refused as a literal");
    expect_refused(weighpick_put_summary(lend(), ROOM, WEIGHPICK_INT, missing, zero, 0), "missing", "is refused as the lowest");
    expect_refused(weighpick_put_summary(lend(), ROOM, WEIGHPICK_INT, zero, missing, 0), "missing", "is refused as the highest");
}

/* Sets of the most literals, of one more, of none and of a part of one. */
static void test_literals(void)
{
    uint8_t literals[WEIGHPICK_SHEET_MAX], out[WEIGHPICK_SHEET_BUFFER]; /* a literal for the head's place: one too many */
    uint8_t *sheet = lend();
    size_t size = WEIGHPICK_SHEET_MAX, most = sizeof literals - RECORD;
    uint64_t count;
    for (size_t at = 0; at < sizeof literals; at += RECORD) {
        expect(weighpick_put_int(literals + at, RECORD, (int32_t)at), "literals", "are built");
    }
    expect(weighpick_put_sheet(sheet, size, WEIGHPICK_IN, WEIGHPICK_INT, WEIGHPICK_TRUNCATE, 1, literals, most), "literals",
           "are taken up to the most");
    expect(just_written(size), "literals", "the largest sheet ends where it should");
    expect(weighpick_project(sheet, size, out, sizeof out, &count) == WEIGHPICK_RESULT && count == size, "literals",
           "the largest sheet is projected, with all of them");
    for (size_t at = 0; at < sizeof literals; at += RECORD) {
        expect(weighpick_holds(sheet, size, literals + at, RECORD) == (at < most ? WEIGHPICK_YES : WEIGHPICK_NO), "literals",
               "are in, and no other");
    }
    expect(ask(WEIGHPICK_IN, WEIGHPICK_INT, sheet + RECORD, RECORD, literals) == WEIGHPICK_YES, "literals",
           "leave their old chain");
    expect(ask(WEIGHPICK_IN, WEIGHPICK_INT, NULL, 0, literals) == WEIGHPICK_NO, "literals", "may be none");
    expect_refused(weighpick_put_sheet(lend(), ROOM, WEIGHPICK_IN, WEIGHPICK_INT, 0, 0, literals, sizeof literals), "literals",
                   "are refused with one more");
    expect_refused(weighpick_put_sheet(lend(), ROOM, WEIGHPICK_EQ, WEIGHPICK_INT, 0, 0, literals, RECORD + 1), "literals",
                   "are refused with a part of one");
}

/* Nexts that no chain has, and one that leaves a record out. */
static void test_next(void)
{
    uint8_t sheet[3 * RECORD], before[sizeof sheet], first[RECORD], second[RECORD];
    expect(build_sheet(sheet, sizeof sheet), "next", "a sheet is built");
    expect(weighpick_put_int(first, RECORD, 300) && weighpick_put_int(second, RECORD, 500), "next", "its values are built");
    expect(weighpick_holds(sheet, sizeof sheet, first, RECORD) == WEIGHPICK_YES, "next", "the first literal is in");
    memcpy(before, sheet, sizeof sheet);
    expect(!weighpick_put_next(sheet, sizeof sheet, 1, 1), "next", "is not the same record");
    expect(!weighpick_put_next(sheet, sizeof sheet, 2, 1), "next", "is no lower one");
    expect(!weighpick_put_next(sheet, sizeof sheet, 0, 3), "next", "lies within the sheet");
    expect(!weighpick_put_next(sheet, sizeof sheet - 1, 0, 2), "next", "lies within the sheet with its last byte");
    expect(!weighpick_put_next(sheet, sizeof sheet, 0, SIZE_MAX), "next", "is no number that wraps");
    expect(memcmp(before, sheet, sizeof sheet) == 0, "next", "nothing is written where it is refused");
    expect(weighpick_put_next(sheet, sizeof sheet, 0, 2), "next", "may leave a record out");
    expect(weighpick_holds(sheet, sizeof sheet, first, RECORD) == WEIGHPICK_NO, "next", "the first literal is left out");
    expect(weighpick_holds(sheet, sizeof sheet, second, RECORD) == WEIGHPICK_YES, "next", "the second literal is in");
}

/* The longest chain for the holds-test, literal by literal, and one more. */
static void test_long_chain(void)
{
    uint8_t *sheet = lend();
    expect(weighpick_put_head(sheet, ROOM, WEIGHPICK_IN, WEIGHPICK_LONG, WEIGHPICK_IDENTITY, 0), "chain", "its head is built");
    for (size_t i = 1; i <= WEIGHPICK_ANSWER_LITERALS_MAX; i++) {
        expect(weighpick_put_long(sheet + RECORD * i, RECORD, (int64_t)i) && weighpick_put_next(sheet, RECORD * (i + 1), i - 1, i),
               "chain", "is built up to the most");
    }
    const uint8_t *last = sheet + RECORD * WEIGHPICK_ANSWER_LITERALS_MAX;
    expect(weighpick_holds(sheet, WEIGHPICK_SHEET_BUFFER, last, RECORD) == WEIGHPICK_YES, "chain", "the last literal is in");
    expect(!weighpick_put_next(sheet, ROOM, WEIGHPICK_ANSWER_LITERALS_MAX, WEIGHPICK_ANSWER_LITERALS_MAX + 1), "chain",
           "is refused with one more");
    expect(just_written(WEIGHPICK_SHEET_BUFFER), "chain", "ends where it should");
}

/* The leaf of docs/FORMAT.md, and its answer. */
static void test_sheet(void)
{
    uint8_t literal[RECORD], sheet[2 * RECORD], out[WEIGHPICK_SHEET_BUFFER];
    uint64_t count, op = 0;
    int32_t step = 0;
    expect(weighpick_put_int(literal, RECORD, 300), "sheet", "its literal is built");
    expect(weighpick_put_sheet(sheet, sizeof sheet, WEIGHPICK_LESS_THAN, WEIGHPICK_INT, WEIGHPICK_TRUNCATE, 10, literal, RECORD),
           "sheet", "is built");
    expect(weighpick_project(sheet, sizeof sheet, out, sizeof out, &count) == WEIGHPICK_RESULT && count == 2 * RECORD, "sheet",
           "is projected");
    expect(weighpick_get_number(out, (size_t)count, WEIGHPICK_OPERATOR_AT, 2, &op) && op == WEIGHPICK_LESS_THAN_OR_EQ, "sheet",
           "becomes at most");
    expect(weighpick_get_int(out + RECORD, RECORD, &step) && step == 290, "sheet", "becomes 290");
}

/* The verdict on a summary by an operator and an Int. */
static uint32_t verdict(uint16_t op, int32_t number, const uint8_t *summary)
{
    uint8_t literal[RECORD], sheet[2 * RECORD], out;
    uint64_t count;
    size_t literals_len = op == WEIGHPICK_IS_NULL ? 0 : RECORD;
    if (!weighpick_put_int(literal, RECORD, number)
        || !weighpick_put_sheet(sheet, sizeof sheet, op, WEIGHPICK_INT, WEIGHPICK_IDENTITY, 0, literal, literals_len)
        || weighpick_test_summary(sheet, RECORD + literals_len, summary, WEIGHPICK_SUMMARY_SIZE, &out, sizeof out, &count)
               != WEIGHPICK_RESULT) {
        return NOT_BUILT;
    }
    return out;
}

/* The summary of the Ints from 290 to 310, and of none, each with a missing value and without. */
static void test_summaries(void)
{
    uint8_t lowest[RECORD], highest[RECORD], summary[WEIGHPICK_SUMMARY_SIZE];
    expect(weighpick_put_int(lowest, RECORD, 290) && weighpick_put_int(highest, RECORD, 310), "summary", "its ends are built");
    expect(weighpick_put_summary(summary, sizeof summary, WEIGHPICK_INT, lowest, highest, 0), "summary", "is built");
    expect(verdict(WEIGHPICK_LESS_THAN, 290, summary) == WEIGHPICK_SKIP, "summary", "begins with the lowest");
    expect(verdict(WEIGHPICK_LESS_THAN, 291, summary) == WEIGHPICK_READ, "summary", "has the lowest");
    expect(verdict(WEIGHPICK_LESS_THAN, 310, summary) == WEIGHPICK_READ, "summary", "has the highest");
    expect(verdict(WEIGHPICK_LESS_THAN, 311, summary) == WEIGHPICK_WHOLE, "summary", "ends with the highest");
    expect(verdict(WEIGHPICK_IS_NULL, 0, summary) == WEIGHPICK_SKIP, "summary", "has no missing value");
    expect(weighpick_put_summary(summary, sizeof summary, WEIGHPICK_INT, lowest, highest, 2), "summary", "is built with any yes");
    expect(verdict(WEIGHPICK_IS_NULL, 0, summary) == WEIGHPICK_READ, "summary", "has a missing value");
    expect(weighpick_put_empty_summary(summary, sizeof summary, WEIGHPICK_INT, 0), "empty summary", "is built");
    expect(verdict(WEIGHPICK_IS_NULL, 0, summary) == WEIGHPICK_SKIP, "empty summary", "has no value");
    expect(weighpick_put_empty_summary(summary, sizeof summary, WEIGHPICK_INT, 2), "empty summary", "is built with any yes");
    expect(verdict(WEIGHPICK_IS_NULL, 0, summary) == WEIGHPICK_WHOLE, "empty summary", "has missing values only");
}

/* Names of one letter, of the most, of one more, and of none. */
static void test_names(void)
{
    static const char NAME[] = "abcdefghijklmnopq";
    static const char TEXT[] = "bcdefghijklmnopq < 300"; /* the second column, of the longest name */
    uint8_t columns[2 * WEIGHPICK_COLUMN_SIZE], values[2 * RECORD];
    const uint8_t *text = (const uint8_t *)TEXT;
    expect(sizeof NAME == WEIGHPICK_NAME_SIZE + 2, "name", "has one letter more than the most");
    expect_refused(weighpick_put_column(lend(), ROOM, NAME, WEIGHPICK_INT, WEIGHPICK_VOID, 0), "name", "is refused with one more");
    expect_refused(weighpick_put_column(lend(), ROOM, "", WEIGHPICK_INT, WEIGHPICK_VOID, 0), "name", "is refused without a letter");
    expect(weighpick_put_column(columns, sizeof columns, NAME + WEIGHPICK_NAME_SIZE, WEIGHPICK_STRING, WEIGHPICK_VOID, 0)
               && weighpick_put_column(columns + WEIGHPICK_COLUMN_SIZE, WEIGHPICK_COLUMN_SIZE, NAME + 1, WEIGHPICK_INT,
                                       WEIGHPICK_TRUNCATE, 10),
           "name", "is taken with one letter and with the most");
    expect(weighpick_put_missing(values, RECORD) && weighpick_put_int(values + RECORD, RECORD, 290), "name", "values are built");
    expect(weighpick_filter_row(columns, sizeof columns, text, strlen(TEXT), values, sizeof values) == WEIGHPICK_YES, "name",
           "is found by a filter of rows");
    expect(weighpick_filter_project(columns, sizeof columns, text, strlen(TEXT), values, sizeof values) == WEIGHPICK_YES, "name",
           "is found by a filter of files");
    expect(weighpick_put_int(values + RECORD, RECORD, 300), "name", "another value is built");
    expect(weighpick_filter_project(columns, sizeof columns, text, strlen(TEXT), values, sizeof values) == WEIGHPICK_NO, "name",
           "has its transform and width");
}

/* Fields at the edges of the bytes there are, and numbers at those of their fields. */
static void test_fields(void)
{
    static const uint8_t BYTES[] = {1, 2, 3, 4, 5, 6, 7, 8, 9};
    uint64_t number = 7;
    expect(!weighpick_get_number(BYTES, 9, 8, 2, &number), "field", "is not read beyond the bytes");
    expect(!weighpick_get_number(BYTES, 9, 10, 0, &number), "field", "does not begin beyond them");
    expect(!weighpick_get_number(BYTES, 9, SIZE_MAX, 2, &number), "field", "does not wrap");
    expect(!weighpick_get_number(BYTES, 9, 0, 9, &number), "field", "has at most 8 bytes");
    expect(number == 7, "field", "nothing is set where it is refused");
    expect(weighpick_get_number(BYTES, 9, 7, 2, &number) && number == 0x0908, "field", "is read at the end");
    expect(weighpick_get_number(BYTES, 9, 1, 8, &number) && number == 0x0908070605040302, "field", "is read with 8 bytes");
    expect_refused(weighpick_put_number(lend(), ROOM, 0, 2, 65536), "field", "is not written with a number that is too large");
    expect_refused(weighpick_put_number(lend(), 9, 8, 2, 1), "field", "is not written beyond the room");
    expect_refused(weighpick_put_number(lend(), ROOM, 0, 9, 1), "field", "is not written with over 8 bytes");
    expect(weighpick_put_number(lend(), 2, 0, 2, 65535) && just_written(2), "field", "is written with its greatest number");
    expect(weighpick_put_number(lend(), 8, 0, 8, UINT64_MAX) && just_written(8), "field", "is written with 8 bytes");
}

/* Records that are too short, or hold something else. */
static void test_readers(void)
{
    uint8_t four[RECORD], eight[RECORD];
    int32_t number = 7;
    int64_t long_number = 7;
    const uint8_t *content = four;
    size_t length = 7;
    expect(weighpick_put_int(four, RECORD, 1) && weighpick_put_long(eight, RECORD, 1), "reader", "records are built");
    expect(!weighpick_get_int(four, RECORD - 1, &number), "reader", "no int where a byte is short");
    expect(!weighpick_get_int(eight, RECORD, &number), "reader", "no int of 8 bytes");
    expect(!weighpick_get_long(eight, RECORD - 1, &long_number), "reader", "no long where a byte is short");
    expect(!weighpick_get_long(four, RECORD, &long_number), "reader", "no long of 4 bytes");
    four[WEIGHPICK_LENGTH_AT] = WEIGHPICK_CONTENT_MAX + 1;
    expect(!weighpick_get_content(four, RECORD, &content, &length), "reader", "no content of over the most");
    expect(!weighpick_get_content(eight, RECORD - 1, &content, &length), "reader", "no content where a byte is short");
    expect(number == 7 && long_number == 7 && content == four && length == 7, "reader", "nothing is set where it is refused");
}

int main(void)
{
    expect(weighpick_version() == WEIGHPICK_VERSION_NUMBER, "library", "is of this version");
    test_room();
    test_contents();
    test_ints();
    test_longs();
    test_missing();
    test_literals();
    test_next();
    test_long_chain();
    test_sheet();
    test_summaries();
    test_names();
    test_fields();
    test_readers();
    if (!failed) {
        puts("build_test: all is as it should be");
    }
    return failed;
}

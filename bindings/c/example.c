/*
 * A bench terminal's use of weighpick: the leaf `< 300` of an Int column under Truncate 10, both questions, the partition values
 * of two weighings, and what is done with their files; then the leaf `>= 0` of a Date under Year, and what is done with the files
 * of older writers; then a filter over two columns, asked of weighings and of their partition values. Prints what it finds and
 * returns non-zero if that is not what it should be.
 */
#include "example.h"

enum {
    LOT_WIDTH = 4,                           /* of the beginnings of lots that split the table */
    COLUMNS_SIZE = 2 * WEIGHPICK_COLUMN_SIZE /* of the list of lot and grams */
};

/* The filter that a chef types. */
static const char FILTER[] = "lot startswith 'ab' and not (grams < 300 or grams = 500)";

/* One value record a column, side by side: of a weighing, or of the file that it lies in. */
struct values {
    uint8_t lot[WEIGHPICK_RECORD_SIZE];
    uint8_t grams[WEIGHPICK_RECORD_SIZE];
};

/* One of the three routines of filters. */
typedef uint32_t filter_routine(const uint8_t *, size_t, const uint8_t *, size_t, const uint8_t *, size_t);

/* Asks one question and prints its line as program `weighpick` does. */
static int ask(const char *question, projection *project, const uint8_t *sheet, struct predicate *out, const char *expected)
{
    char line[LINE_SIZE];
    uint64_t op;
    int32_t literal;
    uint32_t answer = project(sheet, SAMPLE_SIZE, out->sheet, sizeof out->sheet, &out->count);
    if (answer == WEIGHPICK_RESULT && out->count == SAMPLE_SIZE
        && weighpick_get_number(out->sheet, SAMPLE_SIZE, WEIGHPICK_OPERATOR_AT, 2, &op)
        && weighpick_get_int(out->sheet + WEIGHPICK_RECORD_SIZE, WEIGHPICK_RECORD_SIZE, &literal)) {
        snprintf(line, sizeof line, "%s %u %u %ld", question, (unsigned)answer, (unsigned)op, (long)literal);
    } else {
        snprintf(line, sizeof line, "%s %u", question, (unsigned)answer);
    }
    return print_line(line, expected);
}

/* Tests a partition value with a predicate. */
static uint32_t test(const struct predicate *predicate, const uint8_t *partition)
{
    return weighpick_holds(predicate->sheet, (size_t)predicate->count, partition, WEIGHPICK_RECORD_SIZE);
}

/*
 * What is done with a file, by what the holds-tests of both predicates, or both questions of a filter, say of its partition
 * values. Only a plain no passes it over, so that a refusal loses no weighing.
 */
static const char *decide(uint32_t inclusive, uint32_t strict)
{
    if (inclusive == WEIGHPICK_NO) {
        return "pass over";
    }
    return strict == WEIGHPICK_YES ? "read whole" : "read and filter";
}

/* Finds the partition value of a value under Truncate. */
static uint32_t partition_of(uint8_t column_type, uint32_t width, const uint8_t *value, uint8_t *partition)
{
    uint64_t count;
    return weighpick_transform(column_type, WEIGHPICK_TRUNCATE, width, value, WEIGHPICK_RECORD_SIZE, partition,
                               WEIGHPICK_VALUE_BUFFER, &count);
}

/* Finds a weighing's partition value and prints what is done with the file that it lies in. */
static int pick(int32_t grams, const struct predicate *inclusive, const struct predicate *strict, const char *expected)
{
    uint8_t value[WEIGHPICK_RECORD_SIZE];
    uint8_t partition[WEIGHPICK_VALUE_BUFFER];
    char line[LINE_SIZE];
    int32_t step;
    if (weighpick_put_int(value, sizeof value, grams) && partition_of(WEIGHPICK_INT, WIDTH, value, partition) == WEIGHPICK_RESULT
        && weighpick_get_int(partition, sizeof partition, &step)) {
        snprintf(line, sizeof line, "%ld g in partition %ld: %s", (long)grams, (long)step,
                 decide(test(inclusive, partition), test(strict, partition)));
    } else {
        snprintf(line, sizeof line, "%ld g: no partition value", (long)grams);
    }
    return print_line(line, expected);
}

/* Builds the sheet of the leaf `>= 0` of a Date under Year: weighings since 1970. */
static int put_since_1970(uint8_t *sheet, size_t room)
{
    uint8_t literal[WEIGHPICK_RECORD_SIZE];
    return weighpick_put_int(literal, sizeof literal, 0)
           && weighpick_put_sheet(sheet, room, WEIGHPICK_GREATER_THAN_OR_EQ, WEIGHPICK_DATE, WEIGHPICK_YEAR, 0, literal,
                                  sizeof literal);
}

/* Prints what is done with the file of a year, and what if an older writer may have written it. */
static int pick_year(int32_t year, const struct predicate *inclusive, const struct predicate *strict,
                     const struct predicate *older, const char *expected)
{
    uint8_t partition[WEIGHPICK_RECORD_SIZE];
    char line[LINE_SIZE];
    if (!weighpick_put_int(partition, sizeof partition, year)) {
        return 0;
    }
    uint32_t accepted = test(inclusive, partition);
    snprintf(line, sizeof line, "year %ld: %s, of an older writer: %s", (long)year, decide(accepted, test(strict, partition)),
             decide(accepted, test(older, partition)));
    return print_line(line, expected);
}

/* Weighings since 1970, by year. A weighing of 1969 may lie under -1, and in a file of an older writer under 0 too. */
static int pick_years(void)
{
    uint8_t sheet[SAMPLE_SIZE];
    struct predicate inclusive, strict, older;
    if (!put_since_1970(sheet, sizeof sheet)) {
        return 0;
    }
    int good = ask("inclusive", weighpick_project, sheet, &inclusive, "inclusive 0 204 0");
    good &= ask("strict", weighpick_strict_project, sheet, &strict, "strict 0 203 -1");
    good &= ask("older", weighpick_strict_project_older, sheet, &older, "older 0 203 0");
    good &= pick_year(-1, &inclusive, &strict, &older, "year -1: pass over, of an older writer: pass over");
    good &= pick_year(0, &inclusive, &strict, &older, "year 0: read whole, of an older writer: read and filter");
    good &= pick_year(1, &inclusive, &strict, &older, "year 1: read whole, of an older writer: read whole");
    return good;
}

/* Builds the columns that the filter can name: lot and grams. */
static int put_columns(uint8_t *columns, size_t room)
{
    return weighpick_put_column(columns, room, "lot", WEIGHPICK_STRING, WEIGHPICK_TRUNCATE, LOT_WIDTH)
           && weighpick_put_column(columns + WEIGHPICK_COLUMN_SIZE, room - WEIGHPICK_COLUMN_SIZE, "grams", WEIGHPICK_INT,
                                   WEIGHPICK_TRUNCATE, WIDTH);
}

/* Builds the values of a weighing; 0 if the lot is too long for a record. */
static int put_row(struct values *row, const char *lot, int32_t grams)
{
    return weighpick_put_content(row->lot, sizeof row->lot, lot, strlen(lot))
           && weighpick_put_int(row->grams, sizeof row->grams, grams);
}

/* Finds the partition values of a weighing, each under its column's Truncate. */
static int put_partition(struct values *partition, const struct values *row)
{
    return partition_of(WEIGHPICK_STRING, LOT_WIDTH, row->lot, partition->lot) == WEIGHPICK_RESULT
           && partition_of(WEIGHPICK_INT, WIDTH, row->grams, partition->grams) == WEIGHPICK_RESULT;
}

/* Asks the filter of one value a column. */
static uint32_t ask_filter(filter_routine *routine, const uint8_t *columns, const struct values *values)
{
    return routine(columns, COLUMNS_SIZE, (const uint8_t *)FILTER, strlen(FILTER), (const uint8_t *)values, sizeof *values);
}

/* Prints whether a weighing meets the filter, what both questions say of its partition values, and what is done with its file. */
static int filter(const uint8_t *columns, const char *lot, int32_t grams, const char *expected)
{
    struct values row, partition;
    char line[LINE_SIZE];
    if (put_row(&row, lot, grams) && put_partition(&partition, &row)) {
        uint32_t inclusive = ask_filter(weighpick_filter_project, columns, &partition);
        uint32_t strict = ask_filter(weighpick_filter_strict_project, columns, &partition);
        snprintf(line, sizeof line, "%s %ld g: row %u, inclusive %u, strict %u: %s", lot, (long)grams,
                 (unsigned)ask_filter(weighpick_filter_row, columns, &row), (unsigned)inclusive, (unsigned)strict,
                 decide(inclusive, strict));
    } else {
        snprintf(line, sizeof line, "%.20s.. %ld g: no partition values", lot, (long)grams);
    }
    return print_line(line, expected);
}

/* The filter, asked of three weighings and their files, and of a lot that is too long. */
static int pick_filtered(void)
{
    uint8_t columns[COLUMNS_SIZE];
    if (!put_columns(columns, sizeof columns)) {
        return 0;
    }
    int good = filter(columns, "ab12x", 310, "ab12x 310 g: row 0, inclusive 0, strict 0: read whole");
    good &= filter(columns, "ab12x", 500, "ab12x 500 g: row 1, inclusive 0, strict 1: read and filter");
    good &= filter(columns, "ab12x", 290, "ab12x 290 g: row 1, inclusive 1, strict 1: pass over");
    good &= filter(columns, "ab12x of a label that was scanned together with all the text below", 310,
                   "ab12x of a label tha.. 310 g: no partition values");
    return good;
}

int main(void)
{
    uint8_t sheet[SAMPLE_SIZE];
    struct predicate inclusive, strict;
    if (weighpick_version() != WEIGHPICK_VERSION_NUMBER) {
        fprintf(stderr, "the library is not of version %s\n", WEIGHPICK_VERSION);
        return 1;
    }
    if (!put_sample(sheet, sizeof sheet)) {
        return 1;
    }
    int good = ask("inclusive", weighpick_project, sheet, &inclusive, "inclusive 0 202 290");
    good &= ask("strict", weighpick_strict_project, sheet, &strict, "strict 0 201 300");
    good &= pick(287, &inclusive, &strict, "287 g in partition 280: read whole");
    good &= pick(300, &inclusive, &strict, "300 g in partition 300: pass over");
    good &= pick_years();
    good &= pick_filtered();
    return good ? 0 : 1;
}

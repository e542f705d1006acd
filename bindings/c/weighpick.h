/*
 * weighpick: leaf projection over weighing sheets, filters, and files known only by their ends, for C99 and C++.
 *
 * A sheet is a chain of records. Record 0, the head, says operator, column type, transform and width; every further record on
 * the chain is a literal. A projection answers with such a sheet, the predicate that partition values are tested with. A value is
 * one literal record. Numbers in records are little-endian, two's complement.
 *
 * A filter is a text, as `lot startswith 'ab' and not (grams < 300 or grams = 500)`, over a list of named columns; values are one
 * value record a column, side by side.
 *
 * A summary says what a file list knows of a file: the records of its lowest and highest partition value, their type, and whether
 * a missing one occurs. Two of them are pooled into one, which says it of both files. docs/FORMAT.md says all of it, with examples;
 * weighpick_build.h builds the bytes.
 *
 * The routines take bytes of every kind, keep no state and may run on several threads at once. Any lent memory must be readable
 * (`out`, `count` and the three numbers of pooling: writable) for its whole length; no pointer may be null, also with a length of
 * 0; `out` and `count`, and the three numbers, may not overlap with each other or with what is read.
 */
#ifndef WEIGHPICK_H
#define WEIGHPICK_H

/* The version; bindings/rust/Cargo.toml has the same, and CHANGELOG.md says what it has. */
#define WEIGHPICK_VERSION "0.9.0"
#define WEIGHPICK_VERSION_MAJOR 0
#define WEIGHPICK_VERSION_MINOR 9
#define WEIGHPICK_VERSION_PATCH 0
/* The version as one number: of a later one it is greater. */
#define WEIGHPICK_VERSION_NUMBER (1000000 * WEIGHPICK_VERSION_MAJOR + 1000 * WEIGHPICK_VERSION_MINOR + WEIGHPICK_VERSION_PATCH)

#include <stddef.h>
#include <stdint.h>

#ifdef __cplusplus
extern "C" {
#endif

/*
 * What a routine returns, but for weighpick_version. After every number but WEIGHPICK_RESULT nothing was written and the count
 * is 0.
 */
enum weighpick_answer {
    WEIGHPICK_RESULT = 0,              /* result written, or the three numbers set */
    WEIGHPICK_YES = 0,                 /* for the holds-test and for a filter */
    WEIGHPICK_NONE = 1,                /* no predicate */
    WEIGHPICK_NO = 1,                  /* for the holds-test and for a filter */
    WEIGHPICK_BUFFER_TOO_SMALL = 2,    /* result buffer under WEIGHPICK_SHEET_BUFFER, _VALUE_BUFFER or _VERDICT_BUFFER */
    WEIGHPICK_MALFORMED = 3,           /* malformed sheet, value, summary or column list */
    WEIGHPICK_NOT_UTF8 = 4,            /* a String literal, value or end is not UTF-8 */
    WEIGHPICK_NO_RESULT_TYPE = 5,      /* the transform does not apply to the column's type */
    WEIGHPICK_DATA_INVALID = 6,        /* calendar or width exceeded, where the crate iceberg answers DataInvalid */
    WEIGHPICK_FEATURE_UNSUPPORTED = 7, /* transform Unknown */
    WEIGHPICK_OVERFLOW = 8,            /* a number leaves its type, where the crate iceberg panics or wraps */
    WEIGHPICK_OUTSIDE_GRAMMAR = 9,     /* no filter, a name that is not in the list, or a literal that does not fit its column */
    WEIGHPICK_TOO_LARGE = 10,          /* over WEIGHPICK_TEXT_MAX bytes, or a filter over _LEAVES_MAX or _BRACKETS_MAX */
    WEIGHPICK_WRONG_SUMMARY = 11,      /* a summary's lowest is above its highest, or its type is not the sheet's */
    WEIGHPICK_DIFFERENT_TYPES = 12     /* the two summaries have different types */
};

/* The byte that the test of a summary writes: what is done with the file. */
enum weighpick_verdict {
    WEIGHPICK_SKIP = 0, /* no value that the file may hold meets the predicate */
    WEIGHPICK_READ = 1, /* some may */
    WEIGHPICK_WHOLE = 2 /* all of them do; never said of a String or Binary */
};

/* Whose end is the pooled summary's: what pooling sets for the lowest, and for the highest. */
enum weighpick_whose {
    WEIGHPICK_FIRST = 0, /* the first file's */
    WEIGHPICK_SECOND = 1 /* the second's */
};

/* What ends in _SIZE has so many bytes, what ends in _MAX is the most there may be, in bytes unless it counts something else. */
#define WEIGHPICK_RECORD_SIZE 64  /* a record */
#define WEIGHPICK_LITERALS_MAX 64 /* literals of a sheet to be projected */
#define WEIGHPICK_MISSING 65535   /* the length that marks a value as missing */
#define WEIGHPICK_NAME_SIZE 16    /* a column's name in a list, with the zeros behind it */
#define WEIGHPICK_COLUMNS_MAX 8   /* columns of a list */
#define WEIGHPICK_TEXT_MAX 4096   /* a filter's text */
#define WEIGHPICK_LEAVES_MAX 32   /* leaves of a filter */
#define WEIGHPICK_BRACKETS_MAX 16 /* brackets of a filter that are open at one place */

/* The content of a record: a String or Binary. */
#define WEIGHPICK_CONTENT_MAX (WEIGHPICK_RECORD_SIZE - WEIGHPICK_CONTENT_AT)
/* A sheet to be projected: a head and its literals. */
#define WEIGHPICK_SHEET_MAX (WEIGHPICK_RECORD_SIZE * (1 + WEIGHPICK_LITERALS_MAX))
/* Literals of an answer sheet, and of a sheet for the holds-test. */
#define WEIGHPICK_ANSWER_LITERALS_MAX (2 * WEIGHPICK_LITERALS_MAX)
/* The least result buffer of a projection. */
#define WEIGHPICK_SHEET_BUFFER (WEIGHPICK_RECORD_SIZE * (1 + WEIGHPICK_ANSWER_LITERALS_MAX))
/* The least result buffer of one value's transform. */
#define WEIGHPICK_VALUE_BUFFER WEIGHPICK_RECORD_SIZE
/* The least result buffer of a summary's test: a verdict. */
#define WEIGHPICK_VERDICT_BUFFER 1
/* An entry of a column list: a name, and a head with next and operator 0. */
#define WEIGHPICK_COLUMN_SIZE (WEIGHPICK_NAME_SIZE + WEIGHPICK_RECORD_SIZE)
/* A summary: two value records, a type and a flag. */
#define WEIGHPICK_SUMMARY_SIZE (WEIGHPICK_FLAG_AT + 1)

/* Where the fields of a record lie; the rest of a record is zero. */
#define WEIGHPICK_NEXT_AT 0      /* 2 bytes: number of the next record on the chain, above this one's; 0 ends it */
#define WEIGHPICK_OPERATOR_AT 2  /* head, 2 bytes: operator */
#define WEIGHPICK_TYPE_AT 4      /* head, 1 byte: column type */
#define WEIGHPICK_TRANSFORM_AT 5 /* head, 1 byte: transform */
#define WEIGHPICK_WIDTH_AT 8     /* head, 4 bytes: width, 0 unless the transform is Truncate */
#define WEIGHPICK_LENGTH_AT 2    /* literal, 2 bytes: length of its content */
#define WEIGHPICK_CONTENT_AT 4   /* literal: content */

/* Where the parts of a summary lie. */
#define WEIGHPICK_LOWEST_AT 0                                 /* the record of the lowest present value */
#define WEIGHPICK_HIGHEST_AT WEIGHPICK_RECORD_SIZE            /* the record of the highest */
#define WEIGHPICK_SUMMARY_TYPE_AT (2 * WEIGHPICK_RECORD_SIZE) /* 1 byte: the type of both */
#define WEIGHPICK_FLAG_AT (WEIGHPICK_SUMMARY_TYPE_AT + 1)     /* 1 byte: the sum of what holds of the two below */
#define WEIGHPICK_HAS_MISSING 1                               /* a missing value occurs */
#define WEIGHPICK_NONE_PRESENT 2                              /* no value is present; both records are marked missing */

/* Operators; 101 to 104 take no literal, 201 to 208 one, 301 and 302 a set of any size up to the most. */
enum weighpick_operator {
    WEIGHPICK_IS_NULL = 101,            /* missing */
    WEIGHPICK_NOT_NULL = 102,           /* present */
    WEIGHPICK_IS_NAN = 103,             /* holds of nothing */
    WEIGHPICK_NOT_NAN = 104,            /* present */
    WEIGHPICK_LESS_THAN = 201,          /* < */
    WEIGHPICK_LESS_THAN_OR_EQ = 202,    /* <= */
    WEIGHPICK_GREATER_THAN = 203,       /* > */
    WEIGHPICK_GREATER_THAN_OR_EQ = 204, /* >= */
    WEIGHPICK_EQ = 205,                 /* = */
    WEIGHPICK_NOT_EQ = 206,             /* missing, or not = */
    WEIGHPICK_STARTS_WITH = 207,        /* a string or binary that starts with the literal */
    WEIGHPICK_NOT_STARTS_WITH = 208,    /* missing, or not so */
    WEIGHPICK_IN = 301,                 /* one of the literals */
    WEIGHPICK_NOT_IN = 302              /* missing, or none of them */
};

/* Column types. */
enum weighpick_type {
    WEIGHPICK_INT = 1,            /* 4 bytes */
    WEIGHPICK_LONG = 2,           /* 8 bytes */
    WEIGHPICK_DATE = 3,           /* 4 bytes: days from 1970-01-01 */
    WEIGHPICK_TIME = 4,           /* 8 bytes: microseconds from midnight */
    WEIGHPICK_TIMESTAMP = 5,      /* 8 bytes: microseconds from 1970-01-01 */
    WEIGHPICK_TIMESTAMPTZ = 6,    /* the same, with a time zone */
    WEIGHPICK_TIMESTAMP_NS = 7,   /* 8 bytes: nanoseconds from 1970-01-01 */
    WEIGHPICK_TIMESTAMPTZ_NS = 8, /* the same, with a time zone */
    WEIGHPICK_STRING = 9,         /* 0 to WEIGHPICK_CONTENT_MAX bytes of UTF-8 */
    WEIGHPICK_BINARY = 10         /* 0 to WEIGHPICK_CONTENT_MAX bytes */
};

/* Transforms. */
enum weighpick_transform_number {
    WEIGHPICK_IDENTITY = 0, /* the value itself */
    WEIGHPICK_TRUNCATE = 1, /* a number's step of a width; a string's first code points, a binary's first bytes */
    WEIGHPICK_YEAR = 2,     /* years from 1970 */
    WEIGHPICK_MONTH = 3,    /* months from January 1970 */
    WEIGHPICK_DAY = 4,      /* days from 1970-01-01 */
    WEIGHPICK_HOUR = 5,     /* hours from 1970-01-01 */
    WEIGHPICK_VOID = 6,     /* always missing */
    WEIGHPICK_UNKNOWN = 7   /* not known here */
};

/*
 * The version of the library, to be held to WEIGHPICK_VERSION_NUMBER, that of this header. A stale library links silently, so a
 * caller asks once, at its start.
 */
uint32_t weighpick_version(void);

/* Inclusive projection: a predicate that accepts the partition value of every row that meets the sheet's leaf. */
uint32_t weighpick_project(const uint8_t *sheet, size_t sheet_len, uint8_t *out, size_t out_len, uint64_t *count);

/*
 * Strict projection: a predicate that accepts only partition values all of whose rows meet the sheet's leaf. Files of older writers
 * need the next one.
 */
uint32_t weighpick_strict_project(const uint8_t *sheet, size_t sheet_len, uint8_t *out, size_t out_len, uint64_t *count);

/*
 * Strict projection for files of older writers, which rounded Year, Month and, of WEIGHPICK_TIMESTAMP alone, Day toward zero: a row
 * with a negative partition value may lie under it or under the next. The predicate accepts only partition values under which all
 * rows that may lie there meet the sheet's leaf. It is needed where such a file may be taken whole: by `>= 0` of a Date under Year
 * the strict predicate accepts year 0, where a row of 1969 may lie, and this one does not.
 *
 * weighpick_project loses no row of such files as it is. The refusals are weighpick_strict_project's; under every other transform
 * the answer is too, byte for byte.
 */
uint32_t weighpick_strict_project_older(const uint8_t *sheet, size_t sheet_len, uint8_t *out, size_t out_len, uint64_t *count);

/* The partition value of one value, as a value record. */
uint32_t weighpick_transform(uint8_t column_type, uint8_t transform, uint32_t width, const uint8_t *value, size_t value_len,
                             uint8_t *out, size_t out_len, uint64_t *count);

/* Holds-test: whether a value meets a sheet's leaf, or a partition value an answer sheet's predicate. */
uint32_t weighpick_holds(const uint8_t *sheet, size_t sheet_len, const uint8_t *value, size_t value_len);

/*
 * The test of a summary: one byte is written, a verdict on the file by a sheet's leaf, or by an answer sheet's predicate. By an
 * inclusive predicate WEIGHPICK_SKIP says that no row of the file meets the leaf, by a strict one WEIGHPICK_WHOLE that all do. For
 * files of older writers the strict one is weighpick_strict_project_older's.
 */
uint32_t weighpick_test_summary(const uint8_t *sheet, size_t sheet_len, const uint8_t *summary, size_t summary_len, uint8_t *out,
                                size_t out_len, uint64_t *count);

/*
 * The summary of two files together, of one type: `lowest` and `highest` say whose its ends are, the lower of the lowest and the
 * higher of the highest, and `flag` is its flag. Equal ends are the first file's. A file without present values leaves both ends to
 * the other; where neither has any, they are the first's.
 *
 * No byte is copied. The pooled summary is the record at WEIGHPICK_LOWEST_AT of the one, that at WEIGHPICK_HIGHEST_AT of the other,
 * the type and the flag. It may hold what either file may hold, and a predicate that skips it skips each of the two. Pooling with
 * an empty file gives the other's bytes, and the two give the same bytes in either order.
 *
 * After every number but WEIGHPICK_RESULT the three numbers are as they were.
 */
uint32_t weighpick_pool(const uint8_t *first, size_t first_len, const uint8_t *second, size_t second_len, uint64_t *lowest,
                        uint64_t *highest, uint64_t *flag);

/*
 * Filters. `columns` is a list of 1 to WEIGHPICK_COLUMNS_MAX entries, `text` the filter's bytes, without a zero behind them, and
 * `values` one value record a column, in the list's order. Nothing is written.
 */

/* Whether a row meets a filter. */
uint32_t weighpick_filter_row(const uint8_t *columns, size_t columns_len, const uint8_t *text, size_t text_len,
                              const uint8_t *values, size_t values_len);

/*
 * Inclusive question: no only if no row with these partition values meets the filter. This holds of files of older writers too, for
 * which see weighpick_strict_project_older.
 */
uint32_t weighpick_filter_project(const uint8_t *columns, size_t columns_len, const uint8_t *text, size_t text_len,
                                  const uint8_t *values, size_t values_len);

/*
 * Strict question: yes only if every row with these partition values meets the filter. This does not hold of files of older writers
 * where the filter names a column under Year, Month or, of WEIGHPICK_TIMESTAMP alone, Day: `day >= 0` of a Date under Year is yes
 * at year 0, where a row of 1969 may lie. Filters have no third question: such a file is passed over or filtered, and never taken
 * whole.
 */
uint32_t weighpick_filter_strict_project(const uint8_t *columns, size_t columns_len, const uint8_t *text, size_t text_len,
                                         const uint8_t *values, size_t values_len);

#ifdef __cplusplus
}
#endif

#endif

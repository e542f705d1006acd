/*
 * Builders of what the routines of weighpick.h take, and readers of what they write, for C99 and C++: literals and values, sheets,
 * summaries and the entries of column lists. docs/FORMAT.md says what each byte is.
 *
 * A builder is handed the place to write to and the room there is, in bytes. It returns 1; or 0, and then it has written nothing:
 * where the room is too small, where what it is handed is too long or too many, and where a record that needs a content has none.
 * Behind what it builds it writes nothing. Operators, types, transforms, widths and letters it takes as they are: the library
 * refuses those that may not be.
 *
 * A reader returns 1; or 0, and then it has set nothing: where there are too few bytes, or something else than it reads.
 *
 * What is written may not overlap with what is read.
 */
#ifndef WEIGHPICK_BUILD_H
#define WEIGHPICK_BUILD_H

#include <string.h>

#include "weighpick.h"

/* Whether a field of `size` bytes, at most 8, that begins at byte `at` lies within `len` bytes. */
static inline int weighpick_has_field(size_t len, size_t at, size_t size)
{
    return size <= sizeof(uint64_t) && at <= len && size <= len - at;
}

/* Writes a number into the field of `size` bytes at byte `at`; 0 where it does not fit into the field either. */
static inline int weighpick_put_number(uint8_t *bytes, size_t room, size_t at, size_t size, uint64_t number)
{
    if (!weighpick_has_field(room, at, size) || (size < sizeof number && number >> (8 * size) != 0)) {
        return 0;
    }
    for (size_t i = 0; i < size; i++) {
        bytes[at + i] = (uint8_t)(number >> (8 * i));
    }
    return 1;
}

/* Reads the number in the field of `size` bytes at byte `at`. */
static inline int weighpick_get_number(const uint8_t *bytes, size_t len, size_t at, size_t size, uint64_t *number)
{
    uint64_t read = 0;
    if (!weighpick_has_field(len, at, size)) {
        return 0;
    }
    for (size_t i = 0; i < size; i++) {
        read |= (uint64_t)bytes[at + i] << (8 * i);
    }
    *number = read;
    return 1;
}

/* Builds a literal or value with a String or Binary of 0 to WEIGHPICK_CONTENT_MAX bytes. Of 0 bytes `content` may be null. */
static inline int weighpick_put_content(uint8_t *record, size_t room, const void *content, size_t content_len)
{
    if (room < WEIGHPICK_RECORD_SIZE || content_len > WEIGHPICK_CONTENT_MAX) {
        return 0;
    }
    memset(record, 0, WEIGHPICK_RECORD_SIZE);
    weighpick_put_number(record, room, WEIGHPICK_LENGTH_AT, 2, content_len);
    if (content_len > 0) { /* memcpy takes no null */
        memcpy(record + WEIGHPICK_CONTENT_AT, content, content_len);
    }
    return 1;
}

/* Builds a literal or value with a number of 4 bytes: an Int or a Date. */
static inline int weighpick_put_int(uint8_t *record, size_t room, int32_t number)
{
    uint8_t content[sizeof number];
    weighpick_put_number(content, sizeof content, 0, sizeof content, (uint32_t)number);
    return weighpick_put_content(record, room, content, sizeof content);
}

/* Builds a literal or value with a number of 8 bytes: a Long, a Time or a timestamp. */
static inline int weighpick_put_long(uint8_t *record, size_t room, int64_t number)
{
    uint8_t content[sizeof number];
    weighpick_put_number(content, sizeof content, 0, sizeof content, (uint64_t)number);
    return weighpick_put_content(record, room, content, sizeof content);
}

/* Builds a missing value. */
static inline int weighpick_put_missing(uint8_t *record, size_t room)
{
    if (!weighpick_put_content(record, room, NULL, 0)) {
        return 0;
    }
    return weighpick_put_number(record, room, WEIGHPICK_LENGTH_AT, 2, WEIGHPICK_MISSING);
}

/* Reads where the content of a literal or value lies, and its length; 0 of a missing value too. */
static inline int weighpick_get_content(const uint8_t *record, size_t record_len, const uint8_t **content, size_t *content_len)
{
    uint64_t length;
    if (record_len < WEIGHPICK_RECORD_SIZE || !weighpick_get_number(record, record_len, WEIGHPICK_LENGTH_AT, 2, &length)
        || length > WEIGHPICK_CONTENT_MAX) {
        return 0;
    }
    *content = record + WEIGHPICK_CONTENT_AT;
    *content_len = (size_t)length;
    return 1;
}

/* Reads the content of a literal or value, of `size` bytes, as a number without a sign. */
static inline int weighpick_get_bits(const uint8_t *record, size_t record_len, size_t size, uint64_t *bits)
{
    const uint8_t *content;
    size_t content_len;
    return weighpick_get_content(record, record_len, &content, &content_len) && content_len == size
           && weighpick_get_number(content, content_len, 0, size, bits);
}

/* Reads a number of 4 bytes from a literal or value. */
static inline int weighpick_get_int(const uint8_t *record, size_t record_len, int32_t *number)
{
    uint64_t bits;
    if (!weighpick_get_bits(record, record_len, sizeof *number, &bits)) {
        return 0;
    }
    /* The language leaves open what a cast makes of a number above the greatest. */
    *number = bits <= INT32_MAX ? (int32_t)bits : -(int32_t)(UINT32_MAX - bits) - 1;
    return 1;
}

/* Reads a number of 8 bytes from a literal or value. */
static inline int weighpick_get_long(const uint8_t *record, size_t record_len, int64_t *number)
{
    uint64_t bits;
    if (!weighpick_get_bits(record, record_len, sizeof *number, &bits)) {
        return 0;
    }
    *number = bits <= INT64_MAX ? (int64_t)bits : -(int64_t)(UINT64_MAX - bits) - 1;
    return 1;
}

/* Whether a record has a content, as a literal and an end have; that of a missing value has none. */
static inline int weighpick_has_content(const uint8_t *record)
{
    const uint8_t *content;
    size_t content_len;
    return weighpick_get_content(record, WEIGHPICK_RECORD_SIZE, &content, &content_len);
}

/* Builds a head without literals: the sheet of an operator that takes none, and with operator 0 a part of a column list. */
static inline int weighpick_put_head(uint8_t *head, size_t room, uint16_t op, uint8_t column_type, uint8_t transform,
                                     uint32_t width)
{
    if (room < WEIGHPICK_RECORD_SIZE) {
        return 0;
    }
    memset(head, 0, WEIGHPICK_RECORD_SIZE);
    weighpick_put_number(head, room, WEIGHPICK_OPERATOR_AT, 2, op);
    head[WEIGHPICK_TYPE_AT] = column_type;
    head[WEIGHPICK_TRANSFORM_AT] = transform;
    return weighpick_put_number(head, room, WEIGHPICK_WIDTH_AT, 4, width);
}

/*
 * Makes one record of a sheet the next of another, by their numbers: the head is 0, and a next has the higher number. 0 where
 * record `next` does not lie within the sheet's bytes, or within those of the largest sheet for the holds-test.
 */
static inline int weighpick_put_next(uint8_t *sheet, size_t sheet_len, size_t number, size_t next)
{
    if (number >= next || next > WEIGHPICK_ANSWER_LITERALS_MAX || next >= sheet_len / WEIGHPICK_RECORD_SIZE) {
        return 0;
    }
    return weighpick_put_number(sheet, sheet_len, WEIGHPICK_RECORD_SIZE * number + WEIGHPICK_NEXT_AT, 2, next);
}

/*
 * Builds the sheet of a leaf: its head, and behind it the literals, each the next of the record before. `literals` is 0 to
 * WEIGHPICK_LITERALS_MAX literals side by side, none of them missing; of none it may be null. The sheet has WEIGHPICK_RECORD_SIZE
 * bytes more.
 */
static inline int weighpick_put_sheet(uint8_t *sheet, size_t room, uint16_t op, uint8_t column_type, uint8_t transform,
                                      uint32_t width, const uint8_t *literals, size_t literals_len)
{
    size_t count = literals_len / WEIGHPICK_RECORD_SIZE;
    if (literals_len % WEIGHPICK_RECORD_SIZE != 0 || count > WEIGHPICK_LITERALS_MAX
        || room < WEIGHPICK_RECORD_SIZE + literals_len) {
        return 0;
    }
    for (size_t i = 0; i < count; i++) {
        if (!weighpick_has_content(literals + WEIGHPICK_RECORD_SIZE * i)) {
            return 0;
        }
    }
    weighpick_put_head(sheet, room, op, column_type, transform, width);
    for (size_t i = 0; i < count; i++) {
        uint8_t *literal = sheet + WEIGHPICK_RECORD_SIZE * (i + 1);
        memcpy(literal, literals + WEIGHPICK_RECORD_SIZE * i, WEIGHPICK_RECORD_SIZE);
        weighpick_put_number(literal, WEIGHPICK_RECORD_SIZE, WEIGHPICK_NEXT_AT, 2, 0); /* it may come from another chain */
        weighpick_put_next(sheet, room, i, i + 1);
    }
    return 1;
}

/* Builds the summary of a file by the value records of its lowest and its highest present value. */
static inline int weighpick_put_summary(uint8_t *summary, size_t room, uint8_t column_type, const uint8_t *lowest,
                                        const uint8_t *highest, int has_missing)
{
    if (room < WEIGHPICK_SUMMARY_SIZE || !weighpick_has_content(lowest) || !weighpick_has_content(highest)) {
        return 0;
    }
    memcpy(summary + WEIGHPICK_LOWEST_AT, lowest, WEIGHPICK_RECORD_SIZE);
    memcpy(summary + WEIGHPICK_HIGHEST_AT, highest, WEIGHPICK_RECORD_SIZE);
    summary[WEIGHPICK_SUMMARY_TYPE_AT] = column_type;
    summary[WEIGHPICK_FLAG_AT] = has_missing ? WEIGHPICK_HAS_MISSING : 0;
    return 1;
}

/* Builds the summary of a file in which no value is present. A file whose ends are not known has no summary, and is read. */
static inline int weighpick_put_empty_summary(uint8_t *summary, size_t room, uint8_t column_type, int has_missing)
{
    if (room < WEIGHPICK_SUMMARY_SIZE) {
        return 0;
    }
    weighpick_put_missing(summary + WEIGHPICK_LOWEST_AT, WEIGHPICK_RECORD_SIZE);
    weighpick_put_missing(summary + WEIGHPICK_HIGHEST_AT, WEIGHPICK_RECORD_SIZE);
    summary[WEIGHPICK_SUMMARY_TYPE_AT] = column_type;
    summary[WEIGHPICK_FLAG_AT] = WEIGHPICK_NONE_PRESENT + (has_missing ? WEIGHPICK_HAS_MISSING : 0);
    return 1;
}

/* Builds an entry of a column list. The name has 1 to WEIGHPICK_NAME_SIZE letters and a zero behind them. */
static inline int weighpick_put_column(uint8_t *entry, size_t room, const char *name, uint8_t column_type, uint8_t transform,
                                       uint32_t width)
{
    size_t letters = strlen(name);
    if (room < WEIGHPICK_COLUMN_SIZE || letters == 0 || letters > WEIGHPICK_NAME_SIZE) {
        return 0;
    }
    memset(entry, 0, WEIGHPICK_NAME_SIZE);
    memcpy(entry, name, letters);
    return weighpick_put_head(entry + WEIGHPICK_NAME_SIZE, room - WEIGHPICK_NAME_SIZE, 0, column_type, transform, width);
}

#endif

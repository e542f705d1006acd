/*
 * A bench terminal's use of a file list: the leaf `< 300` of an Int column under Truncate 10, and files of which only the ends of
 * their partition values are known. Prints a line a file, skip, read or whole; then the same of groups of these files, by their
 * pooled summaries. Returns non-zero if that is not what it should be.
 */
#include "example.h"

/* What a file list says of a file; where no value is present, there are no ends. */
struct file {
    int32_t lowest, highest;
    uint8_t flag;
};

/* Builds the summary of a file. */
static int put_file(uint8_t *summary, size_t room, const struct file *file)
{
    uint8_t lowest[WEIGHPICK_RECORD_SIZE], highest[WEIGHPICK_RECORD_SIZE];
    int has_missing = file->flag & WEIGHPICK_HAS_MISSING;
    if (file->flag & WEIGHPICK_NONE_PRESENT) {
        return weighpick_put_empty_summary(summary, room, WEIGHPICK_INT, has_missing);
    }
    return weighpick_put_int(lowest, sizeof lowest, file->lowest) && weighpick_put_int(highest, sizeof highest, file->highest)
           && weighpick_put_summary(summary, room, WEIGHPICK_INT, lowest, highest, has_missing);
}

/*
 * Adds a file to the summary of a group: its ends take the place of the group's where they are the pooled ones. After a refusal
 * the group's summary is as it was.
 */
static uint32_t add_file(uint8_t *group, const uint8_t *file)
{
    uint64_t lowest, highest, flag;
    uint32_t answer = weighpick_pool(group, WEIGHPICK_SUMMARY_SIZE, file, WEIGHPICK_SUMMARY_SIZE, &lowest, &highest, &flag);
    if (answer != WEIGHPICK_RESULT) {
        return answer;
    }
    if (lowest == WEIGHPICK_SECOND) {
        memcpy(group + WEIGHPICK_LOWEST_AT, file + WEIGHPICK_LOWEST_AT, WEIGHPICK_RECORD_SIZE);
    }
    if (highest == WEIGHPICK_SECOND) {
        memcpy(group + WEIGHPICK_HIGHEST_AT, file + WEIGHPICK_HIGHEST_AT, WEIGHPICK_RECORD_SIZE);
    }
    group[WEIGHPICK_FLAG_AT] = (uint8_t)flag;
    return answer;
}

/*
 * The verdict of a predicate. The byte begins as WEIGHPICK_READ, and a refusal leaves it so: of a summary that is none of this
 * table's and, where there is no predicate, of a sheet without bytes.
 */
static uint8_t verdict(const struct predicate *predicate, const uint8_t *summary)
{
    uint8_t out = WEIGHPICK_READ;
    uint64_t count;
    weighpick_test_summary(predicate->sheet, (size_t)predicate->count, summary, WEIGHPICK_SUMMARY_SIZE, &out, sizeof out, &count);
    return out;
}

/* What is done with a file: only the inclusive predicate passes it over, and only the strict one takes it whole. */
static const char *pick(const struct predicate *inclusive, const struct predicate *strict, const uint8_t *summary)
{
    if (verdict(inclusive, summary) == WEIGHPICK_SKIP) {
        return "skip";
    }
    return verdict(strict, summary) == WEIGHPICK_WHOLE ? "whole" : "read";
}

/* Writes what a summary says, for its line. */
static void put_words(char *line, size_t size, const uint8_t *summary)
{
    uint8_t flag = summary[WEIGHPICK_FLAG_AT];
    int32_t lowest, highest;
    if (weighpick_get_int(summary + WEIGHPICK_LOWEST_AT, WEIGHPICK_RECORD_SIZE, &lowest)
        && weighpick_get_int(summary + WEIGHPICK_HIGHEST_AT, WEIGHPICK_RECORD_SIZE, &highest)) {
        snprintf(line, size, "%ld to %ld%s", (long)lowest, (long)highest, flag & WEIGHPICK_HAS_MISSING ? ", missing" : "");
    } else {
        snprintf(line, size, "%s", flag & WEIGHPICK_HAS_MISSING ? "missing" : "empty");
    }
}

/* The file list, with the line of each file. */
static const struct {
    struct file file;
    const char *expected;
} FILES[] = {
    {{0, 290, 0}, "0 to 290: whole"},
    {{0, 290, WEIGHPICK_HAS_MISSING}, "0 to 290, missing: read"},
    {{290, 300, 0}, "290 to 300: read"},
    {{300, 450, 0}, "300 to 450: skip"},
    {{310, 460, WEIGHPICK_HAS_MISSING}, "310 to 460, missing: skip"},
    {{0, 0, WEIGHPICK_NONE_PRESENT + WEIGHPICK_HAS_MISSING}, "missing: skip"},
    {{0, 0, WEIGHPICK_NONE_PRESENT}, "empty: skip"},
    {{450, 300, 0}, "450 to 300: read"}, /* 11: no summary of a file is so */
};

/* Groups of files that lie side by side in the list, with the line of each group. */
static const struct {
    size_t first, count;
    const char *expected;
} GROUPS[] = {
    {0, 3, "group 0 to 300, missing: read"},
    {3, 4, "group 300 to 460, missing: skip"},
    {5, 2, "group missing: skip"},
    {6, 2, "group refused with 11: read"}, /* its files are looked at one by one */
};

/* Prints what is done with a file. */
static int pick_file(size_t number, const struct predicate *inclusive, const struct predicate *strict)
{
    uint8_t summary[WEIGHPICK_SUMMARY_SIZE];
    char words[LINE_SIZE / 2], line[LINE_SIZE];
    if (!put_file(summary, sizeof summary, &FILES[number].file)) {
        return 0;
    }
    put_words(words, sizeof words, summary);
    snprintf(line, sizeof line, "%s: %s", words, pick(inclusive, strict, summary));
    return print_line(line, FILES[number].expected);
}

/* Pools the files of a group, and returns the first refusal. An empty file, with which it begins, adds nothing. */
static uint32_t put_group(uint8_t *group, size_t room, size_t first, size_t count)
{
    uint32_t answer = weighpick_put_empty_summary(group, room, WEIGHPICK_INT, 0) ? WEIGHPICK_RESULT : WEIGHPICK_MALFORMED;
    for (size_t i = first; i < first + count && answer == WEIGHPICK_RESULT; i++) {
        uint8_t summary[WEIGHPICK_SUMMARY_SIZE];
        answer = put_file(summary, sizeof summary, &FILES[i].file) ? add_file(group, summary) : WEIGHPICK_MALFORMED;
    }
    return answer;
}

/* Prints what is done with a group of files: if it is skipped, none of them need be looked at. */
static int pick_group(size_t number, const struct predicate *inclusive, const struct predicate *strict)
{
    uint8_t group[WEIGHPICK_SUMMARY_SIZE];
    char words[LINE_SIZE / 2], line[LINE_SIZE];
    uint32_t answer = put_group(group, sizeof group, GROUPS[number].first, GROUPS[number].count);
    if (answer == WEIGHPICK_RESULT) {
        put_words(words, sizeof words, group);
        snprintf(line, sizeof line, "group %s: %s", words, pick(inclusive, strict, group));
    } else {
        snprintf(line, sizeof line, "group refused with %u: read", (unsigned)answer);
    }
    return print_line(line, GROUPS[number].expected);
}

int main(void)
{
    uint8_t sheet[SAMPLE_SIZE];
    struct predicate inclusive, strict;
    if (weighpick_version() != WEIGHPICK_VERSION_NUMBER) {
        fprintf(stderr, "the library is not of version %s\n", WEIGHPICK_VERSION);
        return 1;
    }
    if (!put_sample(sheet, sizeof sheet)) {
        return 1;
    }
    int good = 1;
    weighpick_project(sheet, sizeof sheet, inclusive.sheet, sizeof inclusive.sheet, &inclusive.count);
    weighpick_strict_project(sheet, sizeof sheet, strict.sheet, sizeof strict.sheet, &strict.count);
    for (size_t i = 0; i < sizeof FILES / sizeof FILES[0]; i++) {
        good &= pick_file(i, &inclusive, &strict);
    }
    for (size_t i = 0; i < sizeof GROUPS / sizeof GROUPS[0]; i++) {
        good &= pick_group(i, &inclusive, &strict);
    }
    return good ? 0 : 1;
}

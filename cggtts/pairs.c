/*
 * The pairs of two line files one by one, and what is near where there is none. The library reports on all pairs together;
 * which lines they are is looked for here. The difference of a pair is the library's report on its two lines alone, and all
 * that are found must make the report on the files: they are then as many, and so the same.
 */
#include "cggtts.h"

#include <errno.h>
#include <stdio.h>
#include <stdlib.h>
#include <string.h>

/* Two lines of the same keys: a pair, if the library has a report on them alone. */
static int is_pair(const uint8_t *line, const uint8_t *other, struct pair *pair)
{
    int64_t report[TRACKLINE_REPORT_NUMBERS], values[TRACKLINE_VALUES];
    if (trackline_view(line, TRACKLINE_FILE_LINE_BYTES, other, TRACKLINE_FILE_LINE_BYTES, report, TRACKLINE_REPORT_NUMBERS)
            != TRACKLINE_ACCEPTED
        || trackline_read(line, TRACKLINE_LINE_BYTES, values, TRACKLINE_VALUES) != TRACKLINE_ACCEPTED) {
        return 0;
    }
    pair->line = line;
    pair->other = other;
    pair->mjd = (uint32_t)values[TRACKLINE_VALUE_MJD];
    pair->start = (uint32_t)values[TRACKLINE_VALUE_START];
    pair->difference = report[TRACKLINE_REPORT_SUM];
    return 1;
}

/* The line of each file that a walk through both stands at, counted from 1. */
struct place {
    size_t first, second;
};

/* Goes on from a place to the next two lines of the same keys, that place included. Answers whether there are any. */
static int find_level(const struct bytes *first, const struct bytes *second, struct place *at)
{
    while (at->first <= lines_of(first) && at->second <= lines_of(second)) {
        int order = compare_keys(line_at(first, at->first), line_at(second, at->second));
        if (order == 0) {
            return 1;
        }
        at->first += order < 0;
        at->second += order > 0;
    }
    return 0;
}

/* As many pairs as there is room for. */
static size_t gather(const struct bytes *first, const struct bytes *second, struct pair *pairs, size_t room)
{
    struct place at = {1, 1};
    size_t count = 0;
    while (count < room && find_level(first, second, &at)) {
        count += (size_t)is_pair(line_at(first, at.first++), line_at(second, at.second++), &pairs[count]);
    }
    return count;
}

static int make_report(const struct pair *pairs, size_t count, const int64_t *report)
{
    int64_t sum = 0, smallest = INT64_MAX, largest = INT64_MIN;
    for (size_t i = 0; i < count; i++) {
        sum += pairs[i].difference;
        smallest = pairs[i].difference < smallest ? pairs[i].difference : smallest;
        largest = pairs[i].difference > largest ? pairs[i].difference : largest;
    }
    return (int64_t)count == report[TRACKLINE_REPORT_PAIRS] && sum == report[TRACKLINE_REPORT_SUM]
        && smallest == report[TRACKLINE_REPORT_SMALLEST] && largest == report[TRACKLINE_REPORT_LARGEST];
}

/* There is room for one pair too many, so that it would be noticed. */
int find_pairs(struct view *view)
{
    size_t room = (size_t)view->report[TRACKLINE_REPORT_PAIRS] + 1;
    view->pairs = calloc(room, sizeof *view->pairs);
    if (view->pairs == NULL) {
        complain_of_error("pairs", errno);
        return FAILED;
    }
    size_t count = gather(&view->first->bytes, &view->second->bytes, view->pairs, room);
    if (!make_report(view->pairs, count, view->report)) {
        complain("pairs", "those that were found do not make the report");
        return FAILED;
    }
    return ACCEPTED;
}

/* The columns of TRKL and of FRC. */
static const char *length_of(const uint8_t *line)
{
    return (const char *)line + 20;
}

static const char *code_of(const uint8_t *line)
{
    return (const char *)line + 107;
}

/* How many pairs have lines of another FRC. */
size_t pairs_of_two_codes(const struct bytes *first, const struct bytes *second)
{
    struct place at = {1, 1};
    size_t count = 0;
    for (; find_level(first, second, &at); at.first++, at.second++) {
        const uint8_t *line = line_at(first, at.first), *other = line_at(second, at.second);
        count += memcmp(length_of(line), length_of(other), 4) == 0 && memcmp(code_of(line), code_of(other), 3) != 0;
    }
    return count;
}

/* How many lines of one file have the keys of a line of the other and are another line. */
size_t lines_that_differ(const struct bytes *first, const struct bytes *second)
{
    struct place at = {1, 1};
    size_t count = 0;
    for (; find_level(first, second, &at); at.first++, at.second++) {
        count += column_of_difference(line_at(first, at.first), line_at(second, at.second)) != 0;
    }
    return count;
}

static int explain_empty(const struct line_file *file)
{
    if (file->bytes.length == 0) {
        explain("%s has no line", called(file->name));
    }
    return file->bytes.length == 0;
}

/* Lines of the same keys, which then have another TRKL. Answers whether there are any. */
static int explain_lengths(const struct line_file *first, const struct line_file *second)
{
    struct place at = {1, 1};
    size_t count = 0;
    for (; find_level(&first->bytes, &second->bytes, &at); at.first++, at.second++) {
        const uint8_t *line = line_at(&first->bytes, at.first), *other = line_at(&second->bytes, at.second);
        char keys[KEYS_ROOM];
        if (count++ == 0) {
            explain("%s:%zu and %s:%zu have %s, but TRKL %.4s and %.4s", first->name, at.first, second->name, at.second,
                    keys_of(line, keys), length_of(line), length_of(other));
        }
    }
    if (count > 1) {
        explain("and %zu more", count - 1);
    }
    return count > 0;
}

static int has_letter(const struct bytes *file, char letter)
{
    size_t number = 1;
    while (number <= lines_of(file) && *line_at(file, number) != (uint8_t)letter) {
        number++;
    }
    return number <= lines_of(file);
}

static const char LETTERS[] = "CEGJR";

/* The letters of the file's satellites, in their order and parted by blanks, in a room of 16 bytes. */
static const char *letters_of(const struct bytes *file, char *room)
{
    char *end = room;
    for (const char *letter = LETTERS; *letter != '\0'; letter++) {
        if (has_letter(file, *letter)) {
            end += sprintf(end, " %c", *letter);
        }
    }
    return room;
}

/* The columns of MJD and of the start behind it, by which lines ascend; the first so many of them. */
enum { DATE = 5, DATE_AND_START = 12 };
static const char *date_of(const struct bytes *file, size_t number)
{
    return (const char *)line_at(file, number) + 7;
}

static void explain_contents(const struct line_file *file)
{
    char letters[16] = "";
    explain("%s has MJD %.5s to %.5s, satellites of%s", called(file->name), date_of(&file->bytes, 1),
            date_of(&file->bytes, lines_of(&file->bytes)), letters_of(&file->bytes, letters));
}

/* Whether a line of each file has the same in these columns. */
static int meet(const struct bytes *first, const struct bytes *second, size_t columns)
{
    struct place at = {1, 1};
    int order = 1;
    while (order != 0 && at.first <= lines_of(first) && at.second <= lines_of(second)) {
        order = memcmp(date_of(first, at.first), date_of(second, at.second), columns);
        at.first += order < 0;
        at.second += order > 0;
    }
    return order == 0;
}

/* For each satellite whether a file has it: the letters in their order, 100 numbers each. */
enum { SATELLITES = 100 * (sizeof LETTERS - 1) };
static void note_satellites(const struct bytes *file, uint8_t *noted)
{
    for (size_t number = 1; number <= lines_of(file); number++) {
        const uint8_t *line = line_at(file, number);
        noted[100 * (strchr(LETTERS, *line) - LETTERS) + 10 * (line[1] - '0') + line[2] - '0'] = 1;
    }
}

static int satellites_meet(const struct bytes *first, const struct bytes *second)
{
    uint8_t noted[SATELLITES] = {0}, others[SATELLITES] = {0};
    note_satellites(first, noted);
    note_satellites(second, others);
    size_t i = 0;
    while (i < SATELLITES && !(noted[i] && others[i])) {
        i++;
    }
    return i < SATELLITES;
}

/* What two files have not in common. */
static void explain_apart(const struct bytes *first, const struct bytes *second)
{
    int dates = meet(first, second, DATE), starts = meet(first, second, DATE_AND_START);
    int satellites = satellites_meet(first, second);
    if (!dates) {
        explain("no MJD is in both");
    } else if (!starts) {
        explain("no MJD has the same start in both");
    }
    if (!satellites) {
        explain("no satellite is in both");
    } else if (starts) {
        explain("no start has the same satellite in both");
    }
}

/* 18: what is nearest to a pair in two line files. */
void explain_no_pair(const struct line_file *first, const struct line_file *second)
{
    int empty = explain_empty(first);
    if (explain_empty(second) || empty || explain_lengths(first, second)) {
        return;
    }
    explain_contents(first);
    explain_contents(second);
    explain_apart(&first->bytes, &second->bytes);
}

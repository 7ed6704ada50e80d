/*
 * The common view of two line files of any length: both are parted by date, and a date that is too long by start. Both lines of
 * a pair have one MJD and one start, so no pair is lost; pairs and sums are added, the extremes compared.
 */
#include "cggtts.h"

#include <string.h>

/* The columns of MJD and of the start behind it, by which lines ascend; the first so many of them. */
enum { BEFORE = 7, DATE = 5, DATE_AND_START = 12 };

/* The part at the beginning of a file whose lines have these columns as a line has them. */
static struct bytes part_like(const struct bytes *file, const uint8_t *line, size_t columns)
{
    struct bytes part = {file->at, 0, 0};
    while (part.length < file->length && memcmp(file->at + part.length + BEFORE, line + BEFORE, columns) == 0) {
        part.length += TRACKLINE_FILE_LINE_BYTES;
    }
    return part;
}

static void leave_out(struct bytes *file, size_t length)
{
    file->at += length;
    file->length -= length;
}

static void join_report(int64_t *report, const int64_t *part)
{
    int first = report[TRACKLINE_REPORT_PAIRS] == 0;
    report[TRACKLINE_REPORT_PAIRS] += part[TRACKLINE_REPORT_PAIRS];
    report[TRACKLINE_REPORT_SUM] += part[TRACKLINE_REPORT_SUM];
    if (first || part[TRACKLINE_REPORT_SMALLEST] < report[TRACKLINE_REPORT_SMALLEST]) {
        report[TRACKLINE_REPORT_SMALLEST] = part[TRACKLINE_REPORT_SMALLEST];
    }
    if (first || part[TRACKLINE_REPORT_LARGEST] > report[TRACKLINE_REPORT_LARGEST]) {
        report[TRACKLINE_REPORT_LARGEST] = part[TRACKLINE_REPORT_LARGEST];
    }
}

static uint32_t view_by(struct bytes first, struct bytes second, size_t columns, int64_t *report, size_t *parts);

/* Two parts. Without a pair they add nothing; too long for the library, they are parted by start. */
static uint32_t view_part(const struct bytes *first, const struct bytes *second, size_t columns, int64_t *report, size_t *parts)
{
    int64_t part[TRACKLINE_REPORT_NUMBERS];
    uint32_t answer = trackline_view(first->at, first->length, second->at, second->length, part, TRACKLINE_REPORT_NUMBERS);
    if (answer == TRACKLINE_FILE_LENGTH && columns == DATE) {
        return view_by(*first, *second, DATE_AND_START, report, parts);
    }
    if (answer == TRACKLINE_ACCEPTED) {
        join_report(report, part);
        ++*parts;
    }
    return answer == TRACKLINE_NO_PAIR ? TRACKLINE_ACCEPTED : answer;
}

/* Goes through both files part by part, the one whose columns are lower ahead. */
static uint32_t view_by(struct bytes first, struct bytes second, size_t columns, int64_t *report, size_t *parts)
{
    uint32_t answer = TRACKLINE_ACCEPTED;
    while (answer == TRACKLINE_ACCEPTED && first.length > 0 && second.length > 0) {
        int order = memcmp(first.at + BEFORE, second.at + BEFORE, columns);
        const uint8_t *line = order <= 0 ? first.at : second.at;
        struct bytes one = part_like(&first, line, columns), other = part_like(&second, line, columns);
        if (order == 0) {
            answer = view_part(&one, &other, columns, report, parts);
        }
        leave_out(&first, one.length);
        leave_out(&second, other.length);
    }
    return answer;
}

/* What a file is refused for by itself, whatever its length. */
static uint32_t judge_file(const struct bytes *file)
{
    size_t written;
    uint32_t answer = trackline_merge(file->at, file->length, NULL, 0, NULL, 0, &written);
    return answer == TRACKLINE_ROOM ? TRACKLINE_ACCEPTED : answer;
}

/* Both files are judged whole, the first first, as lines that do not ascend have no parts. */
uint32_t view_parted(const struct bytes *first, const struct bytes *second, int64_t *report, size_t *parts)
{
    uint32_t answer = judge_file(first);
    memset(report, 0, TRACKLINE_REPORT_NUMBERS * sizeof *report);
    *parts = 0;
    if (answer == TRACKLINE_ACCEPTED) {
        answer = judge_file(second);
    }
    if (answer == TRACKLINE_ACCEPTED) {
        answer = view_by(*first, *second, DATE, report, parts);
    }
    return answer == TRACKLINE_ACCEPTED && report[TRACKLINE_REPORT_PAIRS] == 0 ? TRACKLINE_NO_PAIR : answer;
}

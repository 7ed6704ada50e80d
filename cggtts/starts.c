/* The starts of a date, as the library's start test finds them: all for cggtts starts, the nearest for refusal 8. */
#include "cggtts.h"

#include <inttypes.h>
#include <stdio.h>

enum { MINUTE = 60, NONE = -1 };

/* The first start from a second on, in steps of 1 or -1, within the day. */
static int64_t nearest_start(uint32_t mjd, int64_t second, int step)
{
    while (second >= 0 && second < DAY && trackline_start(mjd, (uint32_t)second) != TRACKLINE_ACCEPTED) {
        second += step;
    }
    return second >= 0 && second < DAY ? second : NONE;
}

static const char *clock_time(int64_t second, char *room, size_t size)
{
    if (second == NONE) {
        return "none";
    }
    int day_second = (int)second;
    snprintf(room, size, "%d (%02d:%02d:%02d)", day_second, day_second / 3600, day_second / 60 % 60, day_second % 60);
    return room;
}

void explain_start(const uint8_t *block)
{
    uint32_t mjd = (uint32_t)unsigned_at(block, TRACKLINE_AT_MJD, TRACKLINE_WIDTH_MJD);
    int64_t second = (int64_t)unsigned_at(block, TRACKLINE_AT_START, TRACKLINE_WIDTH_START);
    char before[40], after[40], given[40];
    if (second < DAY) {
        explain("start is %s", clock_time(second, given, sizeof given));
    } else {
        explain("start is %" PRId64 ", and a day has %d seconds", second, DAY);
    }
    explain("nearest starts of MJD %" PRIu32 ": before it %s, after it %s", mjd,
            clock_time(nearest_start(mjd, second < DAY ? second : DAY - 1, -1), before, sizeof before),
            clock_time(nearest_start(mjd, second, 1), after, sizeof after));
}

/* A date in decimal digits. The greatest number stands for all that do not fit: no schedule has it either. */
static int read_date(const char *word, uint32_t *mjd)
{
    uint64_t number = 0;
    for (const char *digit = word; *digit != '\0'; digit++) {
        if (*digit < '0' || *digit > '9') {
            return 0;
        }
        number = 10 * number + (uint64_t)(*digit - '0');
        number = number > UINT32_MAX ? UINT32_MAX : number;
    }
    *mjd = (uint32_t)number;
    return word[0] != '\0';
}

/* A calendar date, of which one before MJD 0 is no MJD of the schedule either. */
static int read_day(const char *word, uint32_t *mjd)
{
    int64_t day;
    if (!read_calendar(word, &day)) {
        return 0;
    }
    *mjd = day < 0 ? 0 : (uint32_t)day;
    return 1;
}

/* 7: the date as it was given, and the range; of a calendar date that of the calendar too. */
static void explain_date(const char *word, uint32_t mjd)
{
    char first[DATE_ROOM], last[DATE_ROOM];
    int64_t day;
    if (read_calendar(word, &day)) {
        explain("MJD is %" PRIu32 ", not %d to %d, which are %s to %s", mjd, FIRST_MJD, LAST_MJD, date_text(FIRST_MJD, first),
                date_text(LAST_MJD, last));
    } else {
        explain("MJD is %s, not %d to %d", word, FIRST_MJD, LAST_MJD);
    }
}

/* As columns 14 to 19 of a line have it, so that a line file can be compared. */
static void print_start(int second)
{
    char text[40];
    snprintf(text, sizeof text, "%02d%02d%02d\n", second / 3600, second / MINUTE % 60, second % MINUTE);
    print_text(text);
}

/* Every minute of the day is tried, as a start is a whole minute. */
int starts_command(int argc, char **argv)
{
    uint32_t mjd;
    if (argc < 2) {
        return wrong_use("starts: no MJD or date");
    }
    if (argc > 2) {
        return wrong_use("starts: '%s' is one word too many", argv[2]);
    }
    if (!read_date(argv[1], &mjd) && !read_day(argv[1], &mjd)) {
        return wrong_use("starts: '%s' is neither an MJD nor a date yyyy-mm-dd", argv[1]);
    }
    for (int second = 0; second < DAY; second += MINUTE) {
        uint32_t answer = trackline_start(mjd, (uint32_t)second);
        if (answer == TRACKLINE_ACCEPTED) {
            print_start(second);
        } else if (answer != TRACKLINE_START) {
            report_refusal(argv[1], answer);
            explain_date(argv[1], mjd);
            return REFUSED;
        }
    }
    return ACCEPTED;
}

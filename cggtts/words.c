/* A date and a number as they are typed. */
#include "cggtts.h"

#include <inttypes.h>
#include <stdio.h>
#include <string.h>

/* Whether there are digits and nothing else. */
static int all_digits(const char *word)
{
    size_t digits = strspn(word, "0123456789");
    return digits > 0 && word[digits] == '\0';
}

/* The number of a row of digits, or one above the most. */
static uint64_t number_of(const char *digits, uint64_t most)
{
    uint64_t number = 0;
    for (; *digits != '\0'; digits++) {
        uint64_t digit = (uint64_t)(*digits - '0');
        if (number > (most - digit) / 10) {
            return most + 1;
        }
        number = 10 * number + digit;
    }
    return number;
}

/* Digits, with or without a sign before them. */
enum word read_ps(const char *word, int64_t *value)
{
    int minus = word[0] == '-';
    const char *digits = word + (minus || word[0] == '+');
    if (!all_digits(digits)) {
        return NO_WORD;
    }
    uint64_t most = (uint64_t)INT64_MAX + (minus ? 1 : 0), number = number_of(digits, most);
    if (number > most) {
        *value = minus ? INT64_MIN : INT64_MAX;
        return TOO_LARGE;
    }
    *value = !minus ? (int64_t)number : number > INT64_MAX ? INT64_MIN : -(int64_t)number;
    return FITS;
}

/* An MJD, or a calendar date from MJD 0 on. */
enum word read_mjd(const char *word, uint32_t *mjd)
{
    int64_t day;
    if (read_calendar(word, &day)) {
        *mjd = day < 0 ? 0 : (uint32_t)day;
        return day < 0 ? TOO_LARGE : FITS;
    }
    if (!all_digits(word)) {
        return NO_WORD;
    }
    uint64_t number = number_of(word, UINT32_MAX);
    *mjd = (uint32_t)(number > UINT32_MAX ? UINT32_MAX : number);
    return number > UINT32_MAX ? TOO_LARGE : FITS;
}

/* What is wrong with a date that was read, at a subcommand or at a line of a text. Answers whether anything is. */
int complain_of_date(const char *where, const char *word, enum word found)
{
    char reason[NAME_ROOM];
    if (found == FITS) {
        return 0;
    }
    snprintf(reason, sizeof reason,
             found == NO_WORD ? "'%.200s' is neither an MJD nor a date yyyy-mm-dd"
                              : "'%.200s' is no date that a store can have: MJD 0 (1858-11-17) to 4294967295",
             word);
    complain(where, reason);
    return 1;
}

/* A store may have any date, but a line has five digits, and no track was before its first MJD. */
int no_line_has(uint32_t mjd)
{
    return mjd < FIRST_MJD || mjd > LAST_MJD;
}

/* Whether the eight digits of an MJD are those of a day, as of a date that was typed without its dashes. */
static int undashed(uint32_t mjd, char *day, size_t room)
{
    uint32_t other;
    snprintf(day, room, "%04" PRIu32 "-%02" PRIu32 "-%02" PRIu32, mjd / 10000, mjd / 100 % 100, mjd % 100);
    return mjd >= 10000000 && mjd <= 99999999 && read_mjd(day, &other) == FITS;
}

void remark_on_date(const char *where, uint32_t mjd)
{
    char reason[NAME_ROOM], day[ENTRY_ROOM], asked[ENTRY_ROOM + 16] = "";
    if (no_line_has(mjd)) {
        if (undashed(mjd, day, sizeof day)) {
            snprintf(asked, sizeof asked, "; is it %s?", day);
        }
        snprintf(reason, sizeof reason, "MJD %" PRIu32 " is taken, though no line has it: theirs are %d to %d%s", mjd, FIRST_MJD, LAST_MJD, asked);
        complain(where, reason);
    }
}

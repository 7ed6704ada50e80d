/* The calendar date of an MJD and the other way round, by the Gregorian calendar. */
#include "cggtts.h"

#include <inttypes.h>
#include <stdio.h>

enum { FIRST_DAY = -678575 }; /* the MJD of 1 January of the year 1, as the calendar counts back */

/* The MJD of 1 January. */
static int64_t new_year(int64_t year)
{
    int64_t past = year - 1;
    return FIRST_DAY + 365 * past + past / 4 - past / 100 + past / 400;
}

/* Months are counted from 1. */
static int64_t days_in(int64_t year, int month)
{
    static const int DAYS[] = {31, 28, 31, 30, 31, 30, 31, 31, 30, 31, 30, 31};
    int leap = year % 4 == 0 && (year % 100 != 0 || year % 400 == 0);
    return DAYS[month - 1] + (month == 2 && leap);
}

/* The MJD of the first day of a month. */
static int64_t new_month(int64_t year, int month)
{
    int64_t mjd = new_year(year);
    for (int past = 1; past < month; past++) {
        mjd += days_in(year, past);
    }
    return mjd;
}

/* The year of an MJD from 0 on. */
static int64_t year_of(int64_t mjd)
{
    int64_t year = (mjd - FIRST_DAY) / 366 + 1; /* or a later one */
    while (new_year(year + 1) <= mjd) {
        year++;
    }
    return year;
}

/* yyyy-mm-dd of an MJD from 0 on, in a room of DATE_ROOM bytes. */
const char *date_text(int64_t mjd, char *room)
{
    int64_t year = year_of(mjd);
    int month = 1;
    while (month < 12 && new_month(year, month + 1) <= mjd) {
        month++;
    }
    snprintf(room, DATE_ROOM, "%04" PRId64 "-%02d-%02" PRId64, year, month, mjd - new_month(year, month) + 1);
    return room;
}

/* The number in digits from one place to before another, or -1. */
static int number_in(const char *word, int from, int to)
{
    int number = 0;
    for (int i = from; i < to; i++) {
        if (word[i] < '0' || word[i] > '9') {
            return -1;
        }
        number = 10 * number + word[i] - '0';
    }
    return number;
}

/* Reads yyyy-mm-dd. Answers whether it is a date. */
int read_calendar(const char *word, int64_t *mjd)
{
    int length = 0;
    while (length < 11 && word[length] != '\0') {
        length++;
    }
    if (length != 10 || word[4] != '-' || word[7] != '-') {
        return 0;
    }
    int year = number_in(word, 0, 4), month = number_in(word, 5, 7), day = number_in(word, 8, 10);
    if (year < 1 || month < 1 || month > 12 || day < 1 || day > days_in(year, month)) {
        return 0;
    }
    *mjd = new_month(year, month) + day - 1;
    return 1;
}

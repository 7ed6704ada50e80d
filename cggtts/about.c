/*
 * cggtts view --about: mean, standard deviation and median of the differences, over all pairs and for each satellite. They are
 * for people, and rounded; the report itself divides nothing.
 */
#include "cggtts.h"

#include <errno.h>
#include <inttypes.h>
#include <math.h>
#include <stdlib.h>
#include <string.h>

static int by_difference(const void *one, const void *other)
{
    int64_t first = ((const struct pair *)one)->difference, second = ((const struct pair *)other)->difference;
    return (first > second) - (first < second);
}

/* The letters in their order, then the numbers. */
static int by_satellite(const void *one, const void *other)
{
    int order = memcmp(((const struct pair *)one)->line, ((const struct pair *)other)->line, 3);
    return order != 0 ? order : by_difference(one, other);
}

static int64_t sum_of(const struct pair *pairs, size_t count)
{
    int64_t sum = 0;
    for (size_t i = 0; i < count; i++) {
        sum += pairs[i].difference;
    }
    return sum;
}

/* In ps, to the nearest, a tie going up. Whole units are parted off, so that no sum is too large to be multiplied. */
static int64_t mean_of(int64_t sum, int64_t count)
{
    return 100 * (sum / count) + nearest(100 * (sum % count), count);
}

/* In ps, the root of the sum of squares about the mean over the number of pairs less 1. The deviations are whole: count times each. */
static int64_t deviation_of(const struct pair *pairs, size_t count, int64_t sum)
{
    long double squares = 0, number = (long double)count;
    for (size_t i = 0; i < count; i++) {
        long double deviation = (long double)((int64_t)count * pairs[i].difference - sum);
        squares += deviation * deviation;
    }
    return (int64_t)floorl(100 * sqrtl(squares / (number - 1)) / number + 0.5L);
}

/* In ps, exact: that of two in the middle lies halfway. */
static int64_t median_of(const struct pair *pairs, size_t count)
{
    return 50 * (pairs[(count - 1) / 2].difference + pairs[count / 2].difference);
}

/* The pairs ascend by their differences. */
static void print_row(const char *name, const struct pair *pairs, size_t count)
{
    char mean[DECIMAL_ROOM], deviation[DECIMAL_ROOM] = "-", median[DECIMAL_ROOM];
    int64_t sum = sum_of(pairs, count);
    if (count > 1) {
        decimal_text(deviation_of(pairs, count, sum), 3, deviation);
    }
    print_form("  %-9.3s %6zu %16s %16s %16s\n", name, count, decimal_text(mean_of(sum, (int64_t)count), 3, mean), deviation,
               decimal_text(median_of(pairs, count), 3, median));
}

/* How many pairs are of the first one's satellite. */
static size_t run_of(const struct pair *pairs, size_t count)
{
    size_t run = 1;
    while (run < count && memcmp(pairs[run].line, pairs[0].line, 3) == 0) {
        run++;
    }
    return run;
}

static void print_satellites(struct pair *pairs, size_t count)
{
    qsort(pairs, count, sizeof *pairs, by_satellite);
    for (size_t from = 0, run; from < count; from += run) {
        run = run_of(pairs + from, count - from);
        print_row((const char *)pairs[from].line, pairs + from, run);
    }
}

/* The pairs are found already. */
int print_about(const struct view *view)
{
    size_t count = (size_t)view->report[TRACKLINE_REPORT_PAIRS];
    struct pair *pairs = malloc(count * sizeof *pairs);
    if (pairs == NULL) {
        complain_of_error("pairs", errno);
        return FAILED;
    }
    memcpy(pairs, view->pairs, count * sizeof *pairs);
    qsort(pairs, count, sizeof *pairs, by_difference);
    print_text("about, in ns, rounded to 0.001 ns; the deviation is the standard deviation, over pairs - 1\n");
    print_form("  %-9s %6s %16s %16s %16s\n", "satellite", "pairs", "mean", "deviation", "median");
    print_row("all", pairs, count);
    print_satellites(pairs, count);
    free(pairs);
    return ACCEPTED;
}

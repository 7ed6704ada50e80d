/*
 * Refusals 3 to 6: which of the figures does not fit. The library answers the number alone, so the figures are worked
 * out here once more, by the rules of the paper and for the message only; nothing here is proved. Values are in tenths of a
 * ps. The sizes and the limits on the block's numbers are known to hold, so a value is below 1.7e13, and everything but the sum
 * of squares fits 64 bits: the largest number there is stays below 6e18.
 */
#include "cggtts.h"

#include <inttypes.h>
#include <math.h>

/* The most blocks, the measurements of one, and the steps of a ps. */
enum { MOST = TRACKLINE_GROUPS, SPAN = TRACKLINE_MEASUREMENTS_OF(1), STEPS = 10 };

static const int64_t WEIGHTS[SPAN] = {-78, -13, 42, 87, 122, 147, 162, 167, 162, 147, 122, 87, 42, -13, -78};

static int64_t smoothed(const uint8_t *block, size_t j)
{
    int64_t sum = 0;
    for (size_t i = 0; i < SPAN; i++) {
        sum += WEIGHTS[i] * measurement_at(block, SPAN * j + i);
    }
    return nearest(STEPS * sum, 1105);
}

/* The corrected values of each kind, and how many there are. */
struct values {
    size_t count;
    int64_t a[MOST], b[MOST], c[MOST], d[MOST];
};

/* A correction, which the block has in ps. */
static int64_t steps_at(const uint8_t *block, size_t j, size_t in_group)
{
    return STEPS * correction_at(block, j, in_group);
}

static void correct(const uint8_t *block, struct values *values)
{
    int64_t delays = STEPS * (ps_at(block, TRACKLINE_AT_INT) + ps_at(block, TRACKLINE_AT_CAB)
                              - ps_at(block, TRACKLINE_AT_REF) + ps_at(block, TRACKLINE_AT_GD));
    values->count = groups_of(block);
    for (size_t j = 0; j < values->count; j++) {
        values->c[j] = steps_at(block, j, TRACKLINE_IN_GROUP_TROPOSPHERE);
        values->d[j] = steps_at(block, j, TRACKLINE_IN_GROUP_IONOSPHERE);
        values->a[j] = smoothed(block, j) - delays - steps_at(block, j, TRACKLINE_IN_GROUP_GEOMETRY)
            + steps_at(block, j, TRACKLINE_IN_GROUP_RELATIVITY) - values->d[j] - values->c[j];
        values->b[j] = values->a[j] + steps_at(block, j, TRACKLINE_IN_GROUP_CLOCK);
    }
}

/* 2j - (n - 1). */
static int64_t place(size_t j, size_t n)
{
    return 2 * (int64_t)j - ((int64_t)n - 1);
}

/* S and T of the paper. */
static void sum_up(const int64_t *values, size_t n, int64_t *total, int64_t *moment)
{
    *total = *moment = 0;
    for (size_t j = 0; j < n; j++) {
        *total += values[j];
        *moment += place(j, n) * values[j];
    }
}

/* n(n^2 - 1). */
static int64_t span_of(size_t n)
{
    return (int64_t)(n * (n * n - 1));
}

/* DSG in floating point: exact for the root mean square of anything that is a track, near for what is none. */
static double scatter(const int64_t *values, size_t n)
{
    int64_t total, moment, span = span_of(n);
    double squares = 0;
    sum_up(values, n, &total, &moment);
    for (size_t j = 0; j < n; j++) {
        int64_t line = span / (int64_t)n * total + 3 * place(j, n) * moment;
        double residual = (double)(values[j] + nearest(-line, span));
        squares += residual * residual;
    }
    return floor((sqrt(squares / (double)n) + 50 * STEPS) / (100 * STEPS));
}

static void judge(const char *name, int64_t figure, int64_t low, int64_t high)
{
    if (figure < low || figure > high) {
        explain("%s is %" PRId64 ", not %" PRId64 " to %" PRId64 " (worked out by cggtts, not by the library)",
                name, figure, low, high);
    }
}

static int64_t midpoint(const int64_t *values, size_t n)
{
    int64_t total, moment;
    sum_up(values, n, &total, &moment);
    return nearest(total, 100 * STEPS * (int64_t)n);
}

static int64_t slope(const int64_t *values, size_t n)
{
    int64_t total, moment;
    sum_up(values, n, &total, &moment);
    return nearest(4 * moment, STEPS * span_of(n));
}

void explain_figures(const uint8_t *block, uint32_t number)
{
    struct values values;
    correct(block, &values);
    size_t n = values.count;
    switch (number) {
    case TRACKLINE_MIDPOINT:
        judge("REFSV", midpoint(values.a, n), -TRACKLINE_MOST_MIDPOINT, TRACKLINE_MOST_MIDPOINT);
        judge("REFSYS", midpoint(values.b, n), -TRACKLINE_MOST_MIDPOINT, TRACKLINE_MOST_MIDPOINT);
        break;
    case TRACKLINE_SLOPE:
        judge("SRSV", slope(values.a, n), -TRACKLINE_MOST_SLOPE, TRACKLINE_MOST_SLOPE);
        judge("SRSYS", slope(values.b, n), -TRACKLINE_MOST_SLOPE, TRACKLINE_MOST_SLOPE);
        judge("SMDT", slope(values.c, n), -TRACKLINE_MOST_DELAY_SLOPE, TRACKLINE_MOST_DELAY_SLOPE);
        judge("SMDI", slope(values.d, n), -TRACKLINE_MOST_DELAY_SLOPE, TRACKLINE_MOST_DELAY_SLOPE);
        break;
    case TRACKLINE_DELAY:
        judge("MDTR", midpoint(values.c, n), 0, TRACKLINE_MOST_DELAY);
        judge("MDIO", midpoint(values.d, n), 0, TRACKLINE_MOST_DELAY);
        break;
    default:
        explain("DSG is about %.0f, not 0 to %d (worked out by cggtts, not by the library)", scatter(values.b, n), TRACKLINE_MOST_DSG);
    }
}

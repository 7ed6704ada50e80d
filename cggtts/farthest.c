/*
 * Where to look in a block whose slope or scatter does not fit: the block of 15 seconds and the second that lie farthest from
 * the line, worked out in floating point for the message alone. Delays are left out, as they move all values alike.
 */
#include "cggtts.h"

#include <math.h>

enum { SPAN = TRACKLINE_MEASUREMENTS_OF(1) };
static const double SLIGHT = 1000; /* ps: what is less far from its line does not stand out */

/* A value by its place. */
typedef double value_of(const uint8_t *block, size_t i);

static double troposphere(const uint8_t *block, size_t j)
{
    return (double)correction_at(block, j, TRACKLINE_IN_GROUP_TROPOSPHERE);
}

static double ionosphere(const uint8_t *block, size_t j)
{
    return (double)correction_at(block, j, TRACKLINE_IN_GROUP_IONOSPHERE);
}

/* What the corrections of a group add to REFSYS. */
static double corrections(const uint8_t *block, size_t j)
{
    return (double)correction_at(block, j, TRACKLINE_IN_GROUP_RELATIVITY) + (double)correction_at(block, j, TRACKLINE_IN_GROUP_CLOCK)
        - (double)correction_at(block, j, TRACKLINE_IN_GROUP_GEOMETRY) - ionosphere(block, j) - troposphere(block, j);
}

/* The mean of a block's measurements, corrected. */
static double block_value(const uint8_t *block, size_t j)
{
    double sum = 0;
    for (size_t i = 0; i < SPAN; i++) {
        sum += (double)measurement_at(block, SPAN * j + i);
    }
    return sum / SPAN + corrections(block, j);
}

/* As it makes REFSV. */
static double block_value_without_clock(const uint8_t *block, size_t j)
{
    return block_value(block, j) - (double)correction_at(block, j, TRACKLINE_IN_GROUP_CLOCK);
}

/* Where a second lies among the blocks, whose middle is their second 7. */
static double place_of(size_t second)
{
    return ((double)second - SPAN / 2) / SPAN;
}

/* A second's measurement, with corrections on the parabola through those of its own group and of the two beside it. */
static double second_value(const uint8_t *block, size_t i)
{
    size_t last = groups_of(block) - 2, j = i / SPAN;
    j = j < 1 ? 1 : j > last ? last : j;
    double x = place_of(i) - (double)j;
    double before = corrections(block, j - 1), at = corrections(block, j), behind = corrections(block, j + 1);
    return (double)measurement_at(block, i) + at + x * (behind - before) / 2 + x * x * (behind - 2 * at + before) / 2;
}

/* The line through the values of n blocks: its height at block 0, and how it climbs from block to block. */
struct line {
    double height, climb;
};

static struct line line_through(const uint8_t *block, value_of *value)
{
    size_t n = groups_of(block);
    double middle = ((double)n - 1) / 2, sum = 0, moment = 0, squares = 0;
    for (size_t j = 0; j < n; j++) {
        double x = (double)j - middle, y = value(block, j);
        sum += y;
        moment += x * y;
        squares += x * x;
    }
    struct line line = {sum / (double)n - moment / squares * middle, moment / squares};
    return line;
}

struct far {
    size_t place;
    double off;
};

/* Of the blocks, or of the seconds, the one that lies farthest from the line. */
static struct far farthest(const uint8_t *block, value_of *value, struct line line)
{
    int seconds = value == second_value;
    size_t count = seconds ? measurements_of(block) : groups_of(block);
    struct far far = {0, 0};
    for (size_t i = 0; i < count; i++) {
        double off = value(block, i) - (line.height + line.climb * (seconds ? place_of(i) : (double)i));
        if (fabs(off) > fabs(far.off)) {
            far.place = i;
            far.off = off;
        }
    }
    return far;
}

/* Whether a slope, in 0.1 ps/s, does not fit. */
static int steep(const uint8_t *block, value_of *value, double most)
{
    return fabs(line_through(block, value).climb) * 10 / SPAN >= most + 0.5;
}

static void explain_measurements(const uint8_t *block)
{
    struct line line = line_through(block, block_value);
    struct far group = farthest(block, block_value, line), second = farthest(block, second_value, line);
    if (fabs(group.off) < SLIGHT) {
        explain("no block of 15 seconds stands out: all lie within 1 ns of the line");
        return;
    }
    explain("farthest from the line: block %zu (seconds %zu to %zu), by about %.0f ps", group.place, SPAN * group.place,
            SPAN * group.place + SPAN - 1, group.off);
    explain("farthest from the line: second %zu (measurement %zu), by about %.0f ps", second.place, second.place, second.off);
}

static void explain_column(const uint8_t *block, value_of *value, const char *name)
{
    struct far group = farthest(block, value, line_through(block, value));
    if (fabs(group.off) >= SLIGHT) {
        explain("farthest from its line: %s %zu (seconds %zu to %zu), by about %.0f ps", name, group.place, SPAN * group.place,
                SPAN * group.place + SPAN - 1, group.off);
    }
}

/* The mean size of what is counted in ps. */
static double mean_size(const uint8_t *block, int measurements)
{
    size_t count = measurements ? measurements_of(block) : groups_of(block);
    double sum = 0;
    for (size_t i = 0; i < count; i++) {
        sum += fabs((double)(measurements ? measurement_at(block, i) : correction_at(block, i, TRACKLINE_IN_GROUP_GEOMETRY)));
    }
    return sum / (double)count;
}

/* Measurements and geometry have about the same size, both in ps. Answers whether one is about 1000 times the other. */
static int explain_unit(const uint8_t *block)
{
    double measured = mean_size(block, 1), geometry = mean_size(block, 0);
    double times = measured > geometry ? measured / geometry : geometry / measured;
    int slip = measured > 0 && geometry > 0 && times > 500 && times < 2000;
    if (slip && measured < geometry) {
        explain("geometry is about %.0f times the measurements: are these in ns for ps?", times);
    } else if (slip) {
        explain("the measurements are about %.0f times the geometry: is that in ns for ps?", times);
    }
    return slip;
}

void explain_farthest(const uint8_t *block, uint32_t number)
{
    int column = 0;
    if (explain_unit(block)) {
        return;
    }
    if (number == TRACKLINE_SLOPE && steep(block, troposphere, TRACKLINE_MOST_DELAY_SLOPE)) {
        explain_column(block, troposphere, "troposphere");
        column = 1;
    }
    if (number == TRACKLINE_SLOPE && steep(block, ionosphere, TRACKLINE_MOST_DELAY_SLOPE)) {
        explain_column(block, ionosphere, "ionosphere");
        column = 1;
    }
    if (!column || steep(block, block_value, TRACKLINE_MOST_SLOPE) || steep(block, block_value_without_clock, TRACKLINE_MOST_SLOPE)) {
        explain_measurements(block);
    }
}

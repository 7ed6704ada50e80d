/* Refusal 2: the first number of the block that is beyond its limit, and how many more there are. */
#include "cggtts.h"

#include <inttypes.h>
#include <stdio.h>

static const int64_t MEASUREMENT_LIMIT = TRACKLINE_MOST_MEASUREMENT, GEOMETRY_LIMIT = TRACKLINE_MOST_GEOMETRY,
                     OTHER_LIMIT = TRACKLINE_MOST_CORRECTION;

static const char *const COLUMNS[] = {"geometry", "relativity", "ionosphere", "troposphere", "clock"};

/* Explains the first number beyond its limit and counts the others. `place` is counted from 0; a delay has none. */
static void judge(const char *list, size_t place, int64_t value, int64_t limit, size_t *found)
{
    char where[24] = "";
    if (value >= -limit && value <= limit) {
        return;
    }
    if (place != SIZE_MAX) {
        snprintf(where, sizeof where, " %zu", place);
    }
    if (*found == 0) {
        explain("%s%s: %" PRId64 " ps is beyond %" PRId64, list, where, value, value < 0 ? -limit : limit);
    }
    ++*found;
}

void explain_limits(const uint8_t *block)
{
    size_t found = 0, measurements = measurements_of(block), groups = groups_of(block);
    for (size_t k = 0; k < DELAYS; k++) {
        judge(DELAY_NAME[k], SIZE_MAX, ps_at(block, TRACKLINE_AT_INT + TRACKLINE_WIDTH_PS * k), OTHER_LIMIT, &found);
    }
    for (size_t i = 0; i < measurements; i++) {
        judge("measurement", i, measurement_at(block, i), MEASUREMENT_LIMIT, &found);
    }
    for (size_t j = 0; j < groups; j++) {
        for (size_t k = 0; k < 5; k++) {
            int64_t limit = k == 0 ? GEOMETRY_LIMIT : OTHER_LIMIT;
            judge(COLUMNS[k], j, correction_at(block, j, TRACKLINE_WIDTH_PS * k), limit, &found);
        }
    }
    if (found > 1) {
        explain("and %zu more", found - 1);
    }
}

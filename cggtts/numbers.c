/* Numbers as people write them, by whole numbers alone: what is printed is exact, or rounded where it says so. */
#include "cggtts.h"

#include <inttypes.h>
#include <stdio.h>

/* The nearest whole number to numerator / divisor, a tie going up. The divisor is above 0. */
int64_t nearest(int64_t numerator, int64_t divisor)
{
    int64_t raised = numerator + divisor / 2;
    return raised / divisor - (raised % divisor < 0);
}

/* A whole number of tenths, or of hundredths and so on, in a room of DECIMAL_ROOM bytes. */
const char *decimal_text(int64_t value, int places, char *room)
{
    uint64_t magnitude = value < 0 ? -(uint64_t)value : (uint64_t)value, unit = 1;
    const char *sign = value < 0 ? "-" : "";
    for (int i = 0; i < places; i++) {
        unit *= 10;
    }
    if (places == 0) {
        snprintf(room, DECIMAL_ROOM, "%s%" PRIu64, sign, magnitude);
    } else {
        snprintf(room, DECIMAL_ROOM, "%s%" PRIu64 ".%0*" PRIu64, sign, magnitude / unit, places, magnitude % unit);
    }
    return room;
}

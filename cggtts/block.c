/* The numbers in a hire block, for messages: hireblock(5). */
#include "cggtts.h"

/* The lowest byte comes first. */
uint64_t unsigned_at(const uint8_t *block, size_t at, size_t width)
{
    uint64_t number = 0;
    for (size_t i = width; i > 0; i--) {
        number = number << 8 | block[at + i - 1];
    }
    return number;
}

/* Two's complement. */
int64_t ps_at(const uint8_t *block, size_t at)
{
    uint64_t number = unsigned_at(block, at, TRACKLINE_WIDTH_PS);
    return number <= INT64_MAX ? (int64_t)number : -1 - (int64_t)(UINT64_MAX - number);
}

size_t measurements_of(const uint8_t *block)
{
    return (size_t)unsigned_at(block, TRACKLINE_AT_MEASUREMENTS_SIZE, TRACKLINE_WIDTH_MEASUREMENTS_SIZE);
}

size_t groups_of(const uint8_t *block)
{
    return (size_t)unsigned_at(block, TRACKLINE_AT_GROUPS_SIZE, TRACKLINE_WIDTH_GROUPS_SIZE);
}

int sizes_fit(size_t measurements, size_t groups)
{
    return groups >= TRACKLINE_LEAST_GROUPS && groups <= TRACKLINE_GROUPS
        && measurements == TRACKLINE_MEASUREMENTS_OF(groups);
}

int64_t measurement_at(const uint8_t *block, size_t i)
{
    return ps_at(block, TRACKLINE_AT_MEASUREMENTS + TRACKLINE_WIDTH_PS * i);
}

int64_t correction_at(const uint8_t *block, size_t j, size_t in_group)
{
    return ps_at(block, TRACKLINE_AT_GROUPS_OF(groups_of(block)) + TRACKLINE_WIDTH_GROUP * j + in_group);
}

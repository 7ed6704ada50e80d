/*
 * Remarks on lines that were made one by one and stay in the order of their files: those that do not ascend, and those that have
 * the MJD, start and satellite of another. Both are accepted; a line file has neither.
 */
#include "cggtts.h"

#include <errno.h>
#include <stdio.h>
#include <stdlib.h>
#include <string.h>

/* A line that was made, and its place among the others, from 0. */
struct made {
    const uint8_t *line;
    size_t place;
};

static const struct origin *origin_of(const struct bytes *origins, size_t place)
{
    return (const struct origin *)(const void *)origins->at + place;
}

static size_t count_of(const struct bytes *origins)
{
    return origins->length / sizeof(struct origin);
}

/* The first line whose keys are below those of the line before it, and how many more there are. */
void remark_on_order(const struct bytes *lines, size_t width, const struct bytes *origins)
{
    size_t first = 0, found = 0;
    char more[80] = "";
    for (size_t i = 1; i < count_of(origins); i++) {
        if (compare_keys(lines->at + width * (i - 1), lines->at + width * i) > 0) {
            first = found++ == 0 ? i : first;
        }
    }
    if (found > 1) {
        snprintf(more, sizeof more, ", and %zu more line%s not either", found - 1, found == 2 ? " does" : "s do");
    }
    if (found > 0) {
        explain("a remark: %s:%zu does not follow the line before by MJD, start and satellite%s; cggtts convert puts lines in order",
                origin_of(origins, first)->file, origin_of(origins, first)->line, more);
    }
}

static int compare_made(const void *one, const void *other)
{
    const struct made *first = one, *second = other;
    int keys = compare_keys(first->line, second->line);
    return keys != 0 ? keys : (first->place > second->place) - (first->place < second->place);
}

static void say_same_keys(const struct origin *one, const struct origin *other, size_t found)
{
    char more[80] = "", why[160] = "cggtts convert writes equal lines once, and refuses others with 15";
    if (found > 1) {
        snprintf(more, sizeof more, ", and %zu more line%s those of another", found - 1, found == 2 ? " has" : "s have");
    }
    if (memcmp(one->frc, other->frc, FRC_WIDTH) != 0) {
        snprintf(why, sizeof why, "their FRC, %.3s and %.3s, is dropped, and nothing tells the two codes apart", one->frc, other->frc);
    }
    explain("a remark: %s:%zu has the MJD, start and satellite of %s:%zu%s; %s", one->file, one->line, other->file, other->line, more, why);
}

/* Of sorted lines, the one that stands first of those that have an earlier one's keys. */
static void remark_on_sorted(const struct made *sorted, const struct bytes *origins)
{
    size_t count = count_of(origins), found = 0;
    const struct made *one = NULL;
    for (size_t i = 1; i < count; i++) {
        if (compare_keys(sorted[i - 1].line, sorted[i].line) == 0) {
            one = found++ == 0 || sorted[i].place < one->place ? &sorted[i] : one;
        }
    }
    if (found > 0) {
        say_same_keys(origin_of(origins, one->place), origin_of(origins, one[-1].place), found);
    }
}

void remark_on_same_keys(const struct bytes *lines, size_t width, const struct bytes *origins)
{
    size_t count = count_of(origins);
    struct made *sorted = calloc(count + 1, sizeof *sorted);
    if (sorted == NULL) {
        complain_of_error("output", errno);
        return;
    }
    for (size_t i = 0; i < count; i++) {
        sorted[i] = (struct made){lines->at + width * i, i};
    }
    qsort(sorted, count, sizeof *sorted, compare_made);
    remark_on_sorted(sorted, origins);
    free(sorted);
}

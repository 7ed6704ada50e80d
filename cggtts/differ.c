/* Refusal 15: two lines of the same keys that differ, with both values, and how many more there are. */
#include "cggtts.h"

#include <stdio.h>

/* Two lines, each by where it stands, and the first field in which they differ. */
void explain_difference(const char *place, const uint8_t *line, const char *other_place, const uint8_t *other)
{
    size_t column = column_of_difference(line, other);
    const struct field *field = field_at(column);
    int width = (int)(field->last - field->first + 1);
    char keys[KEYS_ROOM];
    explain("%s has %s too, and is another from column %zu on (%s)", other_place, keys_of(line, keys), column, field->name);
    explain("%s is %.*s in %s and %.*s in %s", field->name, width, (const char *)line + field->first - 1, place, width,
            (const char *)other + field->first - 1, other_place);
}

void explain_two_lines(const struct line_file *first, size_t number, const struct line_file *second, size_t other_number)
{
    size_t more = lines_that_differ(&first->bytes, &second->bytes) - 1;
    char place[NAME_ROOM], other_place[NAME_ROOM];
    snprintf(place, sizeof place, "%s:%zu", first->name, number);
    snprintf(other_place, sizeof other_place, "%s:%zu", second->name, other_number);
    explain_difference(place, line_at(&first->bytes, number), other_place, line_at(&second->bytes, other_number));
    if (more > 0) {
        explain("and %zu more line%s", more, more == 1 ? " differs so" : "s differ so");
    }
}

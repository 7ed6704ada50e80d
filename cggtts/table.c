/* cggtts read --csv: the lines as a table, a row each, for programs that read such tables (RFC 4180, but with line feeds alone). */
#include "cggtts.h"

#include <inttypes.h>
#include <string.h>

/* A text in quotes, each quote in it twice. */
static void print_quoted(const char *text, size_t length)
{
    print_text("\"");
    for (size_t i = 0; i < length; i++) {
        print_bytes(text + i, 1);
        print_text(text[i] == '"' ? "\"" : "");
    }
    print_text("\"");
}

/* The value as the library hands it back, a letter or FRC as characters. */
static void print_value(const struct field *field, const uint8_t *line, const int64_t *values)
{
    if (field->form == LETTER || field->form == CHARACTERS) {
        print_form(",%.*s", (int)(field->last - field->first + 1), (const char *)line + field->first - 1);
    } else {
        print_form(",%" PRId64, values[field->place]);
    }
}

/* CK is none of the values. */
enum { VALUE_FIELDS = FIELDS - 1 };

void print_table_heading(void)
{
    print_text("file,line");
    for (const struct field *field = FIELD; field < FIELD + VALUE_FIELDS; field++) {
        print_form(",%s", field->name);
    }
    print_text(",comment\n");
}

void print_table_row(const char *file, size_t number, const uint8_t *line, size_t length, const int64_t *values)
{
    const char *name = clean(file);
    size_t comment = trackline_comment(line, length);
    print_quoted(name, strlen(name));
    print_form(",%zu", number);
    for (const struct field *field = FIELD; field < FIELD + VALUE_FIELDS; field++) {
        print_value(field, line, values);
    }
    print_text(",");
    print_quoted((const char *)line + comment, length - comment);
    print_text("\n");
}

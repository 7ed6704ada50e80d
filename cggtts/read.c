/* cggtts read: what stands in each line of a file, a field a row: its name, its value with the unit, and its columns. */
#include "cggtts.h"

#include <inttypes.h>
#include <stdio.h>
#include <string.h>

/* The value as people say it. */
static void put_value(const struct field *field, const int64_t *values, char *text, size_t size)
{
    int64_t value = field->place < TRACKLINE_VALUES ? values[field->place] : 0;
    uint64_t magnitude = value < 0 ? -(uint64_t)value : (uint64_t)value;
    const char *gap = field->unit[0] != '\0' ? " " : "";
    char tenths[DECIMAL_ROOM], date[DATE_ROOM];
    switch (field->form) {
    case CALENDAR:
        snprintf(text, size, "%" PRId64 ", %s", value, date_text(value, date));
        break;
    case LETTER:
        snprintf(text, size, "%s", constellation_name((uint8_t)value));
        break;
    case WHOLE:
        snprintf(text, size, "%" PRId64 "%s%s", value, gap, field->unit);
        break;
    case HEXADECIMAL:
        snprintf(text, size, "%02" PRIX64, magnitude);
        break;
    case TENTHS:
        snprintf(text, size, "%s%s%s", decimal_text(value, 1, tenths), gap, field->unit);
        break;
    case CLOCK:
        snprintf(text, size, "%02" PRIu64 ":%02" PRIu64 ":%02" PRIu64 ", second %" PRIu64, magnitude / 3600, magnitude / 60 % 60,
                 magnitude % 60, magnitude);
        break;
    case CHARACTERS:
        text[0] = '\0';
    }
}

static void show(const uint8_t *line, size_t length, const int64_t *values)
{
    size_t comment = trackline_comment(line, length);
    char value[64], row[160];
    for (const struct field *field = FIELD; field < FIELD + FIELDS; field++) {
        put_value(field, values, value, sizeof value);
        int width = (int)(field->last - field->first + 1);
        const char *columns = (const char *)line + field->first - 1;
        if (field->form == CHARACTERS) {
            snprintf(row, sizeof row, "  %-14s %.*s\n", field->name, width, columns);
        } else {
            snprintf(row, sizeof row, "  %-14s %-22s %.*s\n", field->name, value, width, columns);
        }
        print_text(row);
    }
    if (comment < length) {
        snprintf(row, sizeof row, "  %-14s \"%.*s\"\n", "comment", (int)(length - comment), (const char *)line + comment);
        print_text(row);
    }
}

/* A line of a file, without its line end. */
struct one_line {
    const char *file;
    size_t number;
    const uint8_t *at;
    size_t length;
};

static void show_under_its_place(const struct one_line *line, const int64_t *values)
{
    static int shown_before;
    print_text(shown_before ? "\n" : "");
    shown_before = 1;
    print_name(line->file);
    print_form(":%zu\n", line->number);
    show(line->at, line->length, values);
}

/* Reports the refusal of a line. Answers whether there is nothing to say of the line by itself, as the file is none of lines. */
static int report_one(const struct one_line *line, const struct bytes *file, uint32_t answer)
{
    char place[NAME_ROOM];
    snprintf(place, sizeof place, "%s:%zu", line->file, line->number);
    report_refusal(place, answer);
    if (explain_no_lines(file)) {
        return 1;
    }
    if (!explain_other_line(line->at, line->length)) {
        explain_line(line->at, line->length, answer);
    }
    return 0;
}

/* Answers the status, and FAILED never; *over is set where no other line of the file is to be looked at. */
static int read_line(const struct one_line *line, const struct bytes *file, const struct arguments *given, int *over)
{
    int64_t values[TRACKLINE_VALUES];
    uint32_t answer = trackline_read(line->at, line->length, values, TRACKLINE_VALUES);
    if (answer != TRACKLINE_ACCEPTED) {
        *over = report_one(line, file, answer);
        return REFUSED;
    }
    if (given->csv) {
        print_table_row(line->file, line->number, line->at, line->length, values);
    } else if (!given->bad) {
        show_under_its_place(line, values);
    }
    return ACCEPTED;
}

/*
 * The header that a published file begins with is refused as one; where its CKSUM is not right, its title alone. Answers where
 * the lines begin that are left, and counts those before.
 */
static size_t pass_header(const char *name, const struct bytes *file, size_t *number)
{
    struct text line;
    char place[NAME_ROOM];
    int64_t values[TRACKLINE_VALUES];
    size_t from;
    if (!begins_with_header(file) || !text_at(file, text_begin(file), &line)) {
        return 0;
    }
    *number = header_lines(file, &from);
    snprintf(place, sizeof place, "%s:1", name);
    report_refusal(place, trackline_read(line.at, line.length, values, TRACKLINE_VALUES));
    if (*number == 0) {
        *number = 1;
        from = line.next;
    } else {
        explain("it is the first of a header's lines, up to line %zu", *number);
    }
    advise_header(name, file);
    return from;
}

/* The lines of a file. Each ends with line feed, or carriage return and line feed; the last one need not. */
static int read_lines(const char *name, const struct arguments *given)
{
    struct bytes file;
    int status = read_file(name, &file), over = 0;
    struct one_line line = {name, 0, NULL, 0};
    size_t from = status != FAILED ? pass_header(name, &file, &line.number) : 0;
    status = line.number > 0 ? REFUSED : status;
    while (status != FAILED && !over && (from < file.length || line.number == 0)) {
        line.at = file.at + from;
        const uint8_t *end = memchr(line.at, '\n', file.length - from);
        line.length = end != NULL ? (size_t)(end - line.at) : file.length - from;
        from += line.length + (end != NULL);
        line.length -= end != NULL && line.length > 0 && line.at[line.length - 1] == '\r';
        line.number++;
        int one = read_line(&line, &file, given, &over);
        status = one > status ? one : status;
    }
    free_bytes(&file);
    return status;
}

int read_command(int argc, char **argv)
{
    struct arguments given;
    int status = ACCEPTED;
    if (read_arguments(argc, argv, NO_FILE | WITH_READ, &given) != ACCEPTED) {
        return FAILED;
    }
    if (given.bad && given.csv) {
        return wrong_use("read: --bad shows refused lines alone, and --csv the others: give one of the two");
    }
    if (given.csv) {
        print_table_heading();
    }
    if (given.count == 0) {
        return read_lines("-", &given);
    }
    for (int i = 0; i < given.count; i++) {
        int one = read_lines(given.names[i], &given);
        status = one > status ? one : status;
    }
    return status;
}

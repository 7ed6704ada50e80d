/*
 * Two line files, and which line of which file is refused. The library answers the number of a refusal alone; the line that
 * it is about is found by the library's answers to shorter files, so that the two can't disagree.
 */
#include "cggtts.h"

#include <stdio.h>
#include <string.h>

static const struct bytes NOTHING = {NULL, 0, 0};

int read_files(struct line_file *first, struct line_file *second)
{
    int one = read_file(first->name, &first->bytes), other = read_file(second->name, &second->bytes);
    return other > one ? other : one;
}

void free_files(struct line_file *first, struct line_file *second)
{
    free_bytes(&first->bytes);
    free_bytes(&second->bytes);
}

/* How many lines there are, a tail that is too short for one counted as one. */
size_t lines_of(const struct bytes *file)
{
    return (file->length + TRACKLINE_FILE_LINE_BYTES - 1) / TRACKLINE_FILE_LINE_BYTES;
}

const uint8_t *line_at(const struct bytes *file, size_t number)
{
    return file->at + TRACKLINE_FILE_LINE_BYTES * (number - 1);
}

/* So many lines at the beginning of a file. */
struct bytes head_of(const struct bytes *file, size_t lines)
{
    struct bytes part = *file;
    if (lines < lines_of(file)) {
        part.length = lines * TRACKLINE_FILE_LINE_BYTES;
    }
    return part;
}

/* Whether the library does not merge two files, whatever room there is for the result. */
int files_refused(const struct bytes *first, const struct bytes *second)
{
    size_t written;
    uint32_t answer = trackline_merge(first->at, first->length, second->at, second->length, NULL, 0, &written);
    return answer != TRACKLINE_ACCEPTED && answer != TRACKLINE_ROOM;
}

/*
 * The line that a file is refused for, together with another: the shortest head of it that is refused ends with that
 * line. Every longer head is refused too, so the shortest is found by halving.
 */
size_t blamed_line(const struct bytes *file, const struct bytes *other)
{
    size_t accepted = 0, too_long = lines_of(file);
    while (too_long - accepted > 1) {
        size_t middle = accepted + (too_long - accepted) / 2;
        struct bytes part = head_of(file, middle);
        if (files_refused(&part, other)) {
            too_long = middle;
        } else {
            accepted = middle;
        }
    }
    return too_long;
}

/* The four keys as the columns of an accepted line have them, in a room of KEYS_ROOM bytes. */
const char *keys_of(const uint8_t *line, char *room)
{
    const char *columns = (const char *)line;
    snprintf(room, KEYS_ROOM, "MJD %.5s, start %.6s, %.3s", columns + 7, columns + 13, columns);
    return room;
}

/* Accepted lines compare by the bytes of their keys' columns, as the numbers there are filled with zeros. */
int compare_keys(const uint8_t *line, const uint8_t *other)
{
    int dates = memcmp(line + 7, other + 7, 12);
    return dates != 0 ? dates : memcmp(line, other, 3);
}

/* The first column in which two lines differ, counted from 1, or 0 if they are the same. */
size_t column_of_difference(const uint8_t *line, const uint8_t *other)
{
    for (size_t column = 1; column <= TRACKLINE_LINE_BYTES; column++) {
        if (line[column - 1] != other[column - 1]) {
            return column;
        }
    }
    return 0;
}

/* The field that a column stands in, or before. */
const struct field *field_at(size_t column)
{
    const struct field *field = FIELD;
    while (field->last < column) {
        field++;
    }
    return field;
}

void report_line(const struct line_file *file, size_t number, uint32_t answer)
{
    char place[NAME_ROOM];
    snprintf(place, sizeof place, "%s:%zu", file->name, number);
    report_refusal(place, answer);
}

/* The two bytes behind column 113, which are not carriage return and line feed. */
static void explain_end(const uint8_t *end)
{
    if (end[0] == '\n') {
        explain("its lines end with line feed alone, not carriage return and line feed");
    } else if (end[0] == '\r') {
        explain("its lines end with carriage return alone: tr '\\r' '\\n' puts line feeds in their place, which convert takes");
    } else {
        explain("it goes on behind column 113: a comment, which a line of a file has not");
    }
}

/* A last line that is too short; with line feed alone it would be whole. */
static void explain_tail(const uint8_t *line, size_t length)
{
    if (length == TRACKLINE_LINE_BYTES + 1 && line[TRACKLINE_LINE_BYTES] == '\n') {
        explain_end(line + TRACKLINE_LINE_BYTES);
    } else {
        explain("it has %zu byte%s, and a line of a file has %d with its line end", length, length == 1 ? "" : "s",
                TRACKLINE_FILE_LINE_BYTES);
    }
}

/* What stands from a line of a file on, up to the next line feed, without a line end. */
static size_t length_of_text(const struct bytes *file, size_t number)
{
    const uint8_t *line = line_at(file, number);
    size_t rest = (size_t)(file->at + file->length - line);
    const uint8_t *end = memchr(line, '\n', rest);
    size_t length = end != NULL ? (size_t)(end - line) : rest;
    return length - (length > 0 && line[length - 1] == '\r');
}

/* 16: the keys of the line and of the line before it, which may be the same, as the whole line may. */
static void explain_order(const uint8_t *line, const uint8_t *before)
{
    char keys[KEYS_ROOM], keys_before[KEYS_ROOM];
    size_t column = column_of_difference(line, before);
    keys_of(line, keys);
    keys_of(before, keys_before);
    if (column == 0) {
        explain("it has %s, and is the line before it once more", keys);
    } else if (compare_keys(line, before) == 0) {
        explain("it has %s as the line before it has, and is another from column %zu on (%s)", keys, column,
                field_at(column)->name);
    } else {
        explain("it has %s, and the line before it %s", keys, keys_before);
    }
}

/* The command that helps: with lines that do not ascend, or with one that only has other fills or another line end. */
static void advise_file(const struct line_file *file, size_t number, uint32_t answer)
{
    if (answer == TRACKLINE_ORDER) {
        advise_convert(file->name, "convert puts lines in order, and writes equal ones once");
    } else {
        advise_line(file, line_at(&file->bytes, number), length_of_text(&file->bytes, number));
    }
}

/* What a line of one file is refused for. */
static void explain_file(const struct line_file *file, size_t number, uint32_t answer)
{
    const uint8_t *line = line_at(&file->bytes, number);
    size_t tail = file->bytes.length - TRACKLINE_FILE_LINE_BYTES * (number - 1);
    int64_t values[TRACKLINE_VALUES];
    if (begins_with_header(&file->bytes)) {
        advise_header(file->name, &file->bytes);
        return;
    }
    if (explain_no_lines(&file->bytes) || explain_other_line(line, length_of_text(&file->bytes, number))) {
        return;
    }
    if (answer == TRACKLINE_LINE_LENGTH) {
        explain_tail(line, tail);
    } else if (answer == TRACKLINE_ORDER) {
        explain_order(line, line_at(&file->bytes, number - 1));
    } else if (trackline_read(line, TRACKLINE_LINE_BYTES, values, TRACKLINE_VALUES) == TRACKLINE_ACCEPTED) {
        explain_end(line + TRACKLINE_LINE_BYTES);
    } else {
        explain_line(line, TRACKLINE_LINE_BYTES, answer);
    }
    advise_file(file, number, answer);
}

/* Reports the line that one of the files is refused for. Answers whether there is one. */
int report_file(const struct line_file *first, const struct line_file *second, uint32_t answer)
{
    const struct line_file *blamed = files_refused(&first->bytes, &NOTHING) ? first
        : files_refused(&second->bytes, &NOTHING)                           ? second
                                                                            : NULL;
    if (blamed != NULL) {
        size_t number = blamed_line(&blamed->bytes, &NOTHING);
        report_line(blamed, number, answer);
        explain_file(blamed, number, answer);
    }
    return blamed != NULL;
}

/*
 * What a file or a line is that another subcommand takes, or none: told by name, where its refusal alone would lead astray.
 * Nothing is decided here; what is refused is refused by the library.
 */
#include "cggtts.h"

#include <string.h>

/* Columns of a line, counted from 1, that hold blanks; the list ends with 0. */
static int blank_at(const uint8_t *line, size_t length, const size_t *columns)
{
    for (; *columns != 0; columns++) {
        if (*columns > length || line[*columns - 1] != ' ') {
            return 0;
        }
    }
    return 1;
}

/* Columns that hold digits. */
static int digits_in(const uint8_t *line, size_t first, size_t last)
{
    for (size_t column = first; column <= last; column++) {
        if (line[column - 1] < '0' || line[column - 1] > '9') {
            return 0;
        }
    }
    return 1;
}

/* Columns 1 to 101 are the same in all forms: blanks between CL, MJD and the start, and an MJD of five digits. */
static int has_columns(const uint8_t *line, size_t length)
{
    static const size_t BETWEEN[] = {4, 7, 13, 20, 0};
    return length >= 103 && blank_at(line, length, BETWEEN) && digits_in(line, 8, 12);
}

static int is_data_line(const uint8_t *line, size_t length)
{
    return has_columns(line, length) && memchr("GRECJ", line[0], 5) != NULL;
}

/* Document 000, 3.5.2: MSIO, SMSI and ISG stand before FR, where a line of ours has FR, HC and FRC. */
static int has_measured_ionosphere(const uint8_t *line, size_t length)
{
    static const size_t BETWEEN[] = {101, 106, 111, 115, 118, 121, 125, 0};
    return length >= 127 && is_data_line(line, length) && blank_at(line, length, BETWEEN);
}

/* Document 004: a satellite without a letter, and CK in columns 102 and 103, or behind a measured ionosphere in 116 and 117. */
static int is_version_01(const uint8_t *line, size_t length)
{
    return has_columns(line, length) && (line[0] == ' ' || digits_in(line, 1, 1)) && digits_in(line, 3, 3) && line[100] == ' ';
}

/* The same behind which MSIO, SMSI and ISG stand. */
static int is_old_measured(const uint8_t *line, size_t length)
{
    static const size_t BETWEEN[] = {106, 111, 115, 0};
    return length >= 117 && blank_at(line, length, BETWEEN) && digits_in(line, 105, 105) && digits_in(line, 114, 114);
}

/* The first line of a file, without its line end. */
static size_t first_line(const struct bytes *file)
{
    const uint8_t *end = file->length > 0 ? memchr(file->at, '\n', file->length) : NULL;
    size_t length = end != NULL ? (size_t)(end - file->at) : file->length;
    return length - (length > 0 && file->at[length - 1] == '\r');
}

static int begins_with(const struct bytes *file, const char *word)
{
    return file->length >= strlen(word) && memcmp(file->at, word, strlen(word)) == 0;
}

static int is_packed(const struct bytes *file)
{
    return begins_with(file, "\x1F\x8B");
}

/* By its sizes and its length, of which a cut block has less. */
static int is_block(const struct bytes *file)
{
    return file->length > TRACKLINE_AT_MEASUREMENTS && sizes_fit(measurements_of(file->at), groups_of(file->at))
        && file->length <= TRACKLINE_BLOCK_BYTES;
}

static int explain_packed(const struct bytes *file)
{
    if (is_packed(file)) {
        explain("it is a gzip file: unpack it first, as by gunzip");
    }
    return is_packed(file);
}

/* A line of another form. Answers whether it is one. */
int explain_other_line(const uint8_t *line, size_t length)
{
    if (has_measured_ionosphere(line, length)) {
        explain("it has a measured ionosphere (MSIO, SMSI, ISG), as lines of two frequencies have: such lines are not taken");
        return 1;
    }
    if (is_version_01(line, length)) {
        explain(is_old_measured(line, length)
                    ? "it is a line of version 01 with a measured ionosphere (MSIO, SMSI, ISG): such lines are not taken"
                    : "it is a line of version 01, which has no letter, FR, HC and FRC: 'cggtts convert FILE --hc N --frc XYZ' takes such lines");
        return 1;
    }
    return 0;
}

/* A line that has the form already which it is to be given. Answers whether it is one. */
int explain_same_form(const uint8_t *line, size_t length, int old)
{
    if (old && is_version_01(line, length)) {
        explain("it is a line of version 01 already");
        return 1;
    }
    if (!old && length >= TRACKLINE_LINE_BYTES && is_data_line(line, length)) {
        explain("it is a line of ours already, with the letter %c", line[0]);
        return 1;
    }
    return 0;
}

/* What is given as lines, and is none. Answers whether that is so. */
int explain_no_lines(const struct bytes *file)
{
    if (explain_packed(file)) {
        return 1;
    }
    if (is_block(file)) {
        explain("it is a hire block, which 'cggtts check' and 'cggtts line' take");
    }
    return is_block(file);
}

/* What is given as a block, and is none. Answers whether that is so. */
int explain_no_block(const struct bytes *file)
{
    size_t length = first_line(file);
    if (explain_packed(file)) {
        return 1;
    }
    if (begins_with(file, "CGGTTS") || begins_with(file, "GGTTS")) {
        explain("it is a file of data lines with a header, and no hire block");
        return 1;
    }
    if (is_data_line(file->at, length)) {
        explain("it has data lines, which 'cggtts read' takes, and is no hire block");
        return 1;
    }
    return explain_other_line(file->at, length);
}

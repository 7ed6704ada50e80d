/*
 * The columns of a data line, ours or one of version 01, and which of them a refused line is refused for. The library answers
 * the number alone, so the column is looked for here, for the message only. Columns are counted from 1, as the papers count them.
 */
#include "cggtts.h"

#include <stdio.h>
#include <string.h>

#define NS "ns"
#define PS_A_SECOND "ps/s"
#define FIELD_OF(name, first, last, form, unit) {#name, first, last, form, TRACKLINE_VALUE_##name, unit}

const struct field FIELD[FIELDS] = {
    {"constellation", 1, 1, LETTER, TRACKLINE_VALUE_CONSTELLATION, ""},
    {"satellite", 2, 3, WHOLE, TRACKLINE_VALUE_SATELLITE, ""},
    FIELD_OF(CL, 5, 6, HEXADECIMAL, ""),
    FIELD_OF(MJD, 8, 12, CALENDAR, ""),
    {"start", 14, 19, CLOCK, TRACKLINE_VALUE_START, ""},
    FIELD_OF(TRKL, 21, 24, WHOLE, "s"),
    FIELD_OF(ELV, 26, 28, TENTHS, "degrees"),
    FIELD_OF(AZTH, 30, 33, TENTHS, "degrees"),
    FIELD_OF(REFSV, 35, 45, TENTHS, NS),
    FIELD_OF(SRSV, 47, 52, TENTHS, PS_A_SECOND),
    FIELD_OF(REFSYS, 54, 64, TENTHS, NS),
    FIELD_OF(SRSYS, 66, 71, TENTHS, PS_A_SECOND),
    FIELD_OF(DSG, 73, 76, TENTHS, NS),
    FIELD_OF(IOE, 78, 80, WHOLE, ""),
    FIELD_OF(MDTR, 82, 85, TENTHS, NS),
    FIELD_OF(SMDT, 87, 90, TENTHS, PS_A_SECOND),
    FIELD_OF(MDIO, 92, 95, TENTHS, NS),
    FIELD_OF(SMDI, 97, 100, TENTHS, PS_A_SECOND),
    FIELD_OF(FR, 102, 103, WHOLE, ""),
    FIELD_OF(HC, 105, 106, WHOLE, ""),
    {"FRC", 108, 110, CHARACTERS, TRACKLINE_VALUE_FRC1, ""},
    {"CK", 112, 113, CHARACTERS, TRACKLINE_VALUES, ""},
};

/* What each column before CK may hold, as a picture of the line. */
static const char KINDS[] =
    "L99 FF 99999 999999 9999 999 9999 +9999999999 +99999 +9999999999 +99999 9999 999 9999 +999 9999 +999 99 99 ZZZ ";

/* A form of a line: how many columns stand before CK, which has two. Those of version 01 are ours but for the first, a blank. */
enum line_form { OURS = sizeof KINDS - 1, VERSION_01 = TRACKLINE_OLD_BYTES - 2 };

static char kind_of(enum line_form form, size_t column)
{
    return column == 1 && form == VERSION_01 ? ' ' : KINDS[column - 1];
}

static const struct kind {
    char kind;
    const char *characters, *name;
} CHARACTERS_OF[] = {
    {'L', "GRECJ", "G, R, E, C or J"}, {'9', "0123456789", "a digit"},
    {'F', "0123456789ABCDEF", "a digit or a capital letter A to F"}, {'+', "+-", "a sign"},
    {'Z', "ABCDEFGHIJKLMNOPQRSTUVWXYZ0123456789", "a capital letter or a digit"}, {' ', " ", "a blank"},
};

/* What a column of this kind may hold, or NULL if it holds one of those. */
static const char *wanted(char kind, uint8_t byte)
{
    const struct kind *of = CHARACTERS_OF;
    while (of->kind != kind) {
        of++;
    }
    return byte != 0 && strchr(of->characters, byte) != NULL ? NULL : of->name;
}

/* What a column holds, in words where there are any. */
static const char *held_in(uint8_t byte, char *room)
{
    switch (byte) {
    case ' ': return "a blank";
    case '\t': return "a tab";
    case '\r': return "a carriage return";
    default: return shown(byte, room);
    }
}

/* The field that a column of this form stands in, or before; in a line of version 01 CK stands where ours have FR. */
static const char *field_name(enum line_form form, size_t column, int *before)
{
    const struct field *field = FIELD + (form == VERSION_01);
    while (field->last < column) {
        field++;
    }
    *before = column < field->first;
    return field->first > (size_t)form ? "CK" : field->name;
}

static void explain_column(enum line_form form, const uint8_t *line, size_t column, const char *what)
{
    char room[8];
    const char *held = held_in(line[column - 1], room), *name = "comment";
    int before = 0;
    if (column <= (size_t)form) {
        name = field_name(form, column, &before);
    }
    explain("column %zu (%s%s) is %s, not %s", column, before ? "before " : "", name, held, what);
}

/* A minus before a zero in one of the signed fields. */
static int minus_zero(const uint8_t *line, const struct field *field)
{
    if (KINDS[field->first - 1] != '+' || line[field->first - 1] != '-') {
        return 0;
    }
    size_t zeros = field->first;
    while (zeros < field->last && line[zeros] == '0') {
        zeros++;
    }
    return zeros == field->last;
}

static void explain_character(enum line_form form, const uint8_t *line, size_t length)
{
    for (size_t column = 1; column <= (size_t)form; column++) {
        const char *what = wanted(kind_of(form, column), line[column - 1]);
        if (what != NULL) {
            explain_column(form, line, column, what);
            return;
        }
    }
    for (const struct field *field = FIELD; field->last < (size_t)form; field++) {
        if (minus_zero(line, field)) {
            explain("column %zu (%s) is a minus before a zero, which has a plus", field->first, field->name);
            return;
        }
    }
    for (size_t column = (size_t)form + 3; column <= length; column++) {
        if (line[column - 1] < 0x20 || line[column - 1] > 0x7E) {
            explain_column(form, line, column, "a byte from 20 to 7E");
            return;
        }
    }
}

/* A byte as it is shown between quotes, where a blank is seen. */
static const char *in_quotes(uint8_t byte, char *room)
{
    return byte == ' ' ? " " : shown(byte, room);
}

static void explain_check(enum line_form form, const uint8_t *line)
{
    unsigned sum = 0;
    char first[8], second[8];
    for (size_t i = 0; i < (size_t)form; i++) {
        sum += line[i];
    }
    explain("CK, columns %d and %d, is \"%s%s\", and the columns before it give %02X", form + 1, form + 2,
            in_quotes(line[form], first), in_quotes(line[form + 1], second), sum % 256);
}

/* The number in columns that hold digits. */
static unsigned decimal(const uint8_t *line, size_t first, size_t last)
{
    unsigned number = 0;
    for (size_t column = first; column <= last; column++) {
        number = 10 * number + (unsigned)(line[column - 1] - '0');
    }
    return number;
}

static void put_unsigned(uint8_t *block, size_t at, size_t width, unsigned number)
{
    for (size_t i = 0; i < width; i++) {
        block[at + i] = (uint8_t)(number >> 8 * i);
    }
}

/* The labels where a hire block has them, so that they are explained as a block's are. */
static void put_labels(const uint8_t *line, uint8_t *block)
{
#define PUT(label, first, last) put_unsigned(block, TRACKLINE_AT_##label, TRACKLINE_WIDTH_##label, decimal(line, first, last))
    block[TRACKLINE_AT_CONSTELLATION] = line[0];
    memcpy(block + TRACKLINE_AT_FRC, line + 107, TRACKLINE_WIDTH_FRC);
    PUT(SATELLITE, 2, 3);
    PUT(MJD, 8, 12);
    PUT(ELV, 26, 28);
    PUT(AZTH, 30, 33);
    PUT(IOE, 78, 80);
    PUT(FR, 102, 103);
    PUT(HC, 105, 106);
#undef PUT
    put_unsigned(block, TRACKLINE_AT_START, TRACKLINE_WIDTH_START,
                 3600 * decimal(line, 14, 15) + 60 * decimal(line, 16, 17) + decimal(line, 18, 19));
}

/* The track length, which a block has no label for. */
static void explain_track_length(const uint8_t *line)
{
    unsigned seconds = decimal(line, 21, 24);
    if (!sizes_fit(seconds, seconds / TRACKLINE_MEASUREMENTS_OF(1))) {
        explain("TRKL is %u s, not a multiple of %d from %d to %d", seconds, TRACKLINE_MEASUREMENTS_OF(1),
                TRACKLINE_MEASUREMENTS_OF(TRACKLINE_LEAST_GROUPS), TRACKLINE_MEASUREMENTS);
    }
}

static void explain_clock(const uint8_t *line, const uint8_t *block)
{
    static const struct {
        const char *name;
        size_t first;
        unsigned most;
    } PARTS[] = {{"hour", 14, 23}, {"minute", 16, 59}, {"second", 18, 59}};
    for (size_t i = 0; i < 3; i++) {
        unsigned part = decimal(line, PARTS[i].first, PARTS[i].first + 1);
        if (part > PARTS[i].most) {
            explain("columns %zu and %zu, the %s of the start, are %02u, not 00 to %u", PARTS[i].first, PARTS[i].first + 1,
                    PARTS[i].name, part, PARTS[i].most);
            return;
        }
    }
    explain_start(block);
}

/* What a line of this form is refused for, its labels apart. Answers whether that is it. */
static int explain_form(enum line_form form, const uint8_t *line, size_t length, uint32_t number)
{
    switch (number) {
    case TRACKLINE_LINE_LENGTH:
        if (has_lone_return(line, length)) {
            explain("its lines end with carriage return alone: tr '\\r' '\\n' puts line feeds in their place");
        } else {
            explain("it has %zu byte%s", length, length == 1 ? "" : "s");
        }
        return 1;
    case TRACKLINE_CHECKSUM:
        explain_check(form, line);
        return 1;
    case TRACKLINE_CHARACTER:
        explain_character(form, line, length);
        return 1;
    default:
        return 0;
    }
}

/* 7 or 8: 9 does not arise, as enough is lent, and there is no other. */
static void explain_values(const uint8_t *line, const uint8_t *block, uint32_t number)
{
    if (number == TRACKLINE_LABEL) {
        explain_labels(block);
        explain_track_length(line);
    } else {
        explain_clock(line, block);
    }
}

void explain_line(const uint8_t *line, size_t length, uint32_t number)
{
    uint8_t block[TRACKLINE_AT_INT] = {0};
    if (!explain_form(OURS, line, length, number)) {
        put_labels(line, block);
        explain_values(line, block, number);
    }
}

/* A line of version 01, by the labels of a line of ours: what it has not is in its range. */
void explain_old_line(const uint8_t *old, size_t length, uint32_t number)
{
    uint8_t line[TRACKLINE_LINE_BYTES], block[TRACKLINE_AT_INT] = {0};
    if (!explain_form(VERSION_01, old, length, number)) {
        memset(line, '0', sizeof line);
        memcpy(line, old, VERSION_01);
        line[0] = 'G';
        put_labels(line, block);
        explain_values(line, block, number);
    }
}

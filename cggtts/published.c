/*
 * A data line as it is published: numbers filled with blanks or zeros, with or without a plus, and a comment behind it. Its CK
 * is tested first, over the characters as they stand; then its values are read, and the library makes the line of them. A line
 * of version 01 is filled as ours are, and the library makes the line of that. What keeps a line from it is named by its column,
 * counted from 1.
 */
#include "cggtts.h"

#include <ctype.h>
#include <inttypes.h>
#include <stdarg.h>
#include <stdio.h>
#include <string.h>

/* The columns that CK sums: of our lines, of those with a measured ionosphere, and of version 01 without and with one. */
enum { CHECKED = 111, CHECKED_MEASURED = 125, CHECKED_01 = 101, CHECKED_01_MEASURED = 115 };

static int at_fault(struct fault *fault, size_t column, const char *form, ...)
{
    va_list given;
    va_start(given, form);
    *fault = (struct fault){.column = column};
    vsnprintf(fault->reason, sizeof fault->reason, form, given);
    va_end(given);
    return REFUSED;
}

/* A byte as it is shown between quotes, where a blank is seen. */
static const char *seen(uint8_t byte, char *room)
{
    return byte == ' ' ? " " : shown(byte, room);
}

static unsigned sum_of(const uint8_t *line, size_t columns)
{
    unsigned sum = 0;
    for (size_t i = 0; i < columns; i++) {
        sum += line[i];
    }
    return sum % 256;
}

static unsigned digit_of(uint8_t byte)
{
    return isdigit(byte) ? byte - (unsigned)'0' : (unsigned)toupper(byte) - 'A' + 10;
}

/* Whether the two digits behind so many columns are this sum; small letters are digits too. */
static int states(const uint8_t *line, size_t length, size_t columns, unsigned sum)
{
    return length >= columns + 2 && isxdigit(line[columns]) && isxdigit(line[columns + 1])
        && 16 * digit_of(line[columns]) + digit_of(line[columns + 1]) == sum % 256;
}

/* Whether they are that of the columns. */
static int check_fits(const uint8_t *line, size_t length, size_t columns)
{
    return length >= columns + 2 && states(line, length, columns, sum_of(line, columns));
}

/* A line of another form, by its CK. Older versions have no letter in column 1. */
static int judge_form(const uint8_t *line, size_t length, struct fault *fault)
{
    int old = length > 0 && (line[0] == ' ' || line[0] == '1');
    if (check_fits(line, length, CHECKED_MEASURED)) {
        return at_fault(fault, 102, "a line of two frequencies (MSIO, SMSI, ISG), which has columns that ours has not");
    }
    if (old && check_fits(line, length, CHECKED_01_MEASURED)) {
        return at_fault(fault, 102, "a line of version 01 with a measured ionosphere (MSIO, SMSI, ISG), which has columns that ours has not");
    }
    if (old && check_fits(line, length, CHECKED_01)) {
        return at_fault(fault, 1, line[0] == '1' ? "1 stands where a line of version 01 has a blank"
                                                 : "CK is right as that of version 01 and as that of version 02: a person has to tell which");
    }
    return ACCEPTED;
}

/* Whether a line is one of version 01 by its CK, and of no other form that has no letter either. */
static int is_old(const uint8_t *line, size_t length)
{
    return length > 0 && line[0] == ' ' && check_fits(line, length, CHECKED_01) && !check_fits(line, length, CHECKED)
        && !check_fits(line, length, CHECKED_01_MEASURED) && !check_fits(line, length, CHECKED_MEASURED);
}

/* Whether the columns behind the first may be those of one: it is too short for another form, or has none of that form's blanks. */
static int has_old_columns(const uint8_t *line, size_t length)
{
    return length >= TRACKLINE_OLD_BYTES && line[CHECKED_01 - 1] == ' '
        && (length < TRACKLINE_LINE_BYTES || line[103] != ' ' || line[106] != ' ' || line[110] != ' ');
}

/* Whether it may be one whose CK is not right. */
static int looks_old(const uint8_t *line, size_t length)
{
    return has_old_columns(line, length) && line[0] == ' ';
}

/* Whether it is one but for a letter in column 1, which CK sums as it stands or as the blank that it was. */
static int has_letter_for_blank(const uint8_t *line, size_t length)
{
    return has_old_columns(line, length) && isalpha(line[0])
        && (check_fits(line, length, CHECKED_01)
            || states(line, length, CHECKED_01, sum_of(line, CHECKED_01) + 256 + ' ' - line[0]));
}

/* Whether blanks stand where they part MSIO, SMSI, ISG, FR, HC and FRC of a line of two frequencies. */
static int looks_measured(const uint8_t *line, size_t length)
{
    static const uint8_t BLANKS[] = {101, 106, 111, 115, 118, 121, 125};
    size_t i = 0;
    while (i < sizeof BLANKS && length >= CHECKED_MEASURED + 2 && line[BLANKS[i] - 1] == ' ') {
        i++;
    }
    return i == sizeof BLANKS;
}

static const char LONE_RETURN[] = "carriage return alone ends no line: tr '\\r' '\\n' puts line feeds in their place";

/* Whether a data line begins behind a carriage return, as where that alone ends lines. */
int has_lone_return(const uint8_t *line, size_t length)
{
    const uint8_t *end = memchr(line, '\r', length);
    return end != NULL && holds_data(end, length - (size_t)(end - line));
}

/* Why a line is none of ours by its CK. */
static int judge_check(const uint8_t *line, size_t length, struct fault *fault)
{
    char first[8], second[8];
    if (judge_form(line, length, fault) != ACCEPTED) {
        return REFUSED;
    }
    if (!begins_like_data(line, length)) {
        return at_fault(fault, 1, "%s", has_lone_return(line, length) ? LONE_RETURN : "neither a header's line nor a data line");
    }
    if (has_letter_for_blank(line, length)) {
        return at_fault(fault, 1, "%c stands where a line of version 01 has a blank", line[0]);
    }
    if (length < TRACKLINE_OLD_BYTES && line[0] == ' ') {
        return at_fault(fault, length + 1, "the line ends here, and a data line of version 01 has %d columns", TRACKLINE_OLD_BYTES);
    }
    size_t checked = looks_old(line, length) ? CHECKED_01 : CHECKED;
    if (length < checked + 2) {
        return at_fault(fault, length + 1, "the line ends here, and a data line has %d columns", TRACKLINE_LINE_BYTES);
    }
    if (looks_measured(line, length)) {
        return at_fault(fault, CHECKED_MEASURED + 1, "a line of two frequencies (MSIO, SMSI, ISG), whose CK is not right either");
    }
    return at_fault(fault, checked + 1,
                    "CK%s is \"%s%s\", and the columns before it give %02X: the line was changed after it was written",
                    checked == CHECKED ? "" : " of version 01", seen(line[checked], first), seen(line[checked + 1], second),
                    sum_of(line, checked));
}

/* Whether the first column of a field is for a sign. */
static int is_signed(const struct field *field)
{
    switch (field->place) {
    case TRACKLINE_VALUE_REFSV:
    case TRACKLINE_VALUE_SRSV:
    case TRACKLINE_VALUE_REFSYS:
    case TRACKLINE_VALUE_SRSYS:
    case TRACKLINE_VALUE_SMDT:
    case TRACKLINE_VALUE_SMDI:
        return 1;
    default:
        return 0;
    }
}

/* Nines in all digits of a field; in the column of its sign may be one too, or none. */
static int are_nines(const uint8_t *line, const struct field *field)
{
    uint8_t sign = line[field->first - 1];
    size_t column = field->first + (is_signed(field) && (sign == '+' || sign == '-' || sign == ' '));
    while (column <= field->last && line[column - 1] == '9') {
        column++;
    }
    return column > field->last;
}

/* Nines in all digits of a field stand for missing data, but where they are a number that the field may well have. */
static int is_missing(const uint8_t *line, const struct field *field)
{
    return field->place != TRACKLINE_VALUE_SATELLITE && field->place != TRACKLINE_VALUE_MJD && field->place != TRACKLINE_VALUE_HC
        && !(field->place == TRACKLINE_VALUE_IOE && line[0] == 'E') && are_nines(line, field);
}

/* The column behind the blanks that a field is filled with, and behind its sign. */
static size_t number_begins(const uint8_t *line, const struct field *field)
{
    size_t column = field->first;
    int whole = field->place == TRACKLINE_VALUE_SATELLITE || field->place == TRACKLINE_VALUE_MJD || field->form == CLOCK;
    while (column < field->last && line[column - 1] == ' ') {
        column++;
    }
    return column + (!whole && column < field->last && (line[column - 1] == '+' || line[column - 1] == '-'));
}

/* A decimal number; a sign may stand before its digits where a value may have one. */
static int read_number(const uint8_t *line, const struct field *field, int64_t *value, struct fault *fault)
{
    char room[8];
    size_t column = number_begins(line, field);
    int negative = column > field->first && line[column - 2] == '-';
    if (is_missing(line, field)) {
        return at_fault(fault, field->first, "%s is nines, which stand for missing data", field->name);
    }
    *value = 0;
    for (; column <= field->last; column++) {
        uint8_t byte = line[column - 1];
        if (!isdigit(byte)) {
            return at_fault(fault, column, "%s has %s where a digit belongs", field->name,
                            byte == ' ' ? "a blank" : shown(byte, room));
        }
        *value = 10 * *value + (byte - '0');
    }
    *value = negative ? -*value : *value;
    return ACCEPTED;
}

/* CL, two hexadecimal digits, the first of which may be a blank. */
static int read_class(const uint8_t *line, const struct field *field, int64_t *value, struct fault *fault)
{
    uint8_t first = line[field->first - 1], second = line[field->last - 1];
    if ((first != ' ' && !isxdigit(first)) || !isxdigit(second)) {
        return at_fault(fault, field->first, "%s is not two hexadecimal digits", field->name);
    }
    *value = (int64_t)(16 * (first == ' ' ? 0 : digit_of(first)) + digit_of(second));
    return ACCEPTED;
}

/* hhmmss as a second of the day. */
static int read_clock(const uint8_t *line, const struct field *field, int64_t *value, struct fault *fault)
{
    if (read_number(line, field, value, fault) != ACCEPTED) {
        return REFUSED;
    }
    int64_t hour = *value / 10000, minute = *value / 100 % 100, second = *value % 100;
    if (hour > 23 || minute > 59 || second > 59) {
        return at_fault(fault, field->first, "%s is %06" PRId64 ", which is no time of a day", field->name, *value);
    }
    *value = 3600 * hour + 60 * minute + second;
    return ACCEPTED;
}

int is_code(const char *code)
{
    size_t i = 0;
    while (i < FRC_WIDTH && (isupper((unsigned char)code[i]) || isdigit((unsigned char)code[i]))) {
        i++;
    }
    return i == FRC_WIDTH;
}

/* A code that our line can't hold, and the option that helps. */
static int judge_code(const uint8_t *code, struct fault *fault)
{
    char rooms[FRC_WIDTH][8], seen_code[3 * 8];
    snprintf(seen_code, sizeof seen_code, "%s%s%s", seen(code[0], rooms[0]), seen(code[1], rooms[1]), seen(code[2], rooms[2]));
    return at_fault(fault, CHECKED - FRC_WIDTH,
                    "FRC is '%s', not three of A to Z and 0 to 9; --frc '%s=NEW' puts NEW in its place", seen_code, seen_code);
}

/* FRC, three values, or those of the code that is put in its place. */
static int read_code(const uint8_t *line, const struct arguments *given, int64_t *values, struct taken *taken,
                     struct fault *fault)
{
    const uint8_t *code = line + CHECKED - 1 - FRC_WIDTH;
    const char *other = code_for(given, code), *used = other != NULL ? other : (const char *)code;
    if (!is_code(used)) {
        return judge_code(code, fault);
    }
    taken->coded = other != NULL;
    for (int i = 0; i < FRC_WIDTH; i++) {
        values[TRACKLINE_VALUE_FRC1 + i] = used[i];
    }
    return ACCEPTED;
}

static int read_letter(const uint8_t *line, int64_t *value, struct fault *fault)
{
    char room[8];
    *value = line[0];
    if (line[0] == ' ' || line[0] == '1') {
        return at_fault(fault, 1, "a line of version 02, which has no letter of a constellation");
    }
    if (line[0] == '\0' || strchr("GRECJ", line[0]) == NULL) {
        return at_fault(fault, 1, "the constellation is %s, not G, R, E, C or J", shown(line[0], room));
    }
    return ACCEPTED;
}

static int read_field(const uint8_t *line, const struct field *field, int64_t *value, struct fault *fault)
{
    switch (field->form) {
    case LETTER:
        return read_letter(line, value, fault);
    case HEXADECIMAL:
        return read_class(line, field, value, fault);
    case CLOCK:
        return read_clock(line, field, value, fault);
    default:
        return read_number(line, field, value, fault);
    }
}

/* The values of fields from one to before another but FRC, and the blank behind each. */
static int read_values(const uint8_t *line, const struct field *field, const struct field *end, int64_t *values, struct fault *fault)
{
    char room[8];
    for (; field < end; field++) {
        if (field->form != LETTER && line[field->last] != ' ') {
            return at_fault(fault, field->last + 1, "%s stands where a blank parts %s from what follows",
                            shown(line[field->last], room), field->name);
        }
        if (field->form != CHARACTERS && read_field(line, field, &values[field->place], fault) != ACCEPTED) {
            return REFUSED;
        }
    }
    return ACCEPTED;
}

struct limits {
    int64_t low, high;
};

/* Those of a field's value; for what no one limit is set, whatever its columns can hold. */
static struct limits limits_of(enum trackline_value place, char letter)
{
    static const struct limits SET[TRACKLINE_VALUES] = {
        [TRACKLINE_VALUE_SATELLITE] = {TRACKLINE_LEAST_SATELLITE, TRACKLINE_MOST_SATELLITE},
        [TRACKLINE_VALUE_HC] = {0, TRACKLINE_MOST_HC},
        [TRACKLINE_VALUE_MJD] = {FIRST_MJD, LAST_MJD},
        [TRACKLINE_VALUE_ELV] = {0, TRACKLINE_MOST_ELV},
        [TRACKLINE_VALUE_AZTH] = {0, TRACKLINE_MOST_AZTH},
        [TRACKLINE_VALUE_REFSV] = {-TRACKLINE_MOST_MIDPOINT, TRACKLINE_MOST_MIDPOINT},
        [TRACKLINE_VALUE_SRSV] = {-TRACKLINE_MOST_SLOPE, TRACKLINE_MOST_SLOPE},
        [TRACKLINE_VALUE_REFSYS] = {-TRACKLINE_MOST_MIDPOINT, TRACKLINE_MOST_MIDPOINT},
        [TRACKLINE_VALUE_SRSYS] = {-TRACKLINE_MOST_SLOPE, TRACKLINE_MOST_SLOPE},
        [TRACKLINE_VALUE_MDTR] = {0, TRACKLINE_MOST_DELAY},
        [TRACKLINE_VALUE_SMDT] = {-TRACKLINE_MOST_DELAY_SLOPE, TRACKLINE_MOST_DELAY_SLOPE},
        [TRACKLINE_VALUE_MDIO] = {0, TRACKLINE_MOST_DELAY},
        [TRACKLINE_VALUE_SMDI] = {-TRACKLINE_MOST_DELAY_SLOPE, TRACKLINE_MOST_DELAY_SLOPE},
        [TRACKLINE_VALUE_DSG] = {0, TRACKLINE_MOST_DSG},
    };
    if (place == TRACKLINE_VALUE_FR) {
        return letter == 'R' ? (struct limits){TRACKLINE_LEAST_FR_R, TRACKLINE_MOST_FR_R} : (struct limits){0, 0};
    }
    if (place == TRACKLINE_VALUE_IOE) {
        return letter == 'R' ? (struct limits){TRACKLINE_LEAST_IOE_R, TRACKLINE_MOST_IOE_R}
            : letter == 'C'  ? (struct limits){0, TRACKLINE_MOST_IOE_C}
            : letter == 'E'  ? (struct limits){0, TRACKLINE_MOST_IOE_E}
            : letter == 'J'  ? (struct limits){0, TRACKLINE_MOST_IOE_J}
                             : (struct limits){0, TRACKLINE_MOST_IOE_G};
    }
    return SET[place].low < SET[place].high ? SET[place] : (struct limits){-9999, DAY};
}

/* The first value that is beyond its limits. */
static int judge_values(const int64_t *values, struct fault *fault)
{
    char letter = (char)values[TRACKLINE_VALUE_CONSTELLATION];
    for (const struct field *field = FIELD; field < FIELD + FIELDS - 2; field++) {
        struct limits limits = limits_of(field->place, letter);
        int64_t value = values[field->place];
        if (field->place == TRACKLINE_VALUE_FR && letter == 'R' && value < limits.low) {
            return at_fault(fault, field->first, "FR is %" PRId64 ", a GLONASS channel below 1, which our line can't hold",
                            value);
        }
        if (value < limits.low || value > limits.high) {
            return at_fault(fault, field->first, "%s is %" PRId64 ", not %" PRId64 " to %" PRId64 " for %c", field->name, value,
                            limits.low, limits.high, letter);
        }
    }
    return ACCEPTED;
}

/* What the library does not make a line of, though each value is within its limits. */
static int judge_refusal(const int64_t *values, uint32_t number, struct fault *fault)
{
    int64_t start = values[TRACKLINE_VALUE_START];
    switch (number) {
    case TRACKLINE_START:
        return at_fault(fault, 14, "no track of MJD %" PRId64 " starts at %02" PRId64 ":%02" PRId64 ":%02" PRId64,
                        values[TRACKLINE_VALUE_MJD], start / 3600, start / 60 % 60, start % 60);
    case TRACKLINE_LABEL:
        return at_fault(fault, 21, "TRKL is %" PRId64 " s, not a multiple of %d from %d to %d", values[TRACKLINE_VALUE_TRKL],
                        TRACKLINE_MEASUREMENTS_OF(1), TRACKLINE_MEASUREMENTS_OF(TRACKLINE_LEAST_GROUPS), TRACKLINE_MEASUREMENTS);
    default:
        return at_fault(fault, 1, "the library refuses it with %" PRIu32, number);
    }
}

/* The line of the values, which the library makes. Within their limits they fit what it takes. */
static int make_line(const int64_t *values, uint8_t *line, struct fault *fault)
{
#define VALUE(name) values[TRACKLINE_VALUE_##name]
    if (judge_values(values, fault) != ACCEPTED) {
        return REFUSED;
    }
    uint32_t answer = trackline_line(
        (uint8_t)VALUE(CONSTELLATION), (uint8_t)VALUE(SATELLITE), (uint8_t)VALUE(CL), (uint8_t)VALUE(FR), (uint8_t)VALUE(HC),
        (uint8_t)VALUE(FRC1), (uint8_t)VALUE(FRC2), (uint8_t)VALUE(FRC3), (uint32_t)VALUE(MJD), (uint32_t)VALUE(START),
        (uint16_t)VALUE(ELV), (uint16_t)VALUE(AZTH), (uint16_t)VALUE(IOE), VALUE(REFSV), VALUE(SRSV), VALUE(REFSYS), VALUE(SRSYS),
        VALUE(MDTR), VALUE(SMDT), VALUE(MDIO), VALUE(SMDI), VALUE(DSG), VALUE(TRKL), line, TRACKLINE_LINE_BYTES);
#undef VALUE
    return answer == TRACKLINE_ACCEPTED ? ACCEPTED : judge_refusal(values, answer, fault);
}

/* What stands behind so many columns: nothing, or a comment, which ends at the last that there may be and has no data line in it. */
static int judge_comment(const uint8_t *line, size_t length, size_t columns, size_t longest, struct fault *fault)
{
    const uint8_t *comment = line + columns;
    size_t rest = length - columns;
    if (holds_data(comment, rest)) {
        return at_fault(fault, columns + 1, "%s", has_lone_return(comment, rest) ? LONE_RETURN : "another data line begins behind CK");
    }
    if (length > longest) {
        return at_fault(fault, longest + 1, "the line goes on, and a comment ends at column %zu", longest);
    }
    return ACCEPTED;
}

/* The length of a line without the blanks behind its columns. */
static size_t without_blanks(const uint8_t *line, size_t length, size_t columns)
{
    while (length > columns && line[length - 1] == ' ') {
        length--;
    }
    return length;
}

/* Whether the columns that were read are others than those that are made, FRC apart; of CK the letters may be small. */
static int is_filled(const uint8_t *line, const uint8_t *made)
{
    return memcmp(line, made, CHECKED - 1 - FRC_WIDTH) != 0 || islower(line[CHECKED]) || islower(line[CHECKED + 1]);
}

/* A value as it stands in the columns of its field. */
static void fill_field(uint8_t *line, const struct field *field, int64_t value)
{
    int width = (int)(field->last - field->first + 1);
    char text[40];
    if (field->form == HEXADECIMAL) {
        snprintf(text, sizeof text, "%02" PRIX64, (uint64_t)value);
    } else if (field->form == CLOCK) {
        snprintf(text, sizeof text, "%02" PRId64 "%02" PRId64 "%02" PRId64, value / 3600, value / 60 % 60, value % 60);
    } else {
        snprintf(text, sizeof text, is_signed(field) ? "%+0*" PRId64 : "%0*" PRId64, width, value);
    }
    memcpy(line + field->first - 1, text, (size_t)width);
}

/* The line of version 01 that has these values, filled as our lines are. */
static void fill_old(const int64_t *values, const struct field *end, uint8_t *old)
{
    char check[3];
    memset(old, ' ', TRACKLINE_OLD_BYTES);
    for (const struct field *field = FIELD + 1; field < end; field++) {
        fill_field(old, field, values[field->place]);
    }
    snprintf(check, sizeof check, "%02X", sum_of(old, CHECKED_01));
    memcpy(old + CHECKED_01, check, 2);
}

/* What a line of version 01 has not, as it is given; HC is within its limits. */
static int supply(const struct arguments *given, int64_t *values, struct fault *fault)
{
    if (given->hc == NULL || given->frc == NULL) {
        at_fault(fault, 1, "a line of version 01, which has no HC and FRC: --hc N and --frc XYZ put them in; HC is 0 where it is not known");
        fault->lacking = 1;
        return REFUSED;
    }
    read_ps(given->hc, &values[TRACKLINE_VALUE_HC]);
    values[TRACKLINE_VALUE_CONSTELLATION] = 'G';
    return ACCEPTED;
}

/* One line of version 01, which the library takes up. */
static int take_old(const uint8_t *line, size_t length, const struct arguments *given, struct taken *taken, struct fault *fault)
{
    int64_t values[TRACKLINE_VALUES] = {0};
    uint8_t old[TRACKLINE_OLD_BYTES];
    const struct field *end = field_at(CHECKED_01 + 1);
    length = without_blanks(line, length, sizeof old);
    if (supply(given, values, fault) != ACCEPTED || read_values(line, FIELD + 1, end, values, fault) != ACCEPTED
        || judge_values(values, fault) != ACCEPTED || judge_comment(line, length, sizeof old, TRACKLINE_LONGEST_OLD, fault) != ACCEPTED) {
        return REFUSED;
    }
    if (values[TRACKLINE_VALUE_TRKL] < 0) { /* its columns hold digits alone */
        return judge_refusal(values, TRACKLINE_LABEL, fault);
    }
    const uint8_t *frc = (const uint8_t *)given->frc;
    fill_old(values, end, old);
    uint32_t answer = trackline_up(old, sizeof old, (uint8_t)values[TRACKLINE_VALUE_HC], frc[0], frc[1], frc[2], taken->line,
                                   sizeof taken->line);
    taken->old = 1;
    taken->filled = memcmp(line, old, CHECKED_01) != 0 || islower(line[CHECKED_01]) || islower(line[CHECKED_01 + 1]);
    taken->commented = length > sizeof old;
    return answer == TRACKLINE_ACCEPTED ? ACCEPTED : judge_refusal(values, answer, fault);
}

/* One line, without its line end. */
int take_line(const uint8_t *line, size_t length, const struct arguments *given, struct taken *taken, struct fault *fault)
{
    int64_t values[TRACKLINE_VALUES] = {0};
    struct fault other;
    memset(taken, 0, sizeof *taken);
    if (is_old(line, length)) {
        return take_old(line, length, given, taken, fault);
    }
    length = without_blanks(line, length, TRACKLINE_LINE_BYTES);
    if (!check_fits(line, length, CHECKED)) {
        return judge_check(line, length, fault);
    }
    if (read_values(line, FIELD, FIELD + FIELDS - 1, values, fault) != ACCEPTED
        || read_code(line, given, values, taken, fault) != ACCEPTED || make_line(values, taken->line, fault) != ACCEPTED
        || judge_comment(line, length, TRACKLINE_LINE_BYTES, TRACKLINE_LONGEST_LINE, fault) != ACCEPTED) {
        *fault = judge_form(line, length, &other) != ACCEPTED ? other : *fault;
        return REFUSED;
    }
    taken->filled = is_filled(line, taken->line);
    taken->commented = length > TRACKLINE_LINE_BYTES;
    return ACCEPTED;
}

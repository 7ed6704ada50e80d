/*
 * The header of a published file (document 000, 3.2 to 3.4): a title with the version, lines of a name and =, CKSUM, and two
 * lines that head the columns. It is found by this form. A line that begins as a data line does, or has one joined to it, is
 * never taken for a header's, so that none is left out with it.
 */
#include "cggtts.h"

#include <ctype.h>
#include <string.h>

/* A header is not as long. */
enum { MOST_LINES = 100, NO_CHECK = 256 };

static const char *const NAMES[] = {"REV DATE", "RCVR", "CH", "IMS", "LAB", "X", "Y", "Z", "FRAME", "COMMENTS",
                                    "INT DLY", "SYS DLY", "TOT DLY", "CAB DLY", "REF DLY", "REF", "CKSUM"};

/* The names of the columns, those of older versions among them, each with a blank behind it. */
static const char HEADINGS[] = "SAT PRN CL MJD STTIME TRKL ELV AZTH REFSV SRSV REFSYS REFGPS SRSYS SRGPS DSG IOE MDTR SMDT MDIO "
                               "SMDI MSIO SMSI ISG FR HC FRC CK ";

static size_t blanks_at(const struct text *line, size_t at)
{
    size_t count = 0;
    while (at + count < line->length && line->at[at + count] == ' ') {
        count++;
    }
    return count;
}

static int word_at(const struct text *line, size_t at, const char *word)
{
    size_t length = strlen(word);
    return at + length <= line->length && memcmp(line->at + at, word, length) == 0;
}

/* SAT, CL and MJD of a data line of any version, whatever they are filled with. */
int begins_like_data(const uint8_t *line, size_t length)
{
    static const char KINDS[] = "A79 7F 99999";
    size_t i = 0;
    while (i < sizeof KINDS - 1 && i < length
           && (KINDS[i] == ' '       ? line[i] == ' '
                   : KINDS[i] == '9' ? isdigit(line[i])
                   : KINDS[i] == 'F' ? isxdigit(line[i])
                                     : isalnum(line[i]) || line[i] == ' ')) {
        i++;
    }
    return i == sizeof KINDS - 1;
}

/* Whether a data line begins anywhere in a line, as it does where a line end was lost. */
int holds_data(const uint8_t *line, size_t length)
{
    size_t at = 0;
    while (at < length && !begins_like_data(line + at, length - at)) {
        at++;
    }
    return at < length;
}

/* The name of the format, the word VERSION, = and two characters, with nothing behind them. */
static int is_title(const struct text *line)
{
    size_t at = 0;
    if (!word_at(line, 0, "CGGTTS ") && !word_at(line, 0, "GGTTS ")) {
        return 0;
    }
    while (at < line->length && !word_at(line, at, " VERSION")) {
        at++;
    }
    at += strlen(" VERSION");
    at += at < line->length ? blanks_at(line, at) : 0;
    if (!word_at(line, at, "=")) {
        return 0;
    }
    at += 1 + blanks_at(line, at + 1) + 2;
    return at <= line->length && at + blanks_at(line, at) == line->length;
}

/* Where = stands behind a name, counted from 1, or 0 where it does not. */
static size_t equals_behind(const struct text *line, const char *name)
{
    size_t length = strlen(name), blanks = word_at(line, 0, name) ? blanks_at(line, length) : 0;
    return word_at(line, 0, name) && word_at(line, length + blanks, "=") ? length + blanks + 1 : 0;
}

static int is_named(const struct text *line)
{
    size_t i = 0;
    while (i < sizeof NAMES / sizeof NAMES[0] && equals_behind(line, NAMES[i]) == 0) {
        i++;
    }
    return i < sizeof NAMES / sizeof NAMES[0] || blanks_at(line, 0) == line->length;
}

/* Whether the word of so many bytes is one of the names of columns. */
static int is_heading_word(const uint8_t *word, size_t length)
{
    const char *found = HEADINGS;
    while (*found != '\0' && (strcspn(found, " ") != length || memcmp(found, word, length) != 0)) {
        found += strcspn(found, " ") + 1;
    }
    return *found != '\0';
}

/* The line that names the columns: SAT, or PRN in older versions, and other such names alone. */
static int is_heading(const struct text *line)
{
    size_t at = 0, words = 0;
    if (!word_at(line, 0, "SAT ") && !word_at(line, 0, "PRN ")) {
        return 0;
    }
    while (at < line->length) {
        const uint8_t *blank = memchr(line->at + at, ' ', line->length - at);
        size_t length = blank != NULL ? (size_t)(blank - line->at) - at : line->length - at;
        if (!is_heading_word(line->at + at, length)) {
            return 0;
        }
        words++;
        at += length;
        at += blanks_at(line, at);
    }
    return words > 3;
}

/* Whether FRC is among the names of the columns. */
static int names_code(const struct text *line)
{
    size_t at = 0;
    while (at < line->length && !word_at(line, at, " FRC ")) {
        at++;
    }
    return at < line->length;
}

/* The line that names the units: hhmmss first, characters of units alone, and no 1 at its end, which is what is left of a data line. */
static int is_units(const struct text *line)
{
    size_t at = blanks_at(line, 0), last = at;
    if (!word_at(line, at, "hhmmss")) {
        return 0;
    }
    while (at < line->length && line->at[at] != '\0' && strchr(" .1dghmsnp/", line->at[at]) != NULL) {
        last = line->at[at] == ' ' ? last : at;
        at++;
    }
    return at == line->length && line->at[last] != '1';
}

static unsigned digit_of(uint8_t byte)
{
    return isdigit(byte) ? byte - (unsigned)'0' : (unsigned)toupper(byte) - 'A' + 10;
}

static unsigned sum_of(const uint8_t *bytes, size_t length)
{
    unsigned sum = 0;
    for (size_t i = 0; i < length; i++) {
        sum += bytes[i];
    }
    return sum;
}

/* CKSUM sums every character before its two digits, line ends not counted. */
static void note_check(const struct text *line, struct header *found)
{
    size_t at = equals_behind(line, "CKSUM");
    at += blanks_at(line, at);
    found->check_line = found->lines;
    found->sum = (found->sum + sum_of(line->at, at)) % 256;
    found->stated = NO_CHECK;
    if (at + 2 <= line->length && isxdigit(line->at[at]) && isxdigit(line->at[at + 1])
        && at + 2 + blanks_at(line, at + 2) == line->length) {
        found->stated = 16 * digit_of(line->at[at]) + digit_of(line->at[at + 1]);
    }
    found->fits = found->stated == found->sum;
}

/* Whether a line goes on with a header: a name and =, or, where any will do, whatever holds no data line. */
static int goes_on(const struct text *line, const struct header *found, int any)
{
    if (found->lines == 0) {
        return is_title(line);
    }
    return found->lines < MOST_LINES && found->check_line == 0 && !is_title(line) && !holds_data(line->at, line->length)
        && (any || is_named(line));
}

/* From the title to CKSUM, or as far as the lines go on with a header. */
static void walk(const struct bytes *file, size_t from, int any, struct header *found)
{
    struct text line;
    memset(found, 0, sizeof *found);
    found->next = from;
    while (text_at(file, found->next, &line) && goes_on(&line, found, any)) {
        found->lines++;
        found->next = line.next;
        if (equals_behind(&line, "CKSUM") != 0) {
            note_check(&line, found);
        } else {
            found->sum += sum_of(line.at, line.length);
        }
    }
}

/*
 * The header that begins at a byte; the two lines that head the columns are one each. What a CKSUM that is right sums is the
 * header, whatever its lines are called; else only lines of the names in the paper are.
 */
int find_header(const struct bytes *file, size_t from, struct header *found)
{
    struct text line;
    memset(found, 0, sizeof *found);
    if (!text_at(file, from, &line)) {
        return 0;
    }
    if (is_heading(&line) || is_units(&line)) {
        *found = (struct header){1, line.next, 1, 1, 0, 0};
        return 1;
    }
    walk(file, from, 1, found);
    if (!found->fits) {
        walk(file, from, 0, found);
    }
    return found->lines > 0;
}

static int is_blank(const struct bytes *file, size_t from, struct text *line)
{
    return text_at(file, from, line) && blanks_at(line, 0) == line->length;
}

/*
 * How many lines of a header whose CKSUM is right, and empty ones behind them, a file begins with; what follows begins at the
 * byte that is set.
 */
size_t header_lines(const struct bytes *file, size_t *from)
{
    struct header header;
    struct text line;
    size_t lines = 0;
    *from = text_begin(file);
    while ((find_header(file, *from, &header) && header.fits) || (lines > 0 && is_blank(file, *from, &line))) {
        lines += header.fits ? header.lines : 1;
        *from = header.fits ? header.next : line.next;
    }
    return lines;
}

/* Whether the header that a file begins with is that of version 01: by its title, or by columns that have no FRC. */
int has_old_header(const struct bytes *file)
{
    struct text line;
    if (!text_at(file, text_begin(file), &line)) {
        return 0;
    }
    size_t end = line.length;
    while (end > 0 && line.at[end - 1] == ' ') {
        end--;
    }
    return is_title(&line) ? end >= 2 && word_at(&line, end - 2, "01") : word_at(&line, 0, "PRN ") && is_heading(&line) && !names_code(&line);
}

/* Whether a file begins as a published one does, whatever it goes on with. */
int begins_with_header(const struct bytes *file)
{
    struct text line;
    return text_at(file, text_begin(file), &line)
        && (word_at(&line, 0, "CGGTTS") || word_at(&line, 0, "GGTTS") || word_at(&line, 0, "SAT") || word_at(&line, 0, "PRN"));
}

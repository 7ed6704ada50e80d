/*
 * cggtts store: a store from a text, and a text from a store. A row of the text is an entry: its date, as MJD or yyyy-mm-dd, and
 * INT, CAB, REF and, in version 2, GD. '#' begins a comment. A row "version 1" or "version 2" may stand before them; without it the
 * first entry's delays tell. A text of neither is refused, and so is one that would replace a store that has a date more. Each entry
 * is appended by the library.
 */
#define _POSIX_C_SOURCE 200809L
#include "cggtts.h"

#include <inttypes.h>
#include <stdio.h>
#include <stdlib.h>
#include <string.h>
#include <sys/stat.h>

enum { MOST_WORDS = 2 + DELAYS, NAMED = 20 };

/* What is made of the rows so far, what was wrong, and the first dates that no line has. */
struct making {
    const char *name;
    size_t line, faults, last_line; /* counted from 1; the last is that of the last entry */
    int versioned;
    size_t remarks;
    struct {
        size_t line;
        uint32_t mjd;
    } remark[NAMED];
    uint8_t bytes[2][TRACKLINE_STORE_MOST_BYTES]; /* the store, and the longer one */
    struct bytes store;
};

/* A line, for a message. */
static const char *line_of(const struct making *making, size_t line)
{
    static char room[NAME_ROOM];
    snprintf(room, sizeof room, "%.4000s:%zu", making->name, line);
    return room;
}

/* The line that is read. */
static const char *place_of(const struct making *making)
{
    return line_of(making, making->line);
}

/* Counts a fault. Answers whether it is one of those that are told. */
static int is_told(struct making *making)
{
    return making->faults++ < NAMED;
}

static void fault(struct making *making, const char *form, const char *word)
{
    char reason[NAME_ROOM];
    if (is_told(making)) {
        snprintf(reason, sizeof reason, form, word);
        complain(place_of(making), reason);
    }
}

/* Begins a store of this version. */
static void begin(struct making *making, int version)
{
    uint8_t *bytes = making->bytes[0];
    memset(bytes, 0, TRACKLINE_STORE_AT_STARTS);
    bytes[TRACKLINE_STORE_AT_VERSION] = (uint8_t)version;
    making->store = (struct bytes){bytes, TRACKLINE_STORE_AT_STARTS, TRACKLINE_STORE_MOST_BYTES};
    making->versioned = 1;
}

static void take_version(struct making *making, char **words, size_t count)
{
    int one = count == 2 && strcmp(words[1], "1") == 0, two = count == 2 && strcmp(words[1], "2") == 0;
    if (making->versioned) {
        fault(making, "'%s' has to stand before every entry, and once", words[0]);
    } else if (!one && !two) {
        fault(making, "%s is 1 or 2", words[0]);
    } else {
        begin(making, one ? 1 : 2);
    }
}

/* Keeps a date that no line has until all rows are accepted. */
static void keep_remark(struct making *making, uint32_t mjd)
{
    if (!no_line_has(mjd)) {
        return;
    }
    if (making->remarks < NAMED) {
        making->remark[making->remarks].line = making->line;
        making->remark[making->remarks].mjd = mjd;
    }
    making->remarks++;
}

/* The first 20 of them, and how many more there are. */
static void tell_remarks(const struct making *making)
{
    for (size_t k = 0; k < making->remarks && k < NAMED; k++) {
        remark_on_date(line_of(making, making->remark[k].line), making->remark[k].mjd);
    }
    if (making->remarks > NAMED) {
        explain("and %zu more", making->remarks - NAMED);
    }
}

/* Hands one entry to the library, and tells what it is refused for. */
static void take_entry(struct making *making, uint32_t mjd, char **words, const int64_t *delays)
{
    uint8_t *longer = making->store.at == making->bytes[0] ? making->bytes[1] : making->bytes[0];
    size_t written;
    uint32_t answer = trackline_append(making->store.at, making->store.length, mjd, delays[TRACKLINE_DELAYS_INT],
                                       delays[TRACKLINE_DELAYS_CAB], delays[TRACKLINE_DELAYS_REF], delays[TRACKLINE_DELAYS_GD], longer,
                                       TRACKLINE_STORE_MOST_BYTES, &written);
    if (answer == TRACKLINE_ACCEPTED) {
        making->store.at = longer;
        making->store.length = written;
        making->last_line = making->line;
        keep_remark(making, mjd);
    } else if (is_told(making)) {
        report_refusal(place_of(making), answer);
        explain_appended(&making->store, mjd, words, delays, answer);
        if (answer == TRACKLINE_NOT_LATER && mjd <= store_start(making->store.at, store_count(making->store.at) - 1)) {
            explain("that entry stands in line %zu", making->last_line);
        }
    }
}

/* The delays of a row. Answers whether each is a number. */
static int read_row(struct making *making, char **words, size_t count, int64_t *delays)
{
    int sound = 1;
    for (size_t place = 0; place < DELAYS; place++) {
        delays[place] = 0;
        if (place < count && read_ps(words[place], &delays[place]) == NO_WORD) {
            fault(making, "'%.200s' is not a whole number of ps", words[place]);
            sound = 0;
        }
    }
    return sound;
}

/* A date and three or four delays, as many as the version has. */
static void take_row(struct making *making, char **words, size_t count)
{
    int64_t delays[DELAYS];
    uint32_t mjd;
    enum word date = read_mjd(words[0], &mjd);
    if (date != FITS) {
        if (is_told(making)) {
            complain_of_date(place_of(making), words[0], date);
        }
        return;
    }
    if (!making->versioned && (count == 1 + TRACKLINE_STORE_GROUP_1 || count == 1 + TRACKLINE_STORE_GROUP_2)) {
        begin(making, count == 1 + TRACKLINE_STORE_GROUP_1 ? 1 : 2);
    }
    if (!making->versioned) {
        fault(making, "an entry is a date and three or four delays, %s", "INT CAB REF or INT CAB REF GD, in all rows alike");
    } else if (count != 1 + store_group(making->store.at)) {
        int one = store_group(making->store.at) == TRACKLINE_STORE_GROUP_1;
        fault(making, one ? "an entry of version 1 is a date and three delays, %s" : "an entry of version 2 is a date and four delays, %s",
              one ? "INT CAB REF, in all rows alike" : "INT CAB REF GD, in all rows alike");
    } else if (read_row(making, words + 1, count - 1, delays)) {
        take_entry(making, mjd, words + 1, delays);
    }
}

/* The words of a line, which is parted where they end. Those behind the last that a row can have are counted as one. */
static size_t part(char *line, char **words)
{
    size_t count = 0;
    line[strcspn(line, "#")] = '\0';
    for (char *word = strtok(line, " \t\v\f"); word != NULL && count < MOST_WORDS; word = strtok(NULL, " \t\v\f")) {
        words[count++] = word;
    }
    return count;
}

static int take_line_of_text(struct making *making, const struct text *text)
{
    char *words[MOST_WORDS], *line = malloc(text->length + 1);
    if (line == NULL) {
        complain(making->name, "out of memory");
        return FAILED;
    }
    memcpy(line, text->at, text->length);
    line[text->length] = '\0';
    size_t count = part(line, words);
    if (count > 0 && strcmp(words[0], "version") == 0) {
        take_version(making, words, count);
    } else if (count > 0) {
        take_row(making, words, count);
    }
    free(line);
    return ACCEPTED;
}

/* Every fault of the text is told, up to 20. */
static int take_text(struct making *making, const struct bytes *file)
{
    struct text text;
    int status = ACCEPTED;
    for (size_t from = text_begin(file); status == ACCEPTED && text_at(file, from, &text); from = text.next) {
        making->line++;
        status = take_line_of_text(making, &text);
    }
    if (making->faults > NAMED) {
        explain("and %zu more", making->faults - NAMED);
    }
    if (status == ACCEPTED && !making->versioned && making->faults == 0) {
        complain(making->name, "has no row; for a store without an entry write 'version 1' or 'version 2'");
        making->faults++;
    }
    return status != ACCEPTED ? status : making->faults > 0 ? REFUSED : ACCEPTED;
}

static int has_start(const uint8_t *store, uint32_t start)
{
    for (size_t entry = 0; entry < store_count(store); entry++) {
        if (store_start(store, entry) == start) {
            return 1;
        }
    }
    return 0;
}

/* The store that would be replaced, if a file there is one. */
static int old_store(const char *output, struct bytes *old)
{
    static uint8_t room[TRACKLINE_STORE_MOST_BYTES + 1];
    struct stat kind;
    FILE *file = strcmp(output, "-") != 0 && stat(output, &kind) == 0 && S_ISREG(kind.st_mode) ? fopen(output, "rb") : NULL;
    if (file == NULL) {
        return 0;
    }
    *old = (struct bytes){room, fread(room, 1, sizeof room, file), sizeof room};
    fclose(file);
    return judge_store(old) == TRACKLINE_ACCEPTED;
}

/* Whether the store at the output has a date that the new one lacks, as after an append that is not in the text. */
static int loses_entry(const char *output, const struct bytes *made)
{
    struct bytes old;
    char text[ENTRY_ROOM], reason[NAME_ROOM];
    size_t entry = 0;
    if (!old_store(output, &old)) {
        return 0;
    }
    while (entry < store_count(old.at) && has_start(made->at, store_start(old.at, entry))) {
        entry++;
    }
    if (entry == store_count(old.at)) {
        return 0;
    }
    snprintf(reason, sizeof reason, "has %s, and the text has not: nothing is written", entry_text(old.at, entry, text));
    complain(output, reason);
    explain("'cggtts store --show' shows it as a text; if the entry is to go, remove the store first");
    return 1;
}

static int make_store(const char *name, const char *output)
{
    static struct making making;
    struct bytes file;
    if (read_file(name, &file) != ACCEPTED) {
        return FAILED;
    }
    making.name = name;
    int status = REFUSED;
    if (file.length > 0 && memchr(file.at, 0, file.length) != NULL) {
        complain(name, "has bytes of 0, and so is no text; 'cggtts store --show' shows a store as a text");
    } else {
        status = take_text(&making, &file);
    }
    free_bytes(&file);
    if (status == ACCEPTED && loses_entry(output, &making.store)) {
        status = REFUSED;
    }
    if (status == ACCEPTED) {
        status = write_file(output, &making.store);
    }
    if (status == ACCEPTED) {
        tell_remarks(&making);
    }
    return status;
}

/* An entry as a row, with the calendar date behind it. */
static int put_row(struct bytes *text, const uint8_t *store, size_t entry)
{
    char row[ENTRY_ROOM], date[DATE_ROOM];
    int length = snprintf(row, sizeof row, "%-10" PRIu32, store_start(store, entry));
    for (size_t place = 0; place < store_group(store); place++) {
        length += snprintf(row + length, sizeof row - (size_t)length, " %12" PRId64, store_delay(store, entry, place));
    }
    length += snprintf(row + length, sizeof row - (size_t)length, "   # %s\n", date_text(store_start(store, entry), date));
    return append_bytes(text, row, (size_t)length);
}

static int put_heading(struct bytes *text, const uint8_t *store)
{
    char heading[2 * ENTRY_ROOM];
    int one = store_group(store) == TRACKLINE_STORE_GROUP_1;
    int length = snprintf(heading, sizeof heading, "version %d\n# %-8s %12s %12s %12s%s, in ps\n", one ? 1 : 2, "from MJD", "INT", "CAB", "REF",
                          one ? "" : "           GD");
    return append_bytes(text, heading, (size_t)length);
}

static int show_store(const char *name, const char *output)
{
    struct bytes store, text = {NULL, 0, 0};
    int status = read_store(name, &store);
    if (status != ACCEPTED) {
        return status;
    }
    status = put_heading(&text, store.at);
    for (size_t entry = 0; status == ACCEPTED && entry < store_count(store.at); entry++) {
        status = put_row(&text, store.at, entry);
    }
    if (status == ACCEPTED) {
        status = write_file(output == NULL ? "-" : output, &text);
    }
    free_bytes(&store);
    free_bytes(&text);
    return status;
}

int store_command(int argc, char **argv)
{
    struct arguments given;
    if (read_arguments(argc, argv, WITH_OUTPUT | WITH_STORE, &given) != ACCEPTED) {
        return FAILED;
    }
    if (given.count > 1) {
        return wrong_use("store: '%s' is one word too many", given.names[1]);
    }
    if (!given.show && given.output == NULL) {
        return wrong_use("store: no -o and the store to be written");
    }
    return given.show ? show_store(given.names[0], given.output) : make_store(given.names[0], given.output);
}

/* cggtts append: a store with one entry more, written whole or not at all. */
#include "cggtts.h"

#include <inttypes.h>
#include <stdio.h>
#include <string.h>

enum { STORE, MJD, FIRST_DELAY, LEAST_WORDS = FIRST_DELAY + TRACKLINE_STORE_GROUP_1, MOST_WORDS = FIRST_DELAY + TRACKLINE_STORE_GROUP_2 };

/* The delays as they are typed; GD may be left out, and is 0 then. */
static int read_delays(const struct arguments *given, char **words, int64_t *delays)
{
    for (int place = 0; place < DELAYS; place++) {
        words[place] = FIRST_DELAY + place < given->count ? given->names[FIRST_DELAY + place] : "0";
        if (read_ps(words[place], &delays[place]) == NO_WORD) {
            return wrong_use("append: %s is '%s', and not a whole number of ps", DELAY_NAME[place], words[place]);
        }
    }
    return ACCEPTED;
}

/* What was added, unless the store goes to standard output. */
static void tell(const struct arguments *given, const uint8_t *longer, const int64_t *delays)
{
    char text[ENTRY_ROOM], told[NAME_ROOM];
    if (strcmp(given->output, "-") != 0) {
        snprintf(told, sizeof told, "%s: INT %" PRId64 ", CAB %" PRId64 ", REF %" PRId64 ", GD %" PRId64 "%s",
                 entry_text(longer, store_count(longer) - 1, text), delays[TRACKLINE_DELAYS_INT], delays[TRACKLINE_DELAYS_CAB],
                 delays[TRACKLINE_DELAYS_REF], delays[TRACKLINE_DELAYS_GD], given->count < MOST_WORDS ? ", as it is left out" : "");
        complain(given->output, told);
    }
}

static int append_entry(const struct arguments *given, uint32_t mjd, char **words, const int64_t *delays, const struct bytes *store)
{
    static uint8_t longer[TRACKLINE_STORE_MOST_BYTES];
    struct bytes whole = {longer, 0, sizeof longer};
    uint32_t answer = trackline_append(store->at, store->length, mjd, delays[TRACKLINE_DELAYS_INT], delays[TRACKLINE_DELAYS_CAB],
                                       delays[TRACKLINE_DELAYS_REF], delays[TRACKLINE_DELAYS_GD], longer, sizeof longer, &whole.length);
    if (answer != TRACKLINE_ACCEPTED) {
        report_refusal(given->names[STORE], answer);
        explain_appended(store, mjd, words, delays, answer);
        return REFUSED;
    }
    int status = write_file(given->output, &whole);
    if (status == ACCEPTED) {
        remark_on_date(given->names[STORE], mjd);
        tell(given, longer, delays);
    }
    return status;
}

static int wrong_words(const struct arguments *given)
{
    if (given->count > MOST_WORDS) {
        return wrong_use("append: '%s' is one word too many", given->names[MOST_WORDS]);
    }
    if (given->count < LEAST_WORDS) {
        return wrong_use("append: %s is missing", given->count > MJD ? DELAY_NAME[given->count - FIRST_DELAY] : "the MJD or date");
    }
    return given->output == NULL ? wrong_use("append: no -o and the store to be written, which may be the same") : ACCEPTED;
}

int append_command(int argc, char **argv)
{
    struct arguments given;
    struct bytes store;
    int64_t delays[DELAYS];
    char *words[DELAYS];
    uint32_t mjd;
    if (read_arguments(argc, argv, WITH_OUTPUT | REPLACING | WITH_NUMBERS, &given) != ACCEPTED || wrong_words(&given) != ACCEPTED) {
        return FAILED;
    }
    if (complain_of_date("append", given.names[MJD], read_mjd(given.names[MJD], &mjd)) || read_delays(&given, words, delays) != ACCEPTED) {
        return FAILED;
    }
    int status = read_store(given.names[STORE], &store);
    if (status == ACCEPTED) {
        status = append_entry(&given, mjd, words, delays, &store);
        free_bytes(&store);
    }
    return status;
}
